"""Nights on clusters of this machine: four nodes of Slurm, four workers of Dask. In the middle of each a task is
killed, and a node is lost."""
import contextlib
import os
import pwd
import shutil
import socket
import subprocess
import threading
import time

import planted
from machine import SMALL, made, must_be_of_all
from packages import install
from rooms import MARK, call, fleet, kill_marked, must, must_be_same, night, parts_in, program, read, until

NODES = ["n1", "n2", "n3", "n4"]
SLURM = ("slurmctld", "slurmd", "sbatch", "munged")
DASK = ("dask-scheduler", "dask-worker")
# For processors with other work to do.
PATIENT = {"DASK_DISTRIBUTED__COMM__TIMEOUTS__CONNECT": "60s"}
# Debian's, which has Debian's packages.
PYTHON = "/usr/bin/python3"
# The name of a night's folder, of which each engine might take something for a pattern.
HOSTILE = "-the night's %j {} \\x\n$HOME"
# Stands for lockgraph: it takes a while. On one stream it kills its task, of Dask the worker too; on another one it
# says on which node it is, and waits until that is lost; each once.
STAND_IN = """#!/bin/sh
case "$*" in
*m00009.trace*)
    if mkdir "{room}/killed" 2>/dev/null; then
        [ -n "$SLURM_JOB_ID" ] || kill -9 "$(cut -d" " -f4 "/proc/$PPID/stat")"
        kill -9 "$PPID"
        exit 1
    fi ;;
*m00021.trace*)
    if mkdir "{room}/lost" 2>/dev/null; then
        echo "${{SLURMD_NODENAME:-$FLEET_NODE}}" >"{room}/lost/part"
        mv "{room}/lost/part" "{room}/lost/node"
        sleep 300
    fi ;;
esac
sleep 0.1
exec {lockgraph} "$@"
"""
SLURM_CONF = """ClusterName=fleet
SlurmctldHost={host}(127.0.0.1)
SlurmUser={user}
SlurmdUser={user}
AuthType=auth/munge
CredType=cred/munge
AuthInfo=socket={room}/munge/socket,cred_expire=5
StateSaveLocation={room}/state
SlurmdSpoolDir={room}/spool-%n
SlurmctldPidFile={room}/slurmctld.pid
SlurmdPidFile={room}/slurmd-%n.pid
SlurmctldLogFile={room}/slurmctld.log
SlurmdLogFile={room}/slurmd-%n.log
SlurmctldPort={ports[0]}
ProctrackType=proctrack/linuxproc
TaskPlugin=task/none
SwitchType=switch/none
MpiDefault=none
SchedulerType=sched/backfill
SelectType=select/cons_tres
SelectTypeParameters=CR_CPU
ReturnToService=2
SlurmdParameters=config_overrides
SlurmdTimeout=6
KillWait=1
MinJobAge=300
JobRequeue=1
SchedulerParameters=sched_interval=2,batch_sched_delay=0
{nodes}
PartitionName=all Nodes=n[1-4] Default=YES MaxTime=INFINITE State=UP
"""


def free_ports(count):
    with contextlib.ExitStack() as kept:
        sockets = [kept.enter_context(socket.socket()) for _ in range(count)]
        for it in sockets:
            it.bind(("127.0.0.1", 0))
        return [it.getsockname()[1] for it in sockets]


def start(room, name, *words, **more):
    """Starts what goes on until the room ends. What it says stands in a file of this name."""
    with open(room.path(f"{name}.said"), "ab") as out:
        return subprocess.Popen(
            words, stdin=subprocess.DEVNULL, stdout=out, stderr=out, env={**os.environ, **more}, start_new_session=True
        )


def start_slurm(room):
    """A controller and four nodes, with a munged and a configuration of their own."""
    for name in ("state", "munge"):
        room.new(name)
    ports = free_ports(5)
    nodes = "\n".join(
        f"NodeName={name} NodeHostname={socket.gethostname()} NodeAddr=127.0.0.1 Port={port} CPUs=1 RealMemory=500"
        for name, port in zip(NODES, ports[1:])
    )
    named = {"host": socket.gethostname(), "user": pwd.getpwuid(os.geteuid()).pw_name, "room": room.folder}
    conf = room.write("slurm.conf", SLURM_CONF.format(**named, ports=ports, nodes=nodes))
    key = room.write("munge/key", os.urandom(128), 0o600)
    os.environ["SLURM_CONF"] = conf
    words = [f"--{it}={room.path('munge', it)}" for it in ("socket", "pid-file", "log-file", "seed-file")]
    start(room, "munged", "munged", "--foreground", "--force", f"--key-file={key}", *words)
    until(lambda: os.path.exists(room.path("munge", "socket")), "slurm: munged doesn't start")
    start(room, "slurmctld", "slurmctld", "-D", "-f", conf)
    for name in NODES:
        start(room, name, "slurmd", "-D", "-f", conf, "-N", name, FLEET_NODE=name)
    until(
        lambda: call("sinfo", "--noheader", "--format=%T %D").stdout.strip() == b"idle 4",
        "slurm: four nodes don't come up",
    )


def start_scheduler(room):
    """A scheduler of Dask. Answers its address."""
    port = str(free_ports(1)[0])
    words = [PYTHON, shutil.which("dask-scheduler"), "--host", "127.0.0.1", "--port", port, "--no-dashboard"]
    start(room, "scheduler", *words, **PATIENT, FLEET_NODE="scheduler")
    return f"tcp://127.0.0.1:{port}"


def start_dask(room):
    """A scheduler and four workers, each with its nurse. Answers the address."""
    address = start_scheduler(room)
    worker = [PYTHON, shutil.which("dask-worker"), address, "--nthreads", "1", "--no-dashboard"]
    for name in NODES:
        own = ["--name", name, "--local-directory", room.new(f"spill-{name}")]
        start(room, name, *worker, *own, **PATIENT, FLEET_NODE=name)
    wait = f"from distributed import Client; Client({address!r}).wait_for_workers(4, timeout=60)"
    ended = call(PYTHON, "-c", wait)
    must(ended.returncode == 0, f"dask: four workers don't come up: {ended.stderr.decode()}")
    return address


def lose_a_node(room, variables):
    """Waits until a task waits on a node, and ends all that runs there."""
    while not os.path.exists(room.path("lost", "node")):
        time.sleep(0.1)
        if not os.path.exists(room.folder):
            return
    node = read(room.path("lost", "node")).decode().strip()
    for it in variables:
        kill_marked(f"{MARK}={room.folder}", f"{it}={node}")


def check_cluster(room, count, name, words, variables):
    """A night with a task killed and a node lost has the same bytes as one of one machine."""
    streams, alone, target = made(room, "streams", count), room.path("alone"), room.path(HOSTILE)
    night(streams, alone, status=1, line=planted.summary(count))
    stand_in = room.write("stand-in", STAND_IN.format(room=room.folder, lockgraph=program("lockgraph")), 0o755)
    threading.Thread(target=lose_a_node, args=[room, variables], daemon=True).start()
    ended = call(*words, streams, target, more={"LOCKGRAPH": stand_in}, timeout=1800)
    told, said = ended.stdout.decode(), ended.stderr.decode()
    must(ended.returncode == 1, f"{name}: status {ended.returncode}:\n{told}{said}")
    must(told == planted.summary(count) + "\n", f"{name}: the summary is {told}{said}")
    must(
        os.path.exists(room.path("killed")) and os.path.exists(room.path("lost", "node")),
        f"{name}: no task was killed, or no node lost",
    )
    must_be_same(alone, target, name)
    must_be_of_all(streams, count, target, name)
    must(not parts_in(target), f"{name}: parts are left")
    return said


def check_slurm(room, count):
    """A night with Slurm."""
    why = install(room, SLURM)
    if why:
        return why
    start_slurm(room)
    said = check_cluster(
        room,
        count,
        "slurm",
        [fleet("slurm/night"), "--each", str(max(4, count // 100))],
        ["FLEET_NODE", "SLURMD_NODENAME"],
    )
    must("round 2:" in said, f"slurm: a killed task brought no second round:\n{said}")
    # The task of the lost node is begun again, or has failed too, by what Slurm sees first.
    must(" FAILED; see " in said, f"slurm: a killed task isn't told:\n{said}")
    must("begun again by Slurm" in said or " 2 FAILED" in said, f"slurm: a lost node isn't told:\n{said}")
    states = call("sinfo", "--noheader", "--Node", "--format=%N %T").stdout.decode()
    must("down" in states, f"slurm: no node was lost:\n{states}")
    return None


def check_dask(room, count):
    """A night with Dask."""
    why = install(room, DASK)
    if why:
        return why
    if call(PYTHON, "-c", "import distributed").returncode != 0:
        return f"{PYTHON} has no package distributed"
    words = [PYTHON, fleet("dask/night"), "--scheduler"]
    said = check_cluster(room, count, "dask", [*words, start_dask(room)], ["FLEET_NODE"])
    must("workers lost: 1" in said, f"dask: a lost worker isn't told:\n{said}")
    check_lost_scheduler(room, words)
    return None


def check_lost_scheduler(room, words):
    """A scheduler that is lost ends the call, which says so. With another one the same call goes on."""
    streams, target = made(room, "streams", SMALL), room.path("without-scheduler")
    slow = room.write("slow", f'#!/bin/sh\nsleep 0.5\nexec {program("lockgraph")} "$@"\n', 0o755)
    more = {"LOCKGRAPH": slow, "DASK_DISTRIBUTED__COMM__TIMEOUTS__CONNECT": "3s"}
    # Those of the night before end with it.
    kill_marked(f"{MARK}={room.folder}", "FLEET_NODE=scheduler")
    check_no_worker(room, words)
    address = start_dask(room)
    check_closed(address)
    threading.Thread(target=lose_the_scheduler, args=[room, target], daemon=True).start()
    ended = call(*words, address, streams, target, more=more)
    said = ended.stderr.decode()
    must(ended.returncode == 2 and "the scheduler is lost" in said, f"dask: status {ended.returncode}:\n{said}")
    ended = call(*words, start_dask(room), streams, target)
    must(ended.stdout.decode() == planted.summary(SMALL) + "\n", f"dask: it doesn't go on:\n{ended.stderr.decode()}")


# What a client of Dask is closed before: it begins a round.
CLOSED = """
import importlib.machinery, importlib.util, sys
sys.dont_write_bytecode = True
loader = importlib.machinery.SourceFileLoader("night", sys.argv[1])
night = importlib.util.module_from_spec(importlib.util.spec_from_loader("night", loader))
loader.exec_module(night)
cluster = night.Cluster(sys.argv[2])
cluster.client.close()
try:
    cluster.start(["true"])
except night.Wrong as why:
    print(why)
"""


def check_closed(address):
    """A scheduler that is lost between two rounds is told, too."""
    named = {it: program(it.lower()) for it in ("LOCKGRAPH", "LOCKCHECK")}
    ended = call(PYTHON, "-c", CLOSED, fleet("dask/night"), address, more=named)
    must(b"the scheduler is lost" in ended.stdout, f"dask: a closed client isn't told:\n{ended.stderr.decode()}")


def check_no_worker(room, words):
    """A night that no worker does says what it waits for."""
    address = start_scheduler(room)
    waiting = start(room, "waiting", *words, address, room.path("streams"), room.path("waiting"))
    until(
        lambda: b"waiting: 0 of" in read(room.path("waiting.said")) and b"0 workers" in read(room.path("waiting.said")),
        "dask: it isn't told that there are no workers",
    )
    waiting.terminate()
    must(waiting.wait(timeout=60) != 0, "dask: a night that no worker did ended well")
    kill_marked(f"{MARK}={room.folder}", "FLEET_NODE=scheduler")


def lose_the_scheduler(room, target):
    until(lambda: parts_in(target), "dask: nothing begins")
    kill_marked(f"{MARK}={room.folder}", "FLEET_NODE=scheduler")

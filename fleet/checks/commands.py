"""The commands of docs/FLEET.md, each run as it stands there."""
import os
import re

import cluster
import packages
import planted
from rooms import ROOT, call, must, must_be_same, program, read, say

# As many streams as the night whose last line the page shows.
COUNT = 200
# Stands in the page for the scheduler's address.
ADDRESS = "tcp://head:8786"


def page():
    return read(ROOT, "docs", "FLEET.md").decode()


def commands():
    """The lines of the fenced blocks whose word is `console`."""
    blocks = re.findall(r"(?ms)^```console\n(.*?)^```$", page())
    return [line.removeprefix("$ ") for block in blocks for line in block.splitlines()]


def clusters(room):
    """Starts both clusters. Answers the address of Dask's scheduler, and the text that no command may have here."""
    address, without = None, []
    if packages.install(room, cluster.SLURM):
        without.append("fleet/slurm/")
    else:
        cluster.start_slurm(room)
    if packages.install(room, cluster.DASK):
        without.append("fleet/dask/")
    else:
        address = cluster.start_dask(room)
    return address, without


def check_commands(room, _count):
    """Each command ends well, in turn, in a folder with the streams of two nights. All engines make the same."""
    tools = room.new("tools")
    for name in ("lockgraph", "lockcheck"):
        os.symlink(program(name), os.path.join(tools, name))
    os.symlink(os.path.join(ROOT, "fleet"), room.path("fleet"))
    for name in ("monday", "tuesday"):
        planted.put(room.new(f"streams/{name}"), COUNT)
    address, without = clusters(room)
    found = commands()
    for name in ("fleet/night", "fleet/slurm/night", "fleet/dask/night", "fleet/map", "fleet/join"):
        must(any(name in it for it in found), f"commands: the page doesn't call {name}")
    must(planted.summary(COUNT) in page(), f"commands: the page doesn't show what is printed: {planted.summary(COUNT)}")
    for command in found:
        if any(it in command for it in without):
            say(f"commands: left out: {command}")
            continue
        line = command.replace(ADDRESS, address or "")
        ended = call("sh", "-c", line, folder=room.folder, more={"PATH": f"{tools}:/usr/bin:{os.environ['PATH']}"})
        must(ended.returncode in (0, 1, 3), f"commands: {command}: status {ended.returncode}: {ended.stderr.decode()}")
    for name in ("slurm", "dask", "other"):
        if os.path.exists(room.path("nights", name)):
            must_be_same(room.path("nights", "monday"), room.path("nights", name), "commands")

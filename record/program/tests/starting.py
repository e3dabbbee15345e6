"""What `run` says of a stream before the program runs, and where there is nothing to record."""

import os
import resource
import shutil
import signal
import subprocess

from building import HERE, OUT
from planting import RUN, SAYS, call, must, record, said

NO_LOCK = SAYS + "no process took a lock that the recorder sees: no report on the stream says anything\n"


def old(path):
    """Makes what an earlier recording left."""
    for name, text in ((path, "trace old\n"), (path + ".places", "places 1\n")):
        with open(name, "w", encoding="ascii") as file:
            file.write(text)


def check_old_stream(directory):
    """An earlier recording is gone before the program runs, also where that is killed with `run`."""
    stream = os.path.join(directory, "old.trace")
    old(stream)
    answer = record(stream, "old", ["sh", "-c", f"ls {stream} {stream}.places; kill -KILL $PPID"])
    must((answer.returncode, answer.stdout) == (-signal.SIGKILL, ""),
         f"old stream: {answer.returncode} {answer.stdout}")
    must(not os.path.exists(stream), "there is a stream of an earlier recording")
    link = os.path.join(directory, "link.trace")
    old(stream)
    os.symlink(stream, link)
    record(link, "old", ["true"])
    with open(stream, encoding="ascii") as lines:
        must(os.path.islink(link) and "old" not in lines.read(), "a link isn't followed to the stream")


# What a user's file may be, and what is replaced: nothing yet, or a stream.
KEPT = ("notes\n", "#include <stdio.h>\nint main(void) { return 0; }\n", "#!/bin/sh\ntrue\n", "# a note\n",
        "\ntraces 1\n", "\x7fELF")
REPLACED = ("", "trace old\n", "# a note\n\n \t# another\n\ttrace old\n", "# process 1 /bin/true\n")


def check_other_files(directory):
    """A file that is neither empty nor a stream stays, and the program doesn't run. So does one in the place of
    the map."""
    stream, ran = os.path.join(directory, "users-own"), os.path.join(directory, "users-ran")
    for path, texts, name in ((stream, KEPT, "a stream"), (stream + ".places", KEPT + ("trace old\n",), "a map")):
        for text in texts:
            with open(path, "w", encoding="ascii") as file:
                file.write(text)
            answer = record(stream, "other", ["touch", ran])
            said_so = f"{SAYS}{path}: this isn't {name}, so it stays: name another file with -o, or remove it\n"
            must((answer.returncode, answer.stderr) == (125, said_so), f"{text!r}: {answer}")
            with open(path, encoding="ascii") as file:
                must(file.read() == text and not os.path.exists(ran), f"{text!r} is replaced, or the program ran")
        os.unlink(path)
    for text in REPLACED:
        with open(stream, "w", encoding="ascii") as file:
            file.write(text)
        must(record(stream, "other", ["true"]).returncode == 0, f"{text!r} isn't replaced")
        with open(stream, encoding="ascii") as file:
            must("trace old" not in file.read(), f"{text!r} isn't replaced")


def check_standard_output(directory):
    """A stream doesn't take the place of what the program prints. It goes into a pipe, also into one of another
    descriptor."""
    printed, inversion = os.path.join(directory, "printed"), os.path.join(directory, "inversion-0", "inversion")
    for stream, text in (("/dev/stdout", "the program's output goes there: name another file with -o"),
                         (printed, "the program's output goes there: name another file with -o"),
                         ("-", "standard output is the program's: name a file with -o")):
        with open(printed, "w", encoding="ascii") as file:
            answer = subprocess.run([RUN, "-o", stream, "echo", "words"], stdout=file, stderr=subprocess.PIPE,
                                    text=True, check=False, cwd=directory)
        must((answer.returncode, answer.stderr) == (125, f"{SAYS}{stream}: {text}\n"), f"{stream}: {answer}")
        must(os.path.exists(printed) and not os.path.exists(os.path.join(directory, "-")), f"{stream}: files")
    reading, writing = os.pipe()
    into_own = record("/dev/stdout", "pipe", [inversion])
    into_other = record(f"/dev/fd/{writing}", "pipe", [inversion], pass_fds=[writing])
    os.close(writing)
    with open(reading, encoding="ascii") as file:
        for answer, text in ((into_own, into_own.stdout), (into_other, file.read())):
            must(answer.returncode == 0 and "\ntrace pipe-1\n" in text, f"a stream into a pipe: {answer} {text}")


def check_not_started(directory):
    """A program that can't be started is said so in words, as a shell does by its status, and an earlier recording
    stays."""
    folder = os.path.join(directory, "not-started")
    os.mkdir(folder)
    stream = os.path.join(folder, "stream")
    old(stream)

    def made(name, text, mode):
        path = os.path.join(folder, name)
        with open(path, "w", encoding="ascii") as file:
            file.write(text)
        os.chmod(path, mode)
        return path

    programs = (
        ("./there-is-none", 127, "there is no such program"),
        ("there-is-none", 127, "there is no such program"),
        (folder, 126, "is a folder"),
        (made("text", "#!/bin/sh\n", 0o644), 126, "isn't executable"),
        (made("nothing", "true\n", 0o755), 126, "can't be started: it is no program, and has no #! line"),
        (made("no-shell", "#!/nowhere/sh\n", 0o755), 127, "what interprets or loads it isn't there"),
    )
    files = sorted(os.listdir(folder))
    for program, status, text in programs:
        answer = record(stream, "none", [program])
        must((answer.returncode, answer.stderr) == (status, f"{SAYS}{program}: {text}\n"), f"{program}: {answer}")
        with open(stream, encoding="ascii") as file, open(stream + ".places", encoding="ascii") as places:
            must((file.read(), places.read()) == ("trace old\n", "places 1\n"), f"{program}: the recording is lost")
        must(sorted(os.listdir(folder)) == files, f"{program}: the files are {os.listdir(folder)}")


def check_no_folder(directory):
    """A stream that can't be written is refused before the program runs."""
    ran = os.path.join(directory, "ran")
    nowhere = os.path.join(directory, "nowhere")
    for stream, text in ((os.path.join(nowhere, "t"), f"there is no folder {nowhere}"),
                         (directory, "is a folder")):
        answer = record(stream, "none", ["touch", ran])
        must((answer.returncode, answer.stderr) == (125, f"{SAYS}{stream}: {text}\n"),
             f"{stream}: {answer.returncode} {answer.stderr}")
    stream = os.path.join(directory, "no-folder.trace")
    old(stream)
    # Where no file may have a byte, there is no folder for the recording either.
    answer = record(stream, "none", ["touch", ran],
                    preexec_fn=lambda: resource.setrlimit(resource.RLIMIT_FSIZE, (0, 0)))
    must(answer.returncode == 125 and answer.stderr.startswith(f"{SAYS}there is no folder for the recording: ")
         and answer.stderr.endswith(": name one by TMPDIR\n"), f"no temporary folder: {answer}")
    must(os.path.exists(stream), "the earlier recording is gone though there is no new one")
    must(not os.path.exists(ran), "the program ran though its stream can't be written")
    answer = record("/dev/null", "none", ["true"])
    must(answer.returncode == 0, f"/dev/null: {answer.stderr}")


def check_nothing_seen(directory):
    """A program that can't be recorded is said to be what it is, also one that a script names; and there is
    no stream. The status is its own."""
    program, script = os.path.join(directory, "static"), os.path.join(directory, "script")
    compiled = call(["cc", "-static", "-x", "c", "-o", program, "-"], input="int main(void) { return 3; }")
    must(compiled.returncode == 0, f"static: {compiled.stderr}")
    with open(script, "w", encoding="ascii") as file:
        file.write(f"#!{program}\n")
    os.chmod(script, 0o755)
    stream = os.path.join(directory, "static.trace")
    for command in (program, script):
        old(stream)
        answer = record(stream, "static", [command])
        text = f"{stream} wasn't written: {program} is static, so that it loads no recorder\n"
        must((answer.returncode, answer.stderr) == (3, SAYS + text), f"static: {answer.stderr}")
        must(not os.path.exists(stream), "there is a stream of a static program")
    answer = record(stream, "no-file", ["true"],
                    preexec_fn=lambda: resource.setrlimit(resource.RLIMIT_FSIZE, (65536, 65536)))
    must("ended before it loaded the recorder, or could make no file of 256 KiB in " in answer.stderr,
         f"no file: {answer.stderr}")
    if os.geteuid() != 0 or os.statvfs(directory).f_flag & os.ST_NOSUID:
        return
    rights = os.path.join(directory, "rights")
    shutil.copy(shutil.which("true"), rights)
    os.chown(rights, 65534, -1)
    os.chmod(rights, 0o4755)
    answer = record(stream, "rights", [rights])
    must("rights gets other rights as it starts, so that it loads no recorder" in answer.stderr,
         f"setuid: {answer.stderr}")


def check_no_lock(directory):
    """A program that took no lock, and one under valgrind, are said to be so."""
    stream = os.path.join(directory, "no-lock.trace")
    must(NO_LOCK in said(record(stream, "true", ["true"])), "true: run doesn't say that it took no lock")
    inversion = os.path.join(directory, "inversion-0", "inversion")
    must(NO_LOCK not in said(record(stream, "inversion", [inversion])), "inversion took locks")
    if shutil.which("valgrind"):
        notes = said(record(stream, "valgrind", ["valgrind", "-q", inversion]))
        must("ran under valgrind, and the recorder can't\n" in notes and NO_LOCK in notes,
             f"valgrind: {notes}")


# A compiler that says the version in VERSION, counts in `built` what it builds, and makes what is built already.
COMPILER = """\
#!/bin/sh
[ "$1" = --version ] && exec cat VERSION
for target; do :; done
echo "$target" >>VERSION.built
case $target in *merge.*) exec cp OUT/merge "$target" ;; esac
exec cp OUT/liblockrecord.so "$target"
"""


def copy_of_recorder(folder):
    """Copies what `run` needs into a new folder, and gives the copy of `run`."""
    os.mkdir(folder)
    for name in ("run", "building.py", "stream.py"):
        shutil.copy(os.path.join(HERE, name), folder)
    for name in ("library", "merger"):
        shutil.copytree(os.path.join(HERE, name), os.path.join(folder, name))
    return os.path.join(folder, "run")


def replace(path, old, new, count=-1):
    with open(path, encoding="utf-8") as file:
        text = file.read()
    must(old in text, f"{path} has no {old}")
    with open(path, "w", encoding="utf-8") as file:
        file.write(text.replace(old, new, count))


def built_by(run, log, compiler):
    """How many files `run` builds where this compiler is set, which notes each in a log."""
    with open(log, encoding="utf-8") as lines:
        before = len(lines.readlines())
    answer = call([run, "-o", log + ".trace", "true"], env=os.environ | {"CC": compiler})
    must(answer.returncode == 0, f"{compiler}: {answer.stderr}")
    with open(log, encoding="utf-8") as lines:
        return len(lines.readlines()) - before


def check_makers(directory):
    """The library and the merger are built anew by another compiler, another version of it or with other flags, and
    not else. What came without a note of its maker stays, and so does all if the compiler can't be asked."""
    run = copy_of_recorder(os.path.join(directory, "by-makers"))
    folder, compiler = os.path.dirname(run), os.path.join(directory, "compiler")
    version, other = os.path.join(directory, "version"), os.path.join(directory, "other")
    for path, text in ((version, "one"), (version + ".built", ""),
                       (compiler, COMPILER.replace("VERSION", version).replace("OUT", OUT))):
        with open(path, "w", encoding="utf-8") as file:
            file.write(text)
    os.chmod(compiler, 0o755)
    os.symlink(compiler, other)

    def forget_makers():
        for name in ("liblockrecord.so", "merge"):
            os.unlink(os.path.join(folder, "out", name + ".made"))

    for change, words, expected in (
            (lambda: None, compiler, 2),
            (lambda: None, compiler, 0),
            (lambda: replace(version, "one", "two"), compiler, 2),
            (lambda: None, other, 2),
            (lambda: replace(os.path.join(folder, "building.py"), "-gdwarf-4", "-gdwarf-5"), other, 1),
            (lambda: None, "false", 0),
            (forget_makers, compiler, 0),
            (lambda: os.utime(os.path.join(folder, "merger", "merge.c")), compiler, 1)):
        change()
        count = built_by(run, version + ".built", words)
        must(count == expected, f"makers: {count} files were built, and not {expected}")


def check_stream_cut_off(directory):
    """A stream that can't be written whole isn't left: half of it would be judged. A program that ended well ends with
    125 then, and any other as it ended."""
    run = copy_of_recorder(os.path.join(directory, "cut-off"))
    replace(os.path.join(os.path.dirname(run), "merger", "merge.c"), "    int64_t bytes = close_stream(",
            "    fflush(stream);\n    raise(SIGKILL);\n    int64_t bytes = close_stream(")
    replace(os.path.join(os.path.dirname(run), "merger", "merge.c"), "#include", "#include <signal.h>\n#include", 1)
    stream = os.path.join(directory, "cut-off.trace")
    inversion = os.path.join(directory, "inversion-0", "inversion")
    for words, status in (([inversion], 125), (["sh", "-c", f"{inversion}; exit 7"], 7)):
        answer = call([run, "-o", stream, *words])
        text = f"{SAYS}{stream}: the recording is lost, since the stream couldn't be written whole\n"
        must((answer.returncode, answer.stderr) == (status, text), f"a stream that is cut off: {answer}")
        must(not os.path.exists(stream) and not os.path.exists(stream + ".places"), "a part of a stream is left")


def check_full_disk(directory):
    """The same of a disk that is full."""
    stream = os.path.join(directory, "full.trace")
    os.symlink("/dev/full", stream)
    answer = call([RUN, "-o", stream, os.path.join(directory, "inversion-0", "inversion")])
    text = f"{SAYS}{stream}: the stream couldn't be written\n"
    must(answer.returncode == 125 and answer.stderr.startswith(text), f"a full disk: {answer}")


def check_valgrind_by_clang(directory):
    """A recorder that clang built says that a program ran under valgrind, too."""
    if not shutil.which("clang") or not shutil.which("valgrind"):
        return
    run = copy_of_recorder(os.path.join(directory, "by-clang"))
    inversion = os.path.join(directory, "inversion-0", "inversion")
    answer = call([run, "-o", os.path.join(directory, "clang.trace"), "valgrind", "-q", inversion],
                  env=os.environ | {"CC": "clang"})
    must("ran under valgrind, and the recorder can't\n" in answer.stderr, f"valgrind, by clang: {answer.stderr}")

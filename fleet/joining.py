"""The tree by which the reduced streams of a night come to one."""
import contextlib
import filecmp
import hashlib
import os
import shutil

from nights import REDUCED, Counts, Wrong, is_counted, shown, stamp_of, told, whole
from reducing import Failed, Faulty, count_traces, join_streams, put_counts

MIB = 1 << 20
# A group is held in memory as it is reduced, and a stream has at most 2 GiB.
GROUP, LARGEST_GROUP = 256 * MIB, 1024 * MIB
# As many traces has a stream at most.
MOST_TRACES = 65_535
# Refused traces are kept while no more than so many stand in all streams: else they alone could be too many.
MOST_REFUSED = 10_000


class Member:
    """A reduced stream that is to be joined: its path without ending, its bytes, and its counts."""

    def __init__(self, path):
        self.path, self.size, self.counts = path, os.path.getsize(path + REDUCED), Counts.of(path)

    def key(self):
        """What it is known by: with the same key it has the same bytes."""
        return f"{os.path.basename(self.path)} {self.size} {self.counts.stamp}\n"


def members_of(night):
    """The reduced streams of a night, in the order of their names, and before them that of the night before. Those that
    are empty, of traces that show nothing, have nothing to be joined."""
    names = [it for it, how in night.endings(night.names()).items() if how == REDUCED]
    before = [night.file("before")] if is_counted(night.file("before")) else []
    found = [Member(it) for it in before + [night.result(it) for it in names]]
    return [it for it in found if it.size > 0]


def keeps_refused(members):
    return sum(it.counts.refused for it in members) <= MOST_REFUSED


def groups_of(members, size):
    """Members in their order, put together while they have no more bytes than this, and no more traces than a stream
    may have. A group has two members at least, whatever these have, but the last one."""
    groups, total, traces = [], 0, 0
    for it in members:
        total, traces = total + it.size, traces + it.counts.traces
        if groups and (len(groups[-1]) == 1 or total <= size and traces <= MOST_TRACES):
            groups[-1].append(it)
        else:
            groups.append([it])
            total, traces = it.size, it.counts.traces
    return groups


def name_of(members, keeps):
    """The name, without ending, of what these are joined to."""
    text = "".join(it.key() for it in members) + f"refused {keeps}"
    return hashlib.sha256(os.fsencode(text)).hexdigest()[:32]


class Tree:
    """The joins of a night. What was joined before of the same streams isn't joined again."""

    def __init__(self, night, size):
        self.night, self.size = night, size
        self.members = members_of(night)
        self.keeps = keeps_refused(self.members)
        # What all are joined to in the end.
        self.top = night.file("join", f"all-{name_of(self.members, self.keeps)}")

    def is_made(self):
        """Whether night.trace is what all come to: another call may have left it to something else, or to nothing."""
        try:
            return filecmp.cmp(self.top + REDUCED, self.night.file("night.trace"), shallow=False)
        except FileNotFoundError:
            return False

    def make(self, reducer, say):
        """Joins level by level. `say` tells how far it is."""
        members, level = self.members, 0
        while len(members) > 1 or level == 0 and members and not self.keeps:
            groups = groups_of(members, self.size)
            level += 1
            size = sum(it.size for it in members)
            say(f"level {level}: {len(members)} streams of {size} bytes in {len(groups)} groups")
            members = [self.joined(reducer, it) for it in groups]
        self.put(members)

    def joined(self, reducer, group):
        """What a group is joined to."""
        if len(group) == 1 and self.keeps:
            return group[0]
        target = self.night.file("join", name_of(group, self.keeps))
        if not is_counted(target):
            try:
                join_streams(reducer, target, [it.path for it in group], self.keeps)
            except Faulty as fault:
                raise Wrong(f"what is left is too much for one stream: {fault}") from None
        return Member(target)

    def put(self, members):
        """Gives what all were joined to its names."""
        for path in (self.top + REDUCED, self.night.file("night.trace")):
            with whole(path) as out:
                for it in members:
                    with open(it.path + REDUCED, "rb") as file:
                        shutil.copyfileobj(file, out, MIB)


def keep_before(reducer, night, before):
    """What was left the night before stands before all streams, so that halves of different nights meet; but not its
    refused traces, which that night told. Without a night before there is none."""
    path = night.file("before")
    if before is None:
        with contextlib.suppress(FileNotFoundError):
            os.unlink(path + REDUCED)
        return
    trace = os.path.join(before, "night.trace")
    try:
        with open(trace, "rb") as source, whole(path + REDUCED) as out:
            if os.path.getsize(trace) > 0:
                reducer.run(["-"], out, source=source)
            put_counts(path, Counts(count_traces(out.name), 0, stamp_of(trace)))
    except (OSError, Faulty, Failed) as error:
        at = "" if getattr(error, "filename", None) else f"{shown(trace)}: "
        raise Wrong(f"{at}{told(error)}") from None

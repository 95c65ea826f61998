"""The cases of `edges` in which two calls of the system fail in one run of `make` or of `replace`.

Whichever two fail, it ends as ever, or with a line of docs/FORMATS.md, "Command line". What was there
before is as it was, and what was created is gone, but for the one file whose taking back is the call that
failed. Where the making of the set had begun, files of it have other bytes, and as many."""
import errno, itertools, random

from faulty_calls import failing
from nth_calls import FAULTS, LINKED, Faulty, documented, numbers, put_more
from shared import SLOTS
from trials import BYTES, LOST, NO_SET
from trials import check, check_files, differing, file, held

# What is tried: a command, the start, and the slots whose files are links.
TRIED = (
    ("make", "empty", ()),
    ("make", "some", ()),
    ("make", "mixed", ()),
    ("make", "empty", LINKED),
    ("replace", "absent", ()),
    ("replace", "short", ()),
    ("replace", "given up", ()),
    ("replace", "absent", (LOST,)),
)
# So many calls of a kind fail first, and for each so many later ones of a kind do then.
FIRST, SECOND, ENOUGH = 3, 2, 20
# Starts with a file that a fault keeps from being opened: long enough, too short, empty, and of a set.
UNOPENED = (("some", 0), ("mixed", 0), ("mixed", 2), ("whole", 0))
# The calls by which a file is taken back, each with the slots of `mixed` that it is for.
TAKES_BACK = {"unlink": (1, 3), "path": (1, 3), "cut": (0, 2, 4)}


class Twice(Faulty):
    """A command of which two calls failed."""

    def left(self):
        """The file whose taking back failed, where that was one of the calls, stays, too."""
        left, failed = super().left(), {kind for kind, _, _ in self.faults} & {*TAKES_BACK}
        others = [it for it in differing(self.found, self.kept) if it not in left]
        return left + [it for it in others if self.may_stay(it, failed)][:1]

    def may_stay(self, name, failed):
        """Whether a file was created and can't be removed, or was lengthened and can't be cut."""
        was, now = self.kept.get(name), self.found.get(name)
        if was is None or now is None:
            return was is None and failed != {"cut"} and bool(failed)
        is_longer = len(now) > len(was) and (self.is_begun() or now.startswith(was))
        return is_longer and "cut" in failed

    def check_no_set(self):
        """The set that a start has is there as before, where no byte of it was changed."""
        if self.start != "whole":
            super().check_no_set()


def counted(trials, calls, name, start, slots, **said):
    """How a command ends, and its calls that can fail, in order, each its kind and its number."""
    with trials.over(start) as folder:
        put_more(folder, slots)
        (status, _, _), kinds = calls.log("COUNTED", name, folder, **said)
    numbers = {kind: itertools.count(1) for kind in FAULTS}
    return status, [(kind, next(numbers[kind])) for kind in kinds]


def some_of(chance, found, many):
    """So many calls of each kind, or all where there are no more."""
    for kind in FAULTS:
        of_kind = [it for it in found if it[0] == kind]
        yield from chance.sample(of_kind, min(many, len(of_kind)))


def pairs(trials, calls, line, *case):
    """A call fails, and then one that is made after it. Left out first is a look at a file by which the
    command is not stopped, since it may not know then what the file was."""
    chance, many = random.Random(str(case)), 0
    fails = lambda call: (*call, chance.choice(FAULTS[call[0]]))
    for first in [fails(it) for it in some_of(chance, counted(trials, calls, *case)[1], FIRST)]:
        status, found = counted(trials, calls, *case, FAULTS=failing(*first))
        if first[0] == "stat" and not status:
            continue
        later = found[found.index(first[:2]) + 1 :]
        for second in [fails(it) for it in some_of(chance, later, SECOND)]:
            many += Twice(trials, calls, line, *case, first, second).run()
    check(f"{case}, {many} pairs of faults, enough", many >= ENOUGH, True)


def unopened(trials, calls, line, start, slot):
    """A file that is there can't be opened, for a fault of its own, and then each later call fails."""
    said, many = {"OPEN_NAME": file(slot), "OPEN_FAULT": errno.EIO}, 0
    _, found = counted(trials, calls, "make", start, (), **said)
    for kind, all_of in FAULTS.items():
        last = sum(1 for it in found if it[0] == kind)
        for number in itertools.takewhile(lambda number: number <= last, numbers()):
            fault = (kind, number, all_of[number % len(all_of)])
            many += Twice(trials, calls, line, "make", start, (), fault, unopened=file(slot)).run()
    check(f"make from {start} where {file(slot)} has a fault, {many} more, enough", many >= ENOUGH, True)


def taken_back(trials, calls, name, start, slots, kind, refused):
    """What was made is taken back, and that fails with one file after the other. That one stays, and all
    others are as they were."""
    for number, slot in enumerate(slots, 1):
        with trials.over(start) as folder:
            kept, faults = held(folder), f"{failing(*refused)} {failing(kind, number, errno.EIO)}"
            (status, output, _), many = calls.ask_counting(name, folder, FAULTS=faults)
            what = f"{name} from {start}, refused by a fault of {refused[0]}, and {kind} {number} fails"
            check(f"{what}, its end", (status, output, many), (1, "", 2))
            kept[file(slot)] = kept.get(file(slot), b"").ljust(BYTES[slot], b"\0")
            check_files(what, held(folder), kept)
            if name == "make":
                check(f"{what}, then the status", trials.ask("status", folder), NO_SET)
            trials.count()


def each_taken_back(trials, calls):
    """Files are taken back, each but one."""
    for refused in (("names", 1, errno.EIO), ("sync", SLOTS, errno.EIO)):
        for kind in ("unlink", "path"):
            taken_back(trials, calls, "make", "empty", range(SLOTS), kind, refused)
    for kind, slots in TAKES_BACK.items():
        taken_back(trials, calls, "make", "mixed", slots, kind, ("names", 1, errno.EIO))
    for kind in ("unlink", "path"):
        taken_back(trials, calls, "replace", "absent", [LOST], kind, ("names", 1, errno.EIO))


def groups():
    """All of this, in parts."""
    line = documented()
    found = [lambda trials, calls, case=case: pairs(trials, calls, line, *case) for case in TRIED]
    found += [lambda trials, calls, case=case: unopened(trials, calls, line, *case) for case in UNOPENED]
    return [*found, each_taken_back]

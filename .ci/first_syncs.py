"""The cases of `edges` of how a command begins: which calls it makes before it reads, in which
order, and what it does where the first sync of a file fails. An inspection makes none of these syncs."""
import errno, itertools

from faulty_calls import failing
from shared import SLOTS
from trials import COMMANDS, LOST, MADE
from trials import asked, check, check_files, file, held

SYNCS, ALL = ("fsync", "fdatasync"), range(10)
# A slot after the set, of the start that has files in all ten.
BEYOND = 7
NO_ROOM = {errno.ENOSPC: "no space left on device", errno.EDQUOT: "disk quota exceeded"}
# A sync that fails for another reason, also that of a file that has none.
BROKEN = (errno.EIO, errno.EINVAL)
# The commands that go on where a file is lost, and the others but those that make files.
READS = ("status", "run", "scrub", "fail", "upgrade", "rebuild")


def begun_over(name):
    """A start over which a command has something to do, and whose files are all there."""
    return {"replace": "given up", "rebuild": "joined"}.get(name, "whole")


def of_sync(number, fault):
    return {"FAULTS": failing("sync", number, fault)}


# The order of calls


def calls_of(calls, name, folder):
    """The calls of a command on device files, each its kind and its file."""
    said, found = calls.log("CALLED", name, folder)
    return said, [tuple(it.split(" ")) for it in found]


def beginning(found):
    """The calls before the first read of a device file or a change of one."""
    ends = (at for at, it in enumerate(found) if it[0] not in ("open", "lock", *SYNCS))
    return found[: next(ends, len(found))]


def order_of_calls(trials, calls):
    """A command opens all ten files, and locks those that are there; then it syncs each of these
    once; then it reads, or changes something."""
    starts = [(name, start) for name in COMMANDS for start in ("ten", "absent", begun_over(name))]
    starts += [("make", "empty"), ("make", "some"), ("replace", "short")]
    for name, start in starts:
        with trials.over(start) as folder:
            there = [it for it in map(file, ALL) if (folder / it).exists()]
            _, found = calls_of(calls, name, folder)
            what, begins = f"{name} from {start}", beginning(found)
            wanted = []
            for it in map(file, ALL):
                wanted += [("open", it)] + [("lock", it)] * (it in there)
            wanted += [("fsync", it) for it in there]
            on_devices = [it for it in begins if it[1] != folder.name]
            check(f"{what}, its first calls", on_devices[: len(wanted)], wanted)
            more = [it for it in begins[len(wanted) :] if it[0] not in SYNCS]
            check(f"{what}, what else it opens or locks", more, [])
            trials.count()


def inspects_only(trials, calls):
    """An inspection opens each file, and calls for nothing but reads."""
    for start in ("ten", "whole", "absent", "short", "joined", "empty"):
        with trials.over(start) as folder:
            _, found = calls_of(calls, "examine", folder)
            kinds = {kind for kind, _ in found}
            check(f"examine from {start}, its calls", kinds - {"open", "read"}, set())
            opened = [name for kind, name in found if kind == "open"]
            check(f"examine from {start}, what it opens", opened, [*map(file, ALL)])
            trials.count()


def folder_of_replace(trials, calls):
    """A replace syncs the folder before the command itself, whether the file was there or not."""
    for start in ("given up", "absent", "short"):
        with trials.over(start) as folder:
            said, found = calls_of(calls, "replace", folder)
            what = f"replace from {start}"
            check(what, said, (0, "ok\n", ""))
            synced = [at for at, it in enumerate(found) if it == ("fsync", folder.name)]
            # Of the others the command writes none before: so the first that is written tells.
            others = {file(slot) for slot in range(SLOTS) if slot != LOST}
            first = next(at for at, it in enumerate(found) if it[0] == "write" and it[1] in others)
            check(f"{what}, a sync of the folder before", bool(synced) and synced[0] < first, True)
            own = [at for at, it in enumerate(found) if it == ("write", file(LOST))]
            is_before = start != "given up" or synced[0] < own[0]
            check(f"{what}, a sync of the folder before its own file", is_before, True)
            trials.count()


# Faults of the first syncs


def lost_by_sync(trials, calls):
    """A file whose first sync fails is a lost device, as one that is not there. Its slot is missing
    in each table that is written then."""
    for name, slot, fault in itertools.product(READS, (*range(SLOTS), BEYOND), BROKEN):
        start = "ten" if slot == BEYOND else begun_over(name)
        what = f"{name} from {start}, where sync of {file(slot)} fails with {fault}"
        with trials.over(start) as folder:
            (folder / file(slot)).unlink()
            wanted, after = trials.ask(name, folder), held(folder)
        with trials.over(start) as folder:
            said, is_seen = calls.ask(name, folder, **of_sync(slot + 1, fault))
            check(what, (said, is_seen), (wanted, True))
            after[file(slot)] = trials.starts[start][file(slot)]
            check_files(what, held(folder), after)
            if start == "whole" and name in ("status", "run") and slot < SLOTS:
                status = trials.ask("status", folder)[1].splitlines()
                states = [it.split()[2] for it in status[4:]]
                marked = ["missing" if it == slot else "in-sync" for it in range(SLOTS)]
                check(f"{what}, the slots then", states, marked)
            trials.count()


def no_room(trials, calls):
    """A first sync that finds no room is told, and nothing is changed."""
    for name, fault, slot in itertools.product(COMMANDS, NO_ROOM, (*range(SLOTS), BEYOND)):
        start = "ten" if slot == BEYOND or name == "make" else begun_over(name)
        with trials.over(start) as folder:
            what = f"from {start}, where sync of {file(slot)} finds no room"
            told = f"cannot sync {file(slot)}: {NO_ROOM[fault]}\n"
            calls.refused(what, name, told, folder, **of_sync(slot + 1, fault))
    with trials.over("some") as folder:
        told = f"cannot sync {file(4)}: {NO_ROOM[errno.EDQUOT]}\n"
        calls.refused("over some files", "make", told, folder, **of_sync(3, errno.EDQUOT))


def interrupted(trials, calls):
    """A first sync that is interrupted is made again."""
    for name, slot, many in itertools.product(COMMANDS, (0, 4), (1, 3)):
        start = begun_over(name)
        with trials.over(start) as folder:
            wanted, after = trials.ask(name, folder), held(folder)
        with trials.over(start) as folder:
            faults = (failing("sync", slot + 1 + it, errno.EINTR) for it in range(many))
            said, is_seen = calls.ask(name, folder, FAULTS=" ".join(faults))
            what = f"{name} from {start}, where {many} syncs of {file(slot)} are interrupted"
            check(what, (said, is_seen), (wanted, True))
            check_files(what, held(folder), after)
            trials.count()


def unmade_by_sync(trials, calls):
    """No set is made with a file whose first sync fails, and none such is taken into a slot; one
    after the set is as if it was not there."""
    there = (0, 1, 4, 7)
    cases = [("make", "some", number, slot) for number, slot in enumerate(there, 1)]
    cases += [("make", "ten", slot + 1, slot) for slot in range(10)]
    cases += [("replace", start, 1, LOST) for start in ("given up", "short")]
    for (name, start, number, slot), fault in itertools.product(cases, BROKEN):
        what = f"from {start}, where sync of {file(slot)} fails with {fault}"
        with trials.over(start) as folder:
            if slot < SLOTS:
                told = f"cannot make {file(slot)}\n"
                calls.refused(what, name, told, folder, **of_sync(number, fault))
                continue
            said, is_seen = calls.ask(name, folder, **of_sync(number, fault))
            check(f"{name} {what}", (said, is_seen), (MADE, True))
            kept = trials.starts[start][file(slot)]
            check(f"{name} {what}, its bytes", (folder / file(slot)).read_bytes(), kept)
            trials.works(f"{name} {what}", folder)
            trials.count()
    # The file of another slot: the set lacks two.
    for slot in range(LOST + 1, SLOTS):
        with trials.over("given up") as folder:
            (folder / file(slot)).unlink()
            _, _, told = trials.ask("replace", folder)
        with trials.over("given up") as folder:
            what = f"where sync of {file(slot)} fails"
            calls.refused(what, "replace", told, folder, **of_sync(slot + 1, errno.EIO))


GROUPS = (order_of_calls, inspects_only, folder_of_replace, lost_by_sync, no_room, interrupted)
GROUPS += (unmade_by_sync,)

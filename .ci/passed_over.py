"""The cases of `edges` of files that are there and can't be opened. A command goes on without one where the set, by its other files, calls the slot
missing, and says so; else it is refused, and no file is changed."""
import contextlib, fcntl, struct

from trials import COMMANDS, LOST
from trials import check, check_files, file, held, inspected, missing

GET_FLAGS, SET_FLAGS, IMMUTABLE = 0x80086601, 0x40086602, 0x10
WHY = "operation not permitted\n"
# The commands that make no file, nor need that of a slot.
GO_ON = ("status", "run", "scrub", "fail", "rebuild", "upgrade")
# A slot that is in sync, and one after the set, of the start that has files in all ten.
IN_SYNC, BEYOND = 1, 7


def flag(path, is_immutable):
    """Marks a file as one that nobody may change, or takes the mark away."""
    with open(path, "rb") as opened:
        flags = struct.unpack("l", fcntl.ioctl(opened, GET_FLAGS, bytes(8)))[0] & ~IMMUTABLE
        fcntl.ioctl(opened, SET_FLAGS, struct.pack("l", flags | IMMUTABLE * is_immutable))


@contextlib.contextmanager
def closed(folder, *slots):
    """The files of these slots can't be opened for writing for a while."""
    marked = []
    try:
        for slot in slots:
            flag(folder / file(slot), True)
            marked.append(slot)
        yield
    finally:
        for slot in marked:
            flag(folder / file(slot), False)


def goes_on(trials, name):
    """A command says what it says where the file is away, after a line for the file that is passed over, and changes the same bytes."""
    with trials.over("absent") as folder:
        status, output, told = trials.ask(name, folder)
        wanted = held(folder)
    with trials.over("given up") as folder:
        wanted[file(LOST)] = held(folder)[file(LOST)]
        with closed(folder, LOST):
            said = trials.ask(name, folder)
        what = f"{name} without a file that can't be opened"
        check(what, said, (status, output, f"without {file(LOST)}: {WHY}{told}"))
        check_files(what, held(folder), wanted)
        trials.count()


def passed_over(trials):
    """A file that can't be opened: of a slot that is missing, of one that is in sync, of both, and after the set."""
    try:
        with trials.over("given up") as folder, closed(folder, LOST):
            pass
    except OSError as fault:
        print(f"left out: files that are passed over: {fault.strerror}")
        return
    for name in GO_ON:
        goes_on(trials, name)
    refused = (("given up", (LOST,), LOST, ("make", "replace")), ("given up", (IN_SYNC,), IN_SYNC, COMMANDS))
    refused += (("given up", (LOST, IN_SYNC), IN_SYNC, GO_ON), ("ten", (BEYOND,), BEYOND, COMMANDS))
    for start, slots, named, commands in refused:
        with trials.over(start) as folder, closed(folder, *slots):
            what, said = "where a file that is needed can't be opened", inspected()
            trials.each_refused(what, f"cannot open {file(named)}: {WHY}", folder, commands)
            trials.inspects(what, folder, missing("there generation 1 incarnation 1 called missing") if start == "given up" else said)

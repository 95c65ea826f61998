"""The cases of `edges` in which a call of the system ends with a fault: a library that is loaded
before the system's (shim.c, by LD_PRELOAD) sees to that. A C compiler (`cc`, or what CC names)
builds it."""
import errno, itertools, os, pathlib, shutil, subprocess

from shared import SLOTS
from trials import ABSENT, COMMANDS, LOST, MADE, SCRIPTS
from trials import asked, check, check_files, check_text, differing, file, held, inspected

UNREADABLE = {
    errno.EACCES: "permission denied",
    errno.EPERM: "operation not permitted",
    errno.EROFS: "read-only file system",
    errno.EMFILE: "too many open files",
    errno.ENFILE: "too many open files in system",
}
SHIM = pathlib.Path(__file__).resolve().parent / "shim.c"


def compiled(folder):
    """The library, or None where there is no compiler."""
    compiler = shutil.which(os.environ.get("CC", "cc"))
    if not compiler:
        return None
    path = folder / "shim.so"
    line = [compiler, "-O1", "-shared", "-fPIC", SHIM, "-o", path, "-ldl"]
    subprocess.run(line, check=True)
    return path


def failing(kind, number, fault, is_on=False):
    """What the library is told of a call that fails, and of each one after it, if it is on."""
    return f"{kind}:{number}{'+' * is_on}:{fault}"

def built(trials):
    """The program with the library, or None where there is no compiler, or it is not called."""
    path = compiled(trials.tools)
    if not path:
        print("left out: faults of the system's calls, since there is no C compiler")
        return None
    calls = Calls(trials, path)
    with trials.over("whole") as folder:
        _, is_seen = calls.ask("status", folder, OPEN_NAME=file(1), OPEN_FAULT=errno.EIO)
    if not is_seen:
        print("left out: faults of the system's calls, since the program does not call the library")
        return None
    return calls


class Calls:
    """The program with the library before it."""

    def __init__(self, trials, library):
        self.trials, self.library = trials, library

    def environment(self, seen, said):
        said = {name: str(value) for name, value in said.items()}
        return {**os.environ, "LD_PRELOAD": str(self.library), "SEEN": str(seen), **said}

    def new_path(self):
        """A path of its own beside the library, at which there is nothing."""
        return self.trials.tools / self.trials.new_name()

    def ask(self, name, folder, script=SCRIPTS[0], **said):
        """What a command says where calls have these faults, and whether any had one."""
        told, many = self.ask_counting(name, folder, script, **said)
        return told, many > 0

    def ask_counting(self, name, folder, script=SCRIPTS[0], **said):
        """The same, and how many had one."""
        seen = self.new_path()
        told = self.trials.ask(name, folder, script, env=self.environment(seen, said))
        many = len(seen.read_bytes()) if seen.exists() else 0
        seen.unlink(missing_ok=True)
        return told, many

    def log(self, variable, name, folder, **said):
        """What a command says, and the lines that the library writes to the file of this variable."""
        log = self.new_path()
        told, _ = self.ask(name, folder, **{variable: log}, **said)
        lines = log.read_text(encoding="utf-8").splitlines() if log.exists() else []
        log.unlink(missing_ok=True)
        return told, lines

    def refused(self, what, name, told, folder, **said):
        """A command that is refused for such a fault."""
        seen = self.new_path()
        env = self.environment(seen, said)
        self.trials.refused(f"{name} {what}", asked(name, folder), told, folder, env=env)
        check(f"{name} {what}, a fault", seen.exists(), True)
        seen.unlink()


def opens_once(trials, calls):
    """Each device file is opened once, whether it is there or not."""
    names = [file(slot) for slot in range(10)]
    for name, start in itertools.product(COMMANDS, ("whole", "ten")):
        with trials.over(start) as folder:
            _, found = calls.log("OPENED", name, folder)
            check(f"{name}, the files that it opens", sorted(found), names)
            trials.count()


def unopened(trials, calls):
    """Each file cannot be opened, for a reason that is told."""
    for slot, name in itertools.product(range(10), COMMANDS):
        fault = list(UNREADABLE)[(slot + COMMANDS.index(name)) % len(UNREADABLE)]
        told = f"cannot open {file(slot)}: {UNREADABLE[fault]}\n"
        with trials.over("ten") as folder:
            what = f"with fault {fault} for {file(slot)}"
            calls.refused(what, name, told, folder, OPEN_NAME=file(slot), OPEN_FAULT=fault)
            calls.refused(what, "examine", told, folder, OPEN_NAME=file(slot), OPEN_FAULT=fault)


def lost_by_a_fault(trials, calls):
    """A file that can't be opened for another reason is a lost device, as one that is not there."""
    reads = ("status", "run", "scrub", "fail")
    for fault, name in itertools.product((errno.EIO, errno.ENXIO), reads):
        with trials.over("whole") as folder:
            (folder / file(1)).unlink()
            wanted, after = trials.ask(name, folder), held(folder)
        with trials.over("whole") as folder:
            said, _ = calls.ask(name, folder, OPEN_NAME=file(1), OPEN_FAULT=fault)
            check(f"{name} with fault {fault}", said, wanted)
            after[file(1)] = trials.starts["whole"][file(1)]
            check_files(f"{name} with fault {fault}", held(folder), after)
            trials.count()
    for fault, slot in itertools.product((errno.EIO, errno.ENXIO), range(10)):
        with trials.over("ten") as folder:
            said = calls.ask("examine", folder, OPEN_NAME=file(slot), OPEN_FAULT=fault)
            wanted = inspected({slot: ABSENT} if slot < SLOTS else ())
            check(f"examine with fault {fault} for {file(slot)}", said, (wanted, True))
            check_files("the same", held(folder), trials.starts["ten"])
            trials.count()


def no_start(trials, calls):
    """What stands in for closed streams cannot be opened."""
    numbers = (errno.EMFILE, errno.ENFILE, errno.EACCES)
    for fault, name in itertools.product(numbers, ("run", "make", "status", "examine")):
        with trials.over("whole") as folder:
            said, is_seen = calls.ask(name, folder, OPEN_NAME="/", OPEN_FAULT=fault)
            what = f"{name} that cannot start"
            if is_seen:
                told = f"cannot start: {os.strerror(fault)} (os error {fault})\n"
                check(what, said, (1, "", told))
                check_files(what, held(folder), trials.starts["whole"])
                trials.count()


def no_memory(trials, calls):
    """The first allocation is refused, before the words are read."""
    with trials.over("whole") as folder:
        said, is_seen = calls.ask("status", folder, FAULTS=failing("memory", 1, errno.ENOMEM))
        if not is_seen:
            print("left out: memory for the words, since the program takes it elsewhere")
            return
        check("status without memory", said, (1, "", "refused 14 Memory\n"))
        check_files("status without memory", held(folder), trials.starts["whole"])
        trials.count()


def unlocked(trials, calls):
    """No file can be locked: others have them, or the file system has no locks."""
    none = (errno.ENOLCK, errno.EOPNOTSUPP)
    for name, fault in itertools.product(COMMANDS, (errno.EWOULDBLOCK, *none)):
        with trials.over("whole") as folder:
            wanted, after = trials.ask(name, folder), held(folder)
        faults = failing("lock", 1, fault, is_on=True)
        with trials.over("whole") as folder:
            if fault not in none:
                told = f"in use {file(0)}\n"
                calls.refused("without a lock", name, told, folder, FAULTS=faults)
                continue
            said, is_seen = calls.ask(name, folder, FAULTS=faults)
            check(f"{name} where there are no locks", (said, is_seen), (wanted, True))
            check_files(f"{name} where there are no locks", held(folder), after)
            trials.count()


def renamed(trials, calls):
    """A file gives its name up, to another one or to none, right after its lock."""
    for name, slot, has_next in itertools.product(COMMANDS, range(SLOTS), (False, True)):
        with trials.over("whole") as folder:
            (folder / "next").write_bytes(b"next" * 50_000)
            kept, said = held(folder), {"LOCK_TO": folder / file(slot)}
            del kept[file(slot)]
            if has_next:
                said["LOCK_FROM"] = folder / "next"
                kept[file(slot)] = kept.pop("next")
            told = calls.ask(name, folder, **said)
            what = f"{name} whose {file(slot)} gave its name up to {'another' * has_next or 'none'}"
            check(what, told, ((1, "", f"in use {file(slot)}\n"), True))
            check_files(what, held(folder), kept)
            trials.count()


def folder_syncs(trials, calls, name, start, slots=()):
    """Each sync of a folder has a fault in turn. These slots are links into a folder below it.
    Returns how many there are."""
    for number in itertools.count(1):
        with trials.over(start) as folder:
            (folder / "disk").mkdir()
            for slot in slots:
                (folder / file(slot)).symlink_to(f"disk/raid{slot}.img")
            kept = held(folder)
            faults = failing("names", number, errno.EIO)
            said, is_seen = calls.ask(name, folder, FAULTS=faults)
            what = f"{name} with a fault of sync {number} of a folder"
            if not is_seen:
                check(f"{what}, where there is none", (said[0], said[2]), (0, ""))
                return number - 1
            check(what, said, (1, "", f"cannot sync {folder}\n"))
            check_files(what, held(folder), kept)
            trials.count()


def unsynced_folders(trials, calls):
    """Each folder that names what was made is synced, where it can be."""
    wanted = (("make", "empty", (), 1), ("make", "empty", (1, 2), 2), ("make", "some", (), 1))
    wanted += (("replace", "absent", (), 1), ("replace", "absent", (LOST,), 2))
    wanted += (("replace", "given up", (), 1),)
    for name, start, slots, least in wanted:
        many = folder_syncs(trials, calls, name, start, slots)
        check(f"{name}, {many} syncs of {least} folders, enough", many >= least, True)
    with trials.over("empty") as folder:
        said, _ = calls.ask("make", folder, FAULTS=failing("names", 1, errno.EINVAL))
        check("make in a folder that has no sync", said, MADE)
    with trials.over("empty") as folder:
        said, _ = calls.ask("make", folder, OPEN_NAME=folder.name, OPEN_FAULT=errno.EACCES)
        check("make in a folder that cannot be opened", said, MADE)
    trials.count(2)


def file_syncs(trials, calls, name, start, inspect):
    """Each sync of a file has a fault in turn."""
    for number in itertools.count(1):
        with trials.over(start) as folder:
            faults = failing("sync", number, errno.EIO)
            said, is_seen = calls.ask(name, folder, FAULTS=faults)
            if not is_seen:
                check(f"{name}, {number - 1} syncs of files, enough", number > 1, True)
                return
            inspect(f"{name} with a fault of sync {number} of a file", folder, said)
            trials.count()


def unsynced_files(trials, calls):
    """Nothing is said to be made that could not be synced, no file stays that was created or longer
    than it was, and a set loses one device at most."""

    def made(what, folder, said):
        check(what, said[:2], (1, ""))
        check_text(what, said[2], r"cannot make dev\d\.img\n|refused 11 NotUsable\n")

    def made_anew(what, folder, said):
        made(what, folder, said)
        check_files(what, held(folder), {})

    def made_over(what, folder, said):
        if said == MADE:
            # The first sync of a file after the set, which then counts as one that is not there.
            check(f"{what}, which one", what, "make with a fault of sync 4 of a file")
            trials.works(what, folder)
            return
        made(what, folder, said)
        found, kept = held(folder), trials.starts["some"]
        sizes = lambda files: {name: len(content) for name, content in files.items()}
        check(f"{what}, the sizes", sizes(found), sizes(kept))
        # In the files of the set that were there, what the making wrote of it stays.
        same = [file(7)] if said[2].startswith("refused") else list(kept)
        is_same = [name not in differing(found, kept) for name in same]
        check(f"{what}, what {same} hold", all(is_same), True)

    def replaced(what, folder, said):
        check(what, said[:2], (1, ""))
        check(f"{what}, whether its file is there", (folder / file(LOST)).exists(), False)
        if said[2] == f"cannot make {file(LOST)}\n":
            check_files(what, held(folder), trials.starts["absent"])
        check(f"{what}, the status", trials.ask("status", folder)[0], 0)
        check(f"{what}, then another one", trials.ask("replace", folder), (0, "ok\n", ""))
        check(f"{what}, then rebuild", trials.ask("rebuild", folder), (0, "complete\n", ""))
        trials.works(what, folder, "5a*512\na5*512\n")

    def served(what, folder, said):
        check(what, said, (0, "ok\nok\n11*512\n12*512\na 64\n", ""))
        reads = "read a 0 2\nread a 40 1\nread a 62 2\n"
        blocks = (0, "11*512\n12*512\n13*512\n01*512\n02*512\n", "")
        check(f"{what}, what is read", trials.ask("run", folder, reads), blocks)

    file_syncs(trials, calls, "make", "empty", made_anew)
    file_syncs(trials, calls, "make", "some", made_over)
    file_syncs(trials, calls, "replace", "absent", replaced)
    file_syncs(trials, calls, "run", "whole", served)


def created_by_another(trials, calls):
    """Another program puts a file at the path of a slot right before it is created. Where the
    command then fails, that file is still there, with its bytes."""
    cases = [("make", "empty", slot) for slot in range(SLOTS)]
    cases += [("make", "some", 2), ("replace", "absent", LOST)]
    for name, start, slot in cases:
        with trials.over(start) as folder:
            (folder / "theirs").write_bytes(b"theirs" * 99)
            kept = held(folder)
            kept[file(slot)] = kept.pop("theirs")
            said = {"PUT_NAME": file(slot), "PUT_FROM": folder / "theirs"}
            said["FAULTS"] = failing("names", 1, errno.EIO)
            (status, output, told), is_seen = calls.ask(name, folder, **said)
            what = f"{name} from {start}, where another program creates {file(slot)}"
            check(what, (status, output, is_seen), (1, "", True))
            found = held(folder)
            if name == "replace" and not found.get(file(slot), b"\1").strip(b"\0"):
                # It was too short, and emptied first.
                kept[file(slot)] = found[file(slot)]
            check_files(f"{what}, which told {told!r}", found, kept)
            trials.count()


GROUPS = (opens_once, unopened, lost_by_a_fault, no_start, no_memory, unlocked, renamed)
GROUPS += (unsynced_folders, unsynced_files, created_by_another)

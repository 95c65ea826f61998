"""The cases of `edges` in which a command's calls of the system fail in turn: of each kind the
first, the second, and so on, until it makes no more.

Whichever call fails, the command ends as ever, or with a line of docs/FORMATS.md, "Command line".
What is not the set's is as it was. After a refusal that comes before the set is touched all files
are so; a set that was there still assembles, lacks one slot at most, and has what was
acknowledged."""
import errno, itertools, re

from shared import TOP, Failed
from faulty_calls import failing
from inspections import told_in
from trials import LOST, MADE, NO_SET
from trials import check, check_files, check_text, differing, differs, file, held

# The numbers with which a call of each kind fails.
FAULTS = {
    "open": (errno.EIO, errno.EACCES, errno.EMFILE, errno.ENOENT),
    "create": (errno.ENOSPC, errno.EACCES, errno.EMFILE),
    "lock": (errno.EWOULDBLOCK, errno.ENOLCK),
    "stat": (errno.EIO, errno.ENOMEM, errno.ENOENT),
    "sync": (errno.EIO, errno.ENOSPC, errno.EDQUOT, errno.EINTR),
    "names": (errno.EIO, errno.EACCES, errno.EINVAL),
    "cut": (errno.EIO, errno.ENOSPC),
    "read": (errno.EIO,),
    "write": (errno.ENOSPC, errno.EIO, errno.EINTR),
    "unlink": (errno.EIO,),
    "path": (errno.ENOMEM, errno.EIO),
}
# A folder that has no sync at all is passed over.
PASSED_OVER = ("names", (errno.EACCES, errno.EINVAL))
# Up to this number each call of a kind fails, and then one in a growing number.
EACH = 24
LINKED = (1, 2)
BESIDE = {"dev9.img": b"of no set" * 99, "notes.txt": b"beside"}
# What is tried: a command, the start, and the slots whose files are links, each into a folder of
# its own.
TRIED = (
    ("make", "empty", ()),
    ("make", "some", ()),
    ("make", "empty", LINKED),
    ("replace", "absent", ()),
    ("replace", "short", ()),
    ("replace", "given up", ()),
    ("replace", "absent", (LOST,)),
    ("fail", "whole", ()),
    ("upgrade", "whole", ()),
    ("status", "whole", ()),
    ("status", "absent", ()),
    ("run", "whole", ()),
    ("run", "joined", ()),
    ("rebuild", "joined", ()),
    ("scrub", "whole", ()),
    ("examine", "whole", ()),
)
# Some kinds of call of which a command makes at least one.
MADE_BY = {
    "make": ("open", "create", "lock", "stat", "sync", "names", "write"),
    "run": ("open", "lock", "read", "write", "sync"),
    "replace": ("open", "lock", "stat", "sync", "names", "read", "write"),
    "examine": ("open", "stat", "read"),
}
MADE_BY.update((name, ("open", "lock", "stat", "sync")) for name in ("status", "scrub"))
# And the kinds of which some make none.
NOT_MADE_BY = {
    "examine": ("create", "lock", "sync", "names", "cut", "write", "unlink"),
    "status": ("create", "names", "cut", "unlink"),
}
SCRIPT = "write a 0 11*512 12*512\nwrite a 40 13*512\nread a 0 2\nlist\n"
REPLIES = "ok\nok\n11*512\n12*512\na 64\n"
OUTPUTS = {"make": MADE[1], "replace": "ok\n", "fail": "ok\n", "upgrade": "ok\n", "run": REPLIES}
OUTPUTS.update(rebuild="complete\n", scrub="256 rows, 0 bad\n")
TWO_LOST = (1, "", "refused 15 TwoLost\n")
# The refusals after which a device may have failed in the call, and what was begun may stand.
FALLS = (9, 11, 12, 13, 15, 16)


def section(title):
    """A section of docs/FORMATS.md."""
    text = (TOP / "docs/FORMATS.md").read_text(encoding="utf-8")
    return text.partition(f"\n## {title}\n")[2].partition("\n## ")[0]


def documented():
    """The lines with which a command may end with status 1, by docs/FORMATS.md."""
    names = re.findall(r"^\| (\d+) \| (\w+) \|", section("Refusals"), re.M)
    refusals = "|".join(f"{number} {name}" for number, name in names)
    rows = re.findall(r"^\| 1 \| `([^`]+)`( and why)? \| (.*) \|$", section("Command line"), re.M)
    found = []
    for text, why, meaning in rows:
        line = re.escape(text).replace("devK", r"dev\d").replace("FOLDER", ".+")
        line = re.sub(r"refused\\ \d+\\ \w+", f"refused (?:{refusals})", line)
        reasons = re.findall(r"`([^`]+)`", meaning) or [".+"]
        found.append(line + f"(?:{'|'.join(reasons)})" * bool(why) + r"\n")
    if len(names) != 22 or len(found) != 9:
        text = f"{len(names)} refusals, and {len(found)} lines of status 1"
        raise Failed(f"docs/FORMATS.md has {text}")
    return "|".join(found)


def numbers():
    """Numbers of calls: each of the first ones, and then one in more and more."""
    number = 1
    while True:
        yield number
        number += 1 + max(0, number - EACH) // 4


def put_more(folder, slots):
    """The files of these slots are links, each into a folder of its own, and other files are beside."""
    for slot in slots:
        (folder / f"disk{slot}").mkdir()
        (folder / file(slot)).unlink(missing_ok=True)
        (folder / file(slot)).symlink_to(f"disk{slot}/raid.img")
    for name, content in BESIDE.items():
        (folder / name).write_bytes(content)


class Faulty:
    """A command over a folder of which a call failed, or some, and how it ended."""

    def __init__(self, trials, calls, line, name, start, slots, *faults, unopened=None):
        self.trials, self.calls, self.line = trials, calls, line
        self.name, self.start, self.slots, self.faults = name, start, slots, faults
        texts = [f"{errno.errorcode[error]} for {kind} {number}" for kind, number, error in faults]
        # A file whose first open fails, too.
        self.more = {"OPEN_NAME": unopened, "OPEN_FAULT": errno.EIO} if unopened else {}
        texts += [f"for the open of {unopened}"] if unopened else []
        self.what = f"{name} from {start}, with links {slots}, and {' and '.join(texts)}"

    def told(self, number):
        return self.said[2].startswith(f"refused {number} ")

    def run(self):
        """Makes the calls fail, and says whether all were made; then all that has to hold is
        checked."""
        with self.trials.over(self.start) as folder:
            self.folder = folder
            put_more(folder, self.slots)
            self.kept, log = held(folder), self.calls.new_path()
            faults = " ".join(failing(*it) for it in self.faults)
            said = {"FAULTS": faults, "SYNCED": log, **self.more}
            self.said, many = self.calls.ask_counting(self.name, folder, SCRIPT, **said)
            is_seen = many == len(self.faults) + bool(self.more)
            self.found = held(folder)
            self.synced = log.read_text(encoding="utf-8").splitlines() if log.exists() else []
            log.unlink(missing_ok=True)
            if is_seen:
                self.check()
            self.trials.count(is_seen)
        return is_seen

    def check(self):
        status, output, told = self.said
        for name, content in BESIDE.items():
            check(f"{self.what}, what {name} holds", self.found.get(name), content)
        check(f"{self.what}, the status where it told {told!r}", status, int(bool(told)))
        if status:
            check_text(self.what, told, self.line)
            self.check_refused(output)
        elif self.name in OUTPUTS:
            check(f"{self.what}, the output", output, OUTPUTS[self.name])
        self.check_set()

    def is_begun(self):
        """Whether it was refused, and what was begun may stand."""
        return any(self.told(it) for it in FALLS)

    def check_refused(self, output):
        """A refusal before the set is touched leaves all files as they were."""
        if self.name != "run":
            check(f"{self.what}, the output where it is refused", output, "")
        if self.name == "make":
            self.check_unmade()
        elif not self.is_begun() or self.name == "examine":
            self.check_untouched()

    def left(self):
        """The file that was created, and that another program seems to have: it stays, with nothing
        in it."""
        named = re.fullmatch(r"in use dev(\d)\.img\n", self.said[2])
        if not named:
            return []
        slot = int(named[1])
        place = f"disk{slot}/raid.img" if slot in self.slots else file(slot)
        return [place] if place not in self.kept and self.found.get(place) == b"" else []

    def check_untouched(self):
        left = self.left()
        other = [it for it in differing(self.found, self.kept) if it not in left]
        if self.name == "replace" and self.start == "short" and file(LOST) in other:
            # It was emptied first, and that stays.
            other.remove(file(LOST))
            check(f"{self.what}, what is left of it", self.found[file(LOST)].strip(b"\0"), b"")
        check(f"{self.what}, what was changed where it told {self.said[2]!r}", other, [])

    def check_unmade(self):
        """No file stays that it created, and none is longer than it was. No byte is another one,
        where the making had not begun."""
        if not self.is_begun():
            self.check_untouched()
            return
        left, size = self.left(), lambda it: len(it) if isinstance(it, bytes) else it
        sizes = lambda files: {name: size(it) for name, it in files.items() if name not in left}
        check(f"{self.what}, the sizes", sizes(self.found), sizes(self.kept))
        check(f"{self.what}, what dev7.img holds", self.found.get(file(7)), self.kept.get(file(7)))

    def check_set(self):
        """What the set is, after it."""
        if self.name == "make" and not self.said[0]:
            self.check_synced()
            self.trials.works(self.what, self.folder)
        elif self.name == "make":
            self.check_no_set()
        elif self.name == "examine":
            self.check_inspection()
        else:
            self.check_still_there()

    def check_synced(self):
        """Each folder in which something was created was synced, where that can be."""
        for kind, _, error in self.faults:
            is_passed_over = error in PASSED_OVER[1] and kind in (PASSED_OVER[0], "open")
            if is_passed_over or (kind, error) == ("stat", errno.ENOENT):
                return
        wanted = {str(self.folder), *(str(self.folder / f"disk{slot}") for slot in self.slots)}
        check(f"{self.what}, the folders that were synced", wanted - {*self.synced}, set())

    def check_no_set(self):
        """There is no set. In files that were there what the making wrote of it stays, on too few
        to assemble."""
        said = self.trials.ask("status", self.folder)
        is_in_part = said == TWO_LOST and (self.start != "empty" or bool(self.left()))
        check(f"{self.what}, then the status", said, TWO_LOST if is_in_part else NO_SET)

    def check_inspection(self):
        """An inspection changes nothing, whatever it tells."""
        self.check_untouched()
        if self.said[2].startswith("in use"):
            differs(self.what, "an inspection asks for a lock")
        if not self.said[0] and len([*told_in(self.what, self.said[1])]) != 1:
            differs(self.what, "another number of sets than one is told")

    def check_still_there(self):
        """The set assembles, lacks one slot more at most, and has what was acknowledged."""
        if self.name == "replace" and not self.said[0]:
            self.check_synced()
        status, output, told = self.trials.ask("status", self.folder)
        check(f"{self.what}, then the status", (status, told), (0, ""))
        out = len(re.findall(r" (?:missing|rebuilding) ", output))
        check(f"{self.what}, the slots that it lacks", out <= 1, True)
        if self.name == "status" and not self.said[0]:
            check(f"{self.what}, the status that it told", self.said[1], output)
        reads = self.trials.ask("run", self.folder, "read a 0 2\nread a 40 1\nread a 62 2\n")
        check(f"{self.what}, then a run", reads, (0, self.blocks(reads[1]), ""))

    def blocks(self, got):
        """The blocks that have to be there: those of what was acknowledged, and of more, if these
        are there."""
        acknowledged = self.said[1].count("ok\n") if self.name == "run" else 0
        writes = (("5a*512\na5*512\n", "11*512\n12*512\n"), ("00*512\n", "13*512\n"))
        for many in range(acknowledged, 3 if self.name == "run" else 1):
            text = "".join(put[at < many] for at, put in enumerate(writes)) + "01*512\n02*512\n"
            if text == got:
                break
        return text


def faults_of(kind, number):
    """The numbers with which a call fails: all of its kind, or one of them where there are many."""
    found = FAULTS[kind]
    return found if number <= EACH and kind != "write" else [found[number % len(found)]]


def each_of(trials, calls, line, name, start, slots, kind):
    """All calls of a kind fail in turn."""
    many = 0
    for number in numbers():
        faults = [(kind, number, fault) for fault in faults_of(kind, number)]
        if not any([Faulty(trials, calls, line, name, start, slots, it).run() for it in faults]):
            break
        many = number
    what = f"whether {name} makes a call of {kind}"
    check(what, many > 0 or kind not in MADE_BY.get(name, ()), True)
    check(what, many and kind in NOT_MADE_BY.get(name, ()), False)


def twice_faulty(trials, calls, line):
    """Taking back what was made fails, too. What is told stays, and what is not the set's."""
    cases = (("make", "empty"), ("make", "some"), ("replace", "absent"))
    undoing = " ".join(failing(it, 1, errno.EIO, is_on=True) for it in ("unlink", "cut", "path"))
    for kind, (name, start) in itertools.product(("sync", "write", "names"), cases):
        with trials.over(start) as folder:
            kept = held(folder)
            faults = f"{failing(kind, 1, errno.EIO)} {undoing}"
            said, is_seen = calls.ask(name, folder, FAULTS=faults)
            what = f"{name} from {start} with a fault of {kind}, which can't be taken back"
            check(f"{what}, the status and the output", (*said[:2], is_seen), (1, "", True))
            check_text(what, said[2], line)
            is_kept = lambda it: it == file(7) or name == "replace"
            others = {it: content for it, content in kept.items() if is_kept(it)}
            found = {it: content for it, content in held(folder).items() if it in others}
            check_files(what, found, others)
            trials.count()


def groups():
    """All of this, in parts: one for each command and each kind of call."""
    line = documented()
    tried = [(*case, kind) for case, kind in itertools.product(TRIED, FAULTS)]
    found = [lambda trials, calls, case=case: each_of(trials, calls, line, *case) for case in tried]
    return [*found, lambda trials, calls: twice_faulty(trials, calls, line)]

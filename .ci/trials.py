"""What the cases of `edges` share: the folders that they start from, how the program is run over
one, and how what all files hold is compared."""
import collections, contextlib, itertools, os, re, shutil, subprocess, tempfile, threading

from inspections import COMPLETE, LONGEST, NO_SET, TWO_LOST, held, inspect
from shared import CHUNK, ID, MEMBERS, ROWS, SLOTS, STRIPES, Failed, shape, words

COMMANDS = ("make", "run", "status", "fail", "replace", "rebuild", "scrub", "upgrade")
# The slot that is given up and gets a device.
LOST = 0
BYTES = [135_168] * MEMBERS + [266_240] * (SLOTS - MEMBERS)
PUT = "create a 64\nwrite a 0 5a*512 A5*512\nwrite a 62 01*512 02*512\n"
# The entries of these lines: zeros for the blocks in two, the table, and two writes.
ENTRIES = 5
# What a run is given, as the first or as the second of two.
SCRIPTS = (
    "write a 0 11*512 12*512\nwrite a 40 13*512\nread a 0 2\nlist\n",
    "write a 1 21*512\nread a 0 2\nwrite a 63 22*512\nlist\n",
)
MADE = (0, "made\n", "")

# What an inspection tells of a slot without a device of the set, after its number and its role.
ABSENT = "absent generation 0 incarnation 0 not there"
TOO_SHORT = "too short generation 0 incarnation 0 not there"

# A run: its status, output and standard error, and how far it read its script.
Ran = collections.namedtuple("Ran", "said read")


def differing(got, wanted):
    """The names under which two folders do not hold the same."""
    is_same = lambda name: name in got and name in wanted and got[name] == wanted[name]
    return [name for name in sorted({*got, *wanted}) if not is_same(name)]


def file(slot):
    return f"dev{slot}.img"


def other_device(slot, entries=ENTRIES):
    """The same of a slot that has a device of no slot of the set, or of another one."""
    entry = f" entry {entries}" * (slot >= MEMBERS)
    return f"there generation 0 incarnation 0{entry} no superblock"


def inspected(others=(), last=None, generation=1, entries=ENTRIES):
    """How an inspection ends of the set of the starts, of which these slots have other lines. Where the
    last line is not given, it is by the slots that are lost so."""
    head = f"set {ID}\nmembers {MEMBERS} chunk {CHUNK} stripes {STRIPES} rows {ROWS}\n"
    text, others = f"{head}generation {generation} position 0 left 0\n", dict(others)
    for slot in range(SLOTS):
        role, entry = ("journal ", f" entry {entries}") if slot >= MEMBERS else ("member  ", "")
        live = f"there generation {generation} incarnation 1{entry} live"
        text += f"{slot:2} {role} {others.get(slot, live)}\n"
    lasts = [COMPLETE, *(f"would mark slot {slot} missing" for slot in others)]
    return 0, f"{text}{last or (lasts[-1] if len(others) < 2 else TWO_LOST)}\n", ""


def missing(line):
    """The same where the first slot is given up, and has this line."""
    return inspected({LOST: line}, f"would assemble: slot {LOST} missing", 2)


def asked(name, folder):
    """The words of a command, as it is tried here."""
    more = {"make": shape(), "fail": ["--slot", LOST], "replace": ["--slot", LOST]}
    return words(name, folder, *more.get(name, []))


def differs(what, text):
    raise Failed(f"{what}: {text}")


def check(what, got, wanted):
    if got != wanted:
        differs(what, f"{got!r} and not {wanted!r}")


def check_text(what, text, pattern):
    if not re.fullmatch(pattern, text):
        differs(what, f"{text!r} and not {pattern!r}")


def check_files(what, found, wanted):
    names = differing(found, wanted)
    if names:
        differs(what, f"other bytes, or none, in {', '.join(names)}")


@contextlib.contextmanager
def without(folder, slots):
    """The files of these slots are away for a while."""
    for slot in slots:
        (folder / file(slot)).rename(folder / f"away{slot}")
    yield
    for slot in slots:
        (folder / f"away{slot}").rename(folder / file(slot))


class Trials:
    """The program, the folders that it is tried over, and how many cases there were."""

    def __init__(self, program, top, tools):
        self.program, self.top, self.tools = program, top, tools
        self.lock, self.cases, self.numbers = threading.Lock(), 0, itertools.count()
        # What a folder holds at first, by the name of such a start.
        self.starts = {"empty": {}}

    def begin(self):
        """Makes the starts: a set with a volume, one whose slot is given up, one with a new device
        there, one whose file is away there or too short, one with files after the set, some files
        of no set, of which one is too short, and such that are all too short."""
        starts = self.starts
        starts["whole"] = self.after("empty", ("make", "made\n"), ("run", "ok\n" * 3))
        starts["given up"] = self.after("whole", ("fail", "ok\n"))
        starts["joined"] = self.after("given up", ("replace", "ok\n"))
        starts["absent"] = dict(starts["given up"])
        del starts["absent"][file(LOST)]
        starts["short"] = {**starts["absent"], file(LOST): b"short" * 200}
        beyond = {file(slot): b"beyond" * 99 for slot in range(SLOTS, 10)}
        starts["ten"] = {**starts["whole"], **beyond}
        sizes = {0: BYTES[0], 1: 1000, 4: BYTES[4] + 5000, 7: 6}
        starts["some"] = {file(slot): b"\1" * size for slot, size in sizes.items()}
        starts["mixed"] = {file(0): b"\1" * 1000, file(2): b"", file(4): b"\2" * 5000}

    def after(self, start, *done):
        """What a folder holds after these commands, which have to say this."""
        with self.over(start) as folder:
            for name, output in done:
                check(name, self.ask(name, folder, PUT), (0, output, ""))
            return held(folder)

    def new_name(self):
        """A name that no other case has, also in another process."""
        return f"{os.getpid()}-{next(self.numbers)}"

    def put(self, start):
        """A new folder that holds what this start does."""
        folder = self.top / self.new_name()
        folder.mkdir()
        for name, content in self.starts[start].items():
            (folder / name).write_bytes(content)
        return folder

    @contextlib.contextmanager
    def over(self, start):
        """Such a folder, for a while. An inspection of what is left there changes nothing."""
        folder = self.put(start)
        yield folder
        self.inspect(folder)
        shutil.rmtree(folder)

    def inspect(self, folder):
        inspect(self.program, folder, self.top / self.new_name())

    def run(self, line, script="", before=(), **how):
        """Runs the program with these words, after those that are before it."""
        with tempfile.TemporaryFile(buffering=0) as given:
            given.write(script.encode())
            given.seek(0)
            line = [*before, self.program, *line]
            ran = subprocess.run(line, stdin=given, capture_output=True, timeout=LONGEST, **how)
            read = given.tell()
        return Ran((ran.returncode, ran.stdout.decode(), ran.stderr.decode(errors="replace")), read)

    def ask(self, name, folder, script=SCRIPTS[0], **how):
        """What the program says to a command."""
        return self.run(asked(name, folder), script if name == "run" else "", **how).said

    def count(self, many=1):
        with self.lock:
            self.cases += many

    def refused(self, what, line, told, folder, script=SCRIPTS[0], **how):
        """A run that is refused with a text, reads nothing of its script and changes no file."""
        kept = held(folder)
        ran = self.run(line, script, **how)
        status, output, text = ran.said
        check(f"{what}, which told {text!r}", (status, output), (1, ""))
        check_text(f"{what}, which was refused", text, told)
        check(f"{what}, the bytes that it read of its script", ran.read, 0)
        check_files(what, held(folder), kept)
        self.count()

    def each_refused(self, what, told, folder, commands=COMMANDS, **how):
        for name in commands:
            self.refused(f"{name} {what}", asked(name, folder), told, folder, **how)

    def inspects(self, what, folder, said, **how):
        """An inspection that ends so, and changes no file."""
        kept = held(folder)
        check(f"examine {what}", self.ask("examine", folder, **how), said)
        check_files(f"examine {what}", held(folder), kept)
        self.count()

    def works(self, what, folder, reads=""):
        """A set that assembles, with all slots in sync, and answers this to `read a 0 2`."""
        status, output, told = self.ask("status", folder)
        lines = output.splitlines()
        check(f"{what}, the status", (status, told), (0, ""))
        check(f"{what}, slots in sync", sum(" in-sync " in it for it in lines), len(lines) - 4)
        if reads:
            check(f"{what}, what is read", self.ask("run", folder, "read a 0 2\n"), (0, reads, ""))

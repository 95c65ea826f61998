"""The cases of `power_cuts`: what the program is given in a first start, of which any call may be
the last, and in the next ones; and what has to be read after a power cut."""
import collections

from shared import ID, shape

# Of the sets: their members, chunk and stripes, and the blocks of the volume.
MEMBERS, CHUNK, STRIPES, BLOCKS = 3, 8, 16, 64
SLOTS = MEMBERS + 2
ROWS = CHUNK * STRIPES
READ = ("read a 0 32", "read a 32 32")
ANY_SLOT = frozenset(range(SLOTS))
ZEROS = ("00*512",) * BLOCKS

# A start of the program: its words after the folder, the lines that it is given, the device that
# answers faults from the call with this number on, and the slot whose file is away meanwhile.
Start = collections.namedtuple("Start", "words script fault away", defaults=("", None, None))
# A case:
# base    the starts that make what the files hold at first, over an empty folder
# first   the starts of which each call may be the last one
# nexts   what comes next: lists of starts
# steps   how many calls there are for each that is tried as the last one, of the first starts and
#         of the next
# losses  of how many devices one is lost besides, each for itself
# ends    of the first starts so many calls alone are tried, the last of those that count most
# files   what some files hold then in place of that, by slot: None where they are gone
Case = collections.namedtuple(
    "Case", "name base first nexts steps losses ends files", defaults=((1, 1), 1, None, {})
)


def start(name, *more, script="", **how):
    return Start((name, "--id", ID, *map(str, more)), script, **how)


def make(members=MEMBERS):
    return start("make", *shape(members, CHUNK, STRIPES))


def run(*lines, **how):
    return start("run", script="".join(f"{line}\n" for line in lines), **how)


def on_slot(name, slot, **how):
    return start(name, "--slot", slot, **how)


WRITES = ("write a 0 11*512", "write a 8 33*512", "write a 40 44*512")
# 32 blocks in rows of several stripes, which are those of the other lines too.
MANY = "write a 4 " + " ".join(f"{value:02x}*512" for value in range(0x50, 0x70))
MORE = (MANY, "write a 3 70*512 71*512 72*512", "write a 8 73*512")
WHOLE = [make(), run("create a 64", *WRITES)]
# What comes next, and what comes after that where it is killed too.
GOES_ON = [[start("status")], [run("write a 8 d0*512")]]
LAST = [[run("write a 8 e0*512")]]
AGAIN = [run("read a 0 9", "write a 1 d1*512 d2*512", "write a 8 d3*512")]


def lost(slot):
    """A set without the device of a slot, which lies there, and to which was written since."""
    return [*WHOLE, on_slot("fail", slot), run("write a 1 aa*512", "write a 41 bb*512")]


def larger():
    """A set of eight members whose superblocks have a greater generation than a new set's."""
    return [make(8), on_slot("fail", 9), on_slot("replace", 9), run("create a 64", *WRITES)]


def cases():
    """The first and the last have each loss of a start that goes on from what was not synced: from
    a write of which one journal has the seal, and from a set of which the slots were cleared."""
    rebuilt = [start("rebuild", "--steps", 1), run("write a 2 cc*512"), start("rebuild")]
    writes, fresh = [run("write a 0 22*512")], [make(), run("create a 64", "write a 0 22*512")]
    yield Case("one write", WHOLE, writes, GOES_ON, losses=SLOTS)
    created = [run("create d 1", "write a 0 d4*512")]
    yield Case("then more", WHOLE, writes, [AGAIN, created], (3, 11))
    first = [run("create a 64", *WRITES, "write a 0 22*512")]
    yield Case("writes", [make()], first, GOES_ON, (23, 11))
    yield Case("many blocks", WHOLE, [run(*MORE)], [AGAIN, [start("scrub")]], (23, 23))
    named = [run("create b 64", "rename b c", "remove c", *WRITES)]
    yield Case("names", WHOLE, named, GOES_ON, (29, 23))
    yield Case("upgrade", WHOLE, [start("upgrade"), *writes], [[start("upgrade")], AGAIN], (17, 23))
    yield Case("scrub", WHOLE, writes, [[start("scrub"), *AGAIN]], (3, 7))
    away = [[run("write a 8 d0*512", away=slot)] for slot in (0, 3, 4)]
    yield Case("without one", WHOLE, writes, away, (4, 7))
    for slot in (1, 3):
        yield Case(f"fall of {slot}", WHOLE, [run(*MORE, fault=(slot, 60))], [AGAIN], (11, 11))
    yield Case("fail", WHOLE, [on_slot("fail", 2), *writes], [AGAIN, [on_slot("fail", 2)]], (4, 7))
    replaced = [on_slot("replace", 1), *rebuilt]
    yield Case("replace 1", lost(1), replaced, [replaced, AGAIN], (31, 31))
    for name, content in (("absent", None), ("short", b"short" * 200)):
        new = [on_slot("replace", 1)]
        yield Case(f"replace {name}", lost(1), new, [replaced], (5, 97), files={1: content})
    new = [on_slot("replace", 3)]
    yield Case("replace 3", lost(3), [*new, *AGAIN], [new, AGAIN], (7, 19))
    yield Case("make", [], fresh, [fresh, AGAIN], (29, 61))
    yield Case("make over", lost(1), [make()], [fresh], (17, 61))
    yield Case("make smaller", larger(), [make(8)], [fresh], (9, 97), 2, ends=34)


class Hopes:
    """What has to be read: the contents of the volume, each a tuple of its blocks or None where
    there is no volume, of which one has to be found, or None where nothing is promised; and the
    slots of which any one may be lost."""

    def __init__(self):
        self.contents, self.may_lose = None, ANY_SLOT

    def copy(self):
        twin = Hopes()
        twin.contents, twin.may_lose = self.contents, self.may_lose
        return twin

    def begin(self, one):
        """A start begins."""
        self.start, self.output, self.lines = one, b"", one.script.splitlines() or [one.words[0]]
        for slot in (one.away, one.fault and one.fault[0]):
            if slot is not None:
                self.may_lose = frozenset([slot])
        if one.words[0] == "fail":
            self.may_lose = frozenset([int(one.words[-1])])
        if one.words[0] == "make":
            self.contents = None
        self.go_on()

    def go_on(self):
        """The next line may be done from now on, or not."""
        if self.lines and self.contents is not None:
            self.contents |= {changed(it, self.lines[0]) for it in self.contents}

    def told(self, data):
        """The program has written something to standard output. Returns what is wrong with it."""
        self.output += data
        while self.lines:
            many = count_of(self.lines[0])
            replies = self.output.decode().splitlines(keepends=True)[:many]
            if not replies or not replies[-1].endswith("\n"):
                return ""
            if len(replies) < many and not replies[0].startswith("refused"):
                return ""
            many = 1 if replies[0].startswith("refused") else many
            self.output = self.output[len("".join(replies[:many])) :]
            if not self.take(self.lines.pop(0), [it.strip() for it in replies[:many]]):
                return f"{self.start.words[0]} read what was not written: {replies[:many]}"
            self.go_on()
        return ""

    def is_journal(self):
        return int(self.start.words[-1]) >= MEMBERS

    def take(self, line, replies):
        """A line was answered. Returns whether that can be so."""
        word, *rest = line.split()
        name = self.start.words[0]
        if name == "make":
            self.contents, self.may_lose = {None}, ANY_SLOT
        elif replies[0].startswith("refused"):
            return True
        elif replies[0] == "complete" or (name == "replace" and self.is_journal()):
            self.may_lose = ANY_SLOT
        elif self.contents is None:
            return True
        elif word == "read":
            first = int(rest[1])
            found = lambda it: it is not None and list(it[first : first + len(replies)]) == replies
            self.contents = {it for it in self.contents if found(it)}
        elif name == "run":
            self.contents = {changed(it, line) for it in self.contents}
        return bool(self.contents)


def count_of(line):
    """How many lines the reply to a line has."""
    return int(line.split()[3]) if line.startswith("read") else 1


def changed(content, line):
    """The volume after a line."""
    word, *rest = line.split()
    if word == "create" and rest[0] == "a":
        return ZEROS
    if word != "write" or content is None:
        return content
    first, blocks = int(rest[1]), rest[2:]
    return (*content[:first], *blocks, *content[first + len(blocks) :])

"""What `examine` tells, taken apart; what it says that assembling would do; and an inspection of whatever a
test leaves."""
import json, os, re, shutil, stat

from shared import Failed, answered

COMPLETE, TWO_LOST = "would assemble: complete", "refused 15 TwoLost"
NO_SET, LONGEST = (1, "", "refused 17 NoSet\n"), 60
HEAD = re.compile(r"set ([0-9a-f]{32})\nmembers (\d+) chunk (\d+) stripes (\d+) rows (\d+)(?: format (2))?\ngeneration (\d+) position (\d+) left (\d+)\n")
LINE = re.compile(r"([ \d]\d) (member  |journal ) (absent|too short|there) generation (\d+) incarnation (\d+)(?: entry (\d+))? ([a-z][a-z \d]*)\n")
HEAD_KEYS = ("id", "members", "chunk", "stripes", "rows", "format", "generation", "position", "left")
SLOT_KEYS = ("slot", "role", "presence", "generation", "incarnation", "entry", "standing")


def extent_blocks(members, chunk, stripes):
    """The blocks of an extent of a set of format 2, by docs/FORMATS.md, "Address map"."""
    stripe = chunk * (members - 1)
    blocks, rest = stripe, stripes * stripe - -(-64 // stripe) * stripe
    while rest // blocks > 1_024:
        blocks *= 2
    return blocks


def numbers(values):
    """What is told, with what is a number as one, and a role without the spaces after it."""
    return [int(it) if it and it.strip().isdigit() else it and it.strip() for it in values]


class Told:
    """What an inspection tells of a set."""

    def __init__(self, head, slots, last):
        self.head = dict(zip(HEAD_KEYS, numbers(head.groups())))
        self.head["id"] = head[1]
        if self.head["format"]:
            self.head["extent_blocks"] = extent_blocks(*(self.head[key] for key in ("members", "chunk", "stripes")))
        else:
            del self.head["format"]
        self.slots = [dict(zip(SLOT_KEYS, numbers(it.groups()))) for it in slots]
        self.last = last

    def as_json(self):
        """The text of its JSON."""
        return json.dumps({**self.head, "outlook": self.last, "slots": self.slots}, separators=(",", ":"), sort_keys=True) + "\n"


def told_in(what, output):
    """What is told of each set, with its text."""
    while output:
        whole, head, slots = output, HEAD.match(output), []
        if not head:
            raise Failed(f"{what}: {output!r} does not begin with a set")
        output = output[head.end() :]
        while line := LINE.match(output):
            slots.append(line)
            output = output[line.end() :]
        roles = ["member  "] * int(head[2]) + ["journal "] * 2
        if [(int(it[1]), it[2]) for it in slots] != list(enumerate(roles)):
            raise Failed(f"{what}: other slots are told: {whole}")
        last, newline, output = output.partition("\n")
        if not newline:
            raise Failed(f"{what}: the last line does not end: {whole!r}")
        yield Told(head, slots, last), whole[: len(whole) - len(output)]


def state_after(output):
    """The generation, the position, and each slot that is not in sync with its state, by a status."""
    table = re.search(r"^generation (\d+) position (\d+) ", output, re.M)
    out = re.findall(r"^([ \d]\d) \w+ +(missing|rebuilding) ", output, re.M)
    return int(table[1]), int(table[2]), [(int(slot), state) for slot, state in out]


def foreseen(told):
    """What a status of the set is to tell by the last line of an inspection."""
    generation = told.head["generation"]
    if told.last == COMPLETE:
        return generation, 0, []
    if found := re.fullmatch(r"would assemble: slot (\d) rebuilding at (\d+)", told.last):
        return generation, int(found[2]), [(int(found[1]), "rebuilding")]
    if found := re.fullmatch(r"would assemble: slot (\d) missing", told.last):
        return generation, 0, [(int(found[1]), "missing")]
    if found := re.fullmatch(r"would mark slot (\d) missing", told.last):
        return generation + 1, 0, [(int(found[1]), "missing")]
    return None


def is_as_foreseen(told, status, output, error):
    """Whether a status of the set ends as the last line of an inspection says."""
    if told.last == TWO_LOST:
        return (status, output, error) == (1, "", f"{TWO_LOST}\n")
    return (status, error) == (0, "") and state_after(output) == foreseen(told)


# An inspection of what a test leaves


def held(folder):
    """What stands in a folder, by its path there: the target of a link, the bytes of a file, or the
    kind of another thing."""
    found = {}
    for path in sorted(folder.rglob("*")):
        mode, name = path.lstat().st_mode, str(path.relative_to(folder))
        if stat.S_ISLNK(mode):
            found[name] = f"link to {os.readlink(path)}"
        else:
            found[name] = path.read_bytes() if stat.S_ISREG(mode) else stat.S_IFMT(mode)
    return found


def times(folder):
    """When a folder and each thing in it was changed last, and when what is told of it was."""
    found = {path: path.lstat() for path in (folder, *folder.rglob("*"))}
    return {path: (told.st_mtime_ns, told.st_ctime_ns) for path, told in found.items()}


def copied(folder, place):
    """Copies the files of a folder's slots, also those that links lead to. Says whether one of them
    is in two slots, as it is then in the copy."""
    place.mkdir()
    first = {}
    for slot in range(10):
        path = folder / f"dev{slot}.img"
        if path.is_file():
            told = path.stat()
            one = first.setdefault((told.st_dev, told.st_ino), place / path.name)
            if one != place / path.name:
                (place / path.name).hardlink_to(one)
            else:
                shutil.copyfile(path, one)
    return len(first) < sum(1 for _ in place.iterdir())


def inspect(program, folder, place):
    """Whatever stands in a folder, inspecting it ends, and changes no byte and no time of a change. Of
    each set that it tells a copy, in this place, assembles as it says."""
    before = held(folder), times(folder)
    status, output, error = answered([program, "examine", folder], timeout=LONGEST)
    if (held(folder), times(folder)) != before:
        raise Failed(f"examine {folder}: a file was changed")
    if (status, error) != (0, "") and (status, output, error) != NO_SET:
        raise Failed(f"examine {folder}: status {status}, {output!r}, {error!r}")
    for told, _ in told_in(f"examine {folder}", output):
        check_outlook(program, folder, place, told)


def check_outlook(program, folder, place, told):
    """Assembling a copy does what an inspection told, but where one file is in two slots."""
    is_one_file = copied(folder, place)
    status, output, error = answered([program, "status", place, "--id", told.head["id"]], timeout=LONGEST)
    shutil.rmtree(place)
    is_in_use = is_one_file and status == 1 and error.startswith("in use dev")
    if not is_in_use and not is_as_foreseen(told, status, output, error):
        raise Failed(f"examine {folder} told {told.last!r}, and assembling ends with {status}: {output}{error}")


def inspect_all(program, top):
    """Inspects each folder below one in which device files are."""
    for folder in sorted({path.parent for path in top.rglob("dev?.img")}):
        inspect(program, folder, top / "copy")

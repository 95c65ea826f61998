"""What a power cut may leave of device files, by the calls that a program made on them.

unsynced.c records the calls, also over several starts of the program, of which each but the last
was killed. What they wrote is in the system's page cache at once, and on the disk for sure where
the file was synced since. A sector of 512 bytes is never torn: after a power cut it holds what it
held at the last sync, or anything that was written to it since then. A file that was lengthened or
cut, and not synced, has one of its lengths since, with zeros where nothing is. A file that was
created is there for sure where its folder was synced since.

The program is run here with that library, once for what the sectors hold that it reads."""
import collections, copy, os, pathlib, random, signal, struct

from shared import Failed

SECTOR, FILES = 512, 10
HEAD = struct.Struct("<BB6xQQ")

# A call: its kind, a letter (see unsynced.c), the slot, the place, how many bytes, and these.
Call = collections.namedtuple("Call", "kind slot at bytes data")
# What a start came to: its status, its output, what it told on standard error, and its calls.
Outcome = collections.namedtuple("Outcome", "status output told calls")
# What is known of starts that read the same so far: which bytes are read next, and what comes then
# by these.
Next = collections.namedtuple("Next", "slot at bytes by")
# Kinds of calls after which a start is beyond its syncs at open, and those that change nothing.
BEYOND, SILENT = "RCWTUDE", "SOR"


def calls_in(log):
    """The calls of a log."""
    found, at = [], 0
    while at < len(log):
        kind, slot, place, size = HEAD.unpack_from(log, at)
        at += HEAD.size
        kind = chr(kind)
        data = log[at : at + size] if kind in "WE" else b""
        at += len(data)
        found.append(Call(kind, slot, place, size, data))
    return found


class File:
    """A device file: what it held at its last sync, what it holds for programs, and what each
    sector and its length was since, with the number of the call."""

    def __init__(self, content=b""):
        self.synced, self.now, self.lengths = content, bytearray(content), [len(content)]
        self.changed = {}

    def copy(self):
        twin = copy.copy(self)
        twin.now, twin.lengths = bytearray(self.now), list(self.lengths)
        twin.changed = {at: list(values) for at, values in self.changed.items()}
        return twin

    def sync(self):
        if self.changed or len(self.lengths) > 1:
            self.synced, self.lengths, self.changed = bytes(self.now), [len(self.now)], {}

    def set_length(self, size):
        if size != len(self.now):
            self.now = self.now[:size].ljust(size, b"\0")
            self.lengths.append(size)

    def cut(self, number, size):
        """Sets a length. What is cut off is zeros where the file is lengthened again."""
        for at in range(size // SECTOR, len(self.now) // SECTOR):
            self.changed.setdefault(at, []).append((number, bytes(SECTOR)))
        self.set_length(size)

    def write(self, number, at, data):
        self.set_length(max(len(self.now), at + len(data)))
        self.now[at : at + len(data)] = data
        for sector in range(at // SECTOR, (at + len(data) + SECTOR - 1) // SECTOR):
            value = bytes(self.now[sector * SECTOR : (sector + 1) * SECTOR])
            self.changed.setdefault(sector, []).append((number, value))

    def left(self, choose, length):
        """What is left where choose says, of each sector that changed, how many of its changes the
        disk has, and how many of those of the length."""
        size = self.lengths[length]
        if not self.changed and size == len(self.synced):
            return self.synced
        content = bytearray(self.synced[:size].ljust(size, b"\0"))
        for at, values in self.changed.items():
            have = choose(at, values)
            if have and at * SECTOR < size:
                content[at * SECTOR : (at + 1) * SECTOR] = values[have - 1][1]
        return bytes(content[:size])


class Disk:
    """Device files, by slot, as programs see them, and as the folder had them at its last sync.

    How syncs at open count: as they are made ("made"), as if they had no effect ("none"), or as if
    each file was synced when it was opened ("given"). The name of a file that was created is kept
    by a sync of the folder, and also by one of the file where names are kept so."""

    def __init__(self, image, at_open="made", names_kept=False):
        self.files = {slot: File(content) for slot, content in image.items()}
        self.synced_names, self.number, self.is_open = dict(self.files), 0, False
        self.at_open, self.names_kept = at_open, names_kept

    def copy(self):
        twin, twins = copy.copy(self), {}
        for it in (*self.files.values(), *self.synced_names.values()):
            twins.setdefault(id(it), it.copy())
        twin.files = {slot: twins[id(it)] for slot, it in self.files.items()}
        twin.synced_names = {slot: twins[id(it)] for slot, it in self.synced_names.items()}
        return twin

    def apply(self, call):
        self.number += 1
        if call.kind == "S":
            self.is_open = False
        elif call.kind in BEYOND:
            self.is_open = True
        file = self.files.get(call.slot)
        is_given = call.kind == "O" and self.at_open == "given"
        if is_given or (call.kind == "Y" and (self.is_open or self.at_open != "none")):
            self.sync(call.slot)
        elif call.kind == "W":
            file.write(self.number, call.at, call.data)
        elif call.kind == "T":
            file.cut(self.number, call.bytes)
        elif call.kind == "C":
            self.files[call.slot] = File()
        elif call.kind == "U":
            self.files.pop(call.slot, None)
        elif call.kind == "D":
            self.synced_names = dict(self.files)
        elif call.kind in "AM":
            raise Failed(f"a call of kind {call.kind} of unsynced.c, which is not foreseen")

    def sync(self, slot):
        self.files[slot].sync()
        if self.names_kept:
            self.synced_names[slot] = self.files[slot]

    def now(self):
        """What a program sees that is started now."""
        return {slot: bytes(file.now) for slot, file in self.files.items()}

    def unsynced(self):
        """The slots of which a power cut may leave several contents."""
        is_named = lambda slot: self.synced_names.get(slot) is self.files.get(slot)
        is_synced = lambda file: not file.changed and len(file.lengths) == 1
        slots = {*self.files, *self.synced_names}
        return sorted(it for it in slots if not (is_named(it) and is_synced(self.files[it])))

    def left(self, choose, length, name):
        """What is left where these choose, for a slot, what its sectors, its length and its name
        are: see File.left; a name is that of now, or of the last sync of the folder."""
        image = {}
        for slot in {*self.files, *self.synced_names}:
            file = (self.files if name(slot) else self.synced_names).get(slot)
            if file:
                choice = lambda at, values: choose(slot, at, values)
                image[slot] = file.left(choice, length(slot, len(file.lengths)))
        return image

    def cuts(self, seed, many):
        """What a power cut may leave, by patterns, and by so many choices at random: how each is
        called, and what the files hold. Nothing is left out where no more is possible."""
        slots = self.unsynced()
        yield "old", self.by_age(lambda slot, at, values: 0)
        if not slots:
            return
        yield "new", self.by_age(lambda slot, at, values: len(values))
        if len(slots) > 1:
            for slot in slots:
                yield f"device {slot} old", self.by_device(lambda it: it != slot)
                yield f"device {slot} new", self.by_device(lambda it: it == slot)
        last = {slot: self.last_of(slot) for slot in slots}
        is_last = lambda slot, values: values[-1][0] == last.get(slot, 0)
        patterns = {
            "alternating 0": lambda slot, at, values: len(values) * (at % 2),
            "alternating 1": lambda slot, at, values: len(values) * (1 - at % 2),
            "all but the last": lambda slot, at, values: len(values) - is_last(slot, values),
            "the last alone": lambda slot, at, values: len(values) * is_last(slot, values),
        }
        if any(len(self.files[slot].changed) > 1 for slot in slots if slot in self.files):
            for pattern, choose in patterns.items():
                yield pattern, self.by_age(choose)
        chance = random.Random(seed)
        for number in range(many):
            sectors = lambda slot, at, values: chance.randrange(len(values) + 1)
            lengths = lambda slot, count: chance.randrange(count)
            yield f"random {number}", self.left(sectors, lengths, lambda slot: chance.randrange(2))

    def last_of(self, slot):
        """The number of the last write to a file that is not synced."""
        file = self.files.get(slot)
        return max((values[-1][0] for values in file.changed.values()), default=0) if file else 0

    def by_age(self, choose):
        """Sectors are chosen; a file has the length of now, and one with no new sector the old."""
        has_new = set()
        for slot in {*self.files, *self.synced_names}:
            changed = self.files[slot].changed if slot in self.files else {}
            if any(choose(slot, *it) for it in (changed or {0: [(0, b"")]}).items()):
                has_new.add(slot)
        lengths = lambda slot, count: (count - 1) * (slot in has_new)
        return self.left(choose, lengths, lambda slot: slot in has_new)

    def by_device(self, is_new):
        """Some devices have all that was written, the others nothing that is not synced."""
        sectors = lambda slot, at, values: len(values) * is_new(slot)
        return self.left(sectors, lambda slot, count: (count - 1) * is_new(slot), is_new)


def without(image, slot):
    return {it: content for it, content in image.items() if it != slot}


def begins(image, one):
    """What a start has before it reads: its words, and which files there are, and how long."""
    return one, tuple(sorted((slot, len(content)) for slot, content in image.items()))


def after(image, calls):
    """What files hold after these calls."""
    changing = [call for call in calls if call.kind in "CWTU"]
    slots = {call.slot for call in changing}
    disk = Disk({slot: content for slot, content in image.items() if slot in slots})
    for call in changing:
        disk.apply(call)
    same = {slot: content for slot, content in image.items() if slot not in slots}
    return {**same, **disk.now()}


class Program:
    """The program, a folder in which it is run, and what it came to over what it read."""

    def __init__(self, path, library, folder):
        self.path, self.folder, self.log = path, folder, f"{folder}.log"
        os.mkdir(folder)
        self.kept, self.there, self.runs = {}, {}, 0
        self.streams = [os.memfd_create(name) for name in ("script", "output", "told")]
        self.set_to = {**os.environ, "LD_PRELOAD": library, "CALLS_LOG": self.log}

    def come_to(self, image, one):
        """What a start comes to over files that hold this."""
        image = without(image, one.away)
        by, at = self.kept, begins(image, one)
        while isinstance(found := by.get(at), Next):
            by, at = found.by, image[found.slot][found.at : found.at + found.bytes]
        if found is None:
            found = self.run(image, one)
            self.keep(image, one, found)
        return found

    def keep(self, image, one, outcome):
        """Keeps an outcome by what was read of the files before it was written."""
        by, at, written = self.kept, begins(image, one), set()
        for call in outcome.calls:
            sectors = range(call.at // SECTOR, (call.at + call.bytes + SECTOR - 1) // SECTOR)
            if call.kind in "CT":
                size = len(image.get(call.slot, b""))
                written.update((call.slot, it) for it in range(size // SECTOR))
            elif call.kind == "W":
                written.update((call.slot, it) for it in sectors)
            elif call.kind == "R" and not all((call.slot, it) in written for it in sectors):
                place = (call.slot, call.at, call.bytes)
                node = by.setdefault(at, Next(*place, {}))
                if node[:3] != place:
                    text = f"{place}, and before that {node[:3]}"
                    raise Failed(f"{one.words[0]}: over the same bytes it reads {text}")
                by, at = node.by, image[call.slot][call.at : call.at + call.bytes]
        by[at] = outcome

    def put(self, image):
        """The files hold this."""
        for slot in range(FILES):
            path, content = f"{self.folder}/dev{slot}.img", image.get(slot)
            if content is None and slot in self.there:
                os.unlink(path)
            elif content is not None and self.there.get(slot) != content:
                with open(path, "wb") as out:
                    out.write(content)
        self.there = dict(image)

    def run(self, image, one, stop=0):
        """Runs a start over files that hold this, and kills it after a call, if one is given."""
        self.put(image)
        self.runs += 1
        script = one.script.encode()
        for stream in self.streams:
            os.truncate(stream, 0)
            os.lseek(stream, 0, os.SEEK_SET)
        os.pwrite(self.streams[0], script, 0)
        with open(self.log, "wb"):
            pass
        environment = {**self.set_to, "CALLS_STOP": str(stop)}
        if one.fault:
            environment["CALLS_FAULT"] = "%d:%d" % one.fault
        words = [self.path, one.words[0], self.folder, *one.words[1:]]
        moves = [(os.POSIX_SPAWN_DUP2, it, number) for number, it in enumerate(self.streams)]
        process = os.posix_spawn(self.path, words, environment, file_actions=moves)
        status = os.waitstatus_to_exitcode(os.waitpid(process, 0)[1])
        with open(self.log, "rb") as log:
            calls = calls_in(log.read())
        output, told = (os.pread(it, os.fstat(it).st_size, 0).decode() for it in self.streams[1:])
        self.there = after(image, calls)
        self.check(one, calls)
        return Outcome(status, output, told, calls)

    def kill(self, image, one, calls):
        """Kills a start really, after these calls, of which the log has to tell, and no other."""
        counted = sum(call.kind not in "SO" for call in calls)
        came = self.run(image, one, counted)
        if came.status != -signal.SIGKILL or came.calls != calls:
            text = f"killed after call {counted}, has status {came.status}, or other calls"
            raise Failed(f"{one.words[0]}, {text}")

    def check(self, one, calls):
        """The calls that were recorded have to be all that changed the files."""
        for slot in {call.slot for call in calls if call.kind in "CWTU"}:
            path = pathlib.Path(f"{self.folder}/dev{slot}.img")
            content = path.read_bytes() if path.exists() else None
            if content != self.there.get(slot):
                text = "is not what the recorded calls make of it"
                raise Failed(f"{one.words[0]}: {path.name} {text}")

#!/usr/bin/env python3
"""serve_stand_in.py: stands in for the program where the bridge of block devices is tried, and the program can't be. It speaks the lines of `raidtool serve`
and has the few commands that `.ci/nbd` asks for, over files in which each member has a copy of all blocks, synced before a reply.

Variables of the environment: FAULT names what it does wrongly, from the line of FAULT_AT on (1) that reads, writes or zeroes, and where FAULT_ONCE names a file
only while that is not there, which is then made; SERVED_LINES names a file to which each line is added; SYNC_MILLISECONDS is what a commit waits.
"""
import argparse, contextlib, fcntl, itertools, json, os, re, signal, sys, time

BLOCK, HEADER, MEMBERS, SLOTS, PLACES = 512, 8192, 3, 5, 10
SECONDS_OF_SILENCE = 1
NUMBER = re.compile(rb"0|[1-9][0-9]{0,9}")
NAME = re.compile("[a-z][a-z0-9_-]{0,62}")
FIELDS = {"read": "naa", "write": "naa", "zero": "naa", "together": "a", "create": "na", "extend": "na", "remove": "n", "rename": "nn"}
FIELDS |= {"list": "", "status": "", "fail": "a", "replace": "a", "rebuild": "a", "scrub": "a"}
MOST = {"read": 2048, "write": 2048, "zero": 65536}
TEXTS = {1: "BadName", 2: "BadSize", 3: "Exists", 5: "NoSpace", 6: "NoVolume", 7: "BadCount", 8: "OutOfRange", 9: "WouldLose", 10: "NotMissing"}
TEXTS |= {11: "NotUsable", 12: "NothingToRebuild", 14: "Memory", 15: "TwoLost", 16: "Worn", 17: "NoSet", 20: "BadLine", 21: "ReadFault"}


class Refused(Exception):
    def __init__(self, number):
        super().__init__(f"refused {number} {TEXTS[number]}")
        self.number = number


class Set:
    """The files of a folder, locked, and the table that the newest of them have."""

    def __init__(self, folder, set_id, is_locked=True):
        self.files, self.tables = {}, {}
        for slot in range(PLACES):
            with contextlib.suppress(FileNotFoundError, NotADirectoryError):
                self.files[slot] = os.open(f"{folder}/dev{slot}.img", os.O_RDWR if is_locked else os.O_RDONLY)
                self.lock(slot, is_locked)
                with contextlib.suppress(ValueError):
                    self.tables[slot] = json.loads(os.pread(self.files[slot], HEADER, 0).rstrip(b"\0"))
        found = [it for it in self.tables.values() if set_id in ("auto", it["id"])]
        if not found:
            raise Refused(17)
        self.table = max(found, key=lambda it: it["generation"])
        self.commits = 0

    def lock(self, slot, is_locked):
        try:
            if is_locked:
                fcntl.flock(self.files[slot], fcntl.LOCK_EX | fcntl.LOCK_NB)
        except BlockingIOError:
            sys.exit(f"in use dev{slot}.img")

    def stale(self):
        """The slots that the table counts on, and that are not there or older."""
        generation = self.table["generation"]
        return [it for it, state in enumerate(self.table["slots"]) if state == "in-sync" and self.tables.get(it, {}).get("generation") != generation]

    def assemble(self):
        stale = self.stale()
        if len(stale) + sum(it != "in-sync" for it in self.table["slots"]) > 1:
            raise Refused(15)
        for slot in stale:
            self.lose(slot)

    def live(self):
        return [slot for slot, state in enumerate(self.table["slots"]) if state == "in-sync"]

    def lose(self, slot):
        if any(it != "in-sync" for it in self.table["slots"]):
            raise Refused(15)
        self.table["slots"][slot] = "missing"
        self.put_table()

    def put_table(self):
        self.table["generation"] += 1
        text = json.dumps(self.table).encode().ljust(HEADER, b"\0")
        for slot in self.live():
            self.put(slot, text, 0)
            self.sync(slot)

    def put(self, slot, sectors, at):
        try:
            if os.pwrite(self.files[slot], sectors, at) != len(sectors):
                raise OSError
        except OSError:
            self.lose(slot)

    def sync(self, slot):
        try:
            os.fdatasync(self.files[slot])
        except OSError:
            self.lose(slot)

    def start(self, name, at=0, count=1):
        """Where a block of a volume lies."""
        if name not in self.table["volumes"]:
            raise Refused(6)
        start, blocks = self.table["volumes"][name]
        if at + count > blocks:
            raise Refused(8)
        return HEADER + (start + at) * BLOCK

    def read(self, name, at, count):
        place = self.start(name, at, count)
        while True:
            slot = self.live()[0]
            try:
                return os.pread(self.files[slot], count * BLOCK, place)
            except OSError:
                self.lose(slot)

    def commit(self, writes):
        """Writes what waits, each to all members, 32 blocks at a time, and a sector to the journals."""
        for place, sectors in writes:
            for at in range(0, len(sectors), 32 * BLOCK):
                for slot in self.live():
                    if slot < MEMBERS:
                        self.put(slot, sectors[at : at + 32 * BLOCK], place + at)
        self.commits += 1
        for slot in self.live():
            if slot >= MEMBERS:
                self.put(slot, sectors[:BLOCK], HEADER + self.commits % 4096 * BLOCK)
            self.sync(slot)
        time.sleep(float(os.environ.get("SYNC_MILLISECONDS", 0)) / 1000)

    def change(self, word, name, *more):
        """create, extend, remove and rename."""
        volumes = self.table["volumes"]
        if word != "create":
            self.start(name, 0, 0)
        if word in ("create", "rename"):
            to = name if word == "create" else more[0]
            if not NAME.fullmatch(to):
                raise Refused(1)
            if to in volumes:
                raise Refused(3)
        if word == "create":
            volumes[name] = [max((sum(it) for it in volumes.values()), default=0), more[0]]
            self.commit([(self.start(name), bytes(more[0] * BLOCK))] if more[0] <= self.table["blocks"] else [])
        elif word == "extend":
            held = self.read(name, 0, volumes[name][1])
            volumes[name] = [max(sum(it) for it in volumes.values()), volumes[name][1] + more[0]]
            self.commit([(self.start(name), held + bytes(more[0] * BLOCK))])
        elif word == "rename":
            volumes[more[0]] = volumes.pop(name)
        else:
            del volumes[name]
        if any(sum(it) > self.table["blocks"] for it in volumes.values()):
            raise SystemExit("refused 5 NoSpace: the stand-in gives no room back")
        self.put_table()

    def status(self):
        slots = [{"slot": it, "role": "member" if it < MEMBERS else "journal", "state": state} for it, state in enumerate(self.table["slots"])]
        return {"id": self.table["id"], "generation": self.table["generation"], "volumes": len(self.table["volumes"]), "slots": slots}


class Serve:
    """The lines of `serve`, from standard input to standard output."""

    def __init__(self, found):
        self.set, self.input, self.lines = found, open(0, "rb", buffering=1 << 20), 0
        self.waiting, self.held, self.fault = [], [], os.environ.get("FAULT")

    def say(self, reply):
        if self.fault != "slow":
            self.send(reply)
            return
        for at in range(0, len(reply), 700):
            self.send(reply[at : at + 700])
            time.sleep(0.0002)

    def say_held(self, *_):
        """Says what was held back, since no more came for a while."""
        held, self.held = self.held, []
        with open(os.environ["SERVED_LINES"], "ab") as file:
            file.write(b"answered\n")
        self.send(b"".join(held))

    @staticmethod
    def send(reply):
        reply = memoryview(reply)
        while reply:
            reply = reply[os.write(1, reply) :]

    def words(self):
        """The next line's words and what goes with it, or nothing where all is read."""
        text = self.input.readline(65_536)
        if not text:
            return None
        if not text.endswith(b"\n") and len(text) < 65_536:
            raise EOFError
        if "SERVED_LINES" in os.environ:
            with open(os.environ["SERVED_LINES"], "ab") as file:
                file.write(text)
        word, *fields = text[:-1].split(b" ")
        shape = FIELDS.get(word.decode(errors="replace"))
        if shape is None or len(fields) != len(shape) or not text.endswith(b"\n"):
            raise Refused(20)
        found = [word.decode()]
        for kind, field in zip(shape, fields):
            if not field or (kind == "a" and (not NUMBER.fullmatch(field) or int(field) >= 1 << 32)):
                raise Refused(20)
            found.append(int(field) if kind == "a" else field.decode("latin-1"))
        if found[0] in MOST and not 1 <= found[3] <= MOST[found[0]]:
            raise Refused(7)
        if found[0] == "together" and not 1 <= found[1] <= 256:
            raise Refused(7)
        return found

    def bytes_of(self, count):
        sectors = self.input.read(count * BLOCK)
        if len(sectors) < count * BLOCK:
            raise EOFError
        return sectors

    def staged(self, name, at, count):
        """The reply to a write, which waits for its commit."""
        sectors = self.bytes_of(count)
        try:
            place = self.set.start(name, at, count)
        except Refused as fault:
            return str(fault)
        self.waiting.append((place, sectors))
        return "ok"

    def together(self, many):
        """Writes that are committed together. Where one is not whole, or none, those before it are committed and answered, and the end follows."""
        replies, fault = [], None
        try:
            for _ in range(many):
                words = self.words()
                if words is None:
                    raise EOFError
                if words[0] != "write":
                    raise Refused(20)
                replies.append(self.staged(*words[1:]))
        except (EOFError, Refused) as end:
            fault = end
        waiting, self.waiting = self.waiting, []
        if waiting:
            self.set.commit(waiting)
        self.answer("".join(f"{it}\n" for it in replies).encode(), "write")
        if fault:
            raise fault

    def answer(self, reply, word):
        """Answers a line, wrongly where that is asked for."""
        self.lines += word in ("read", "write", "zero")
        once = os.environ.get("FAULT_ONCE")
        is_wrong = self.fault and word in ("read", "write", "zero") and self.lines >= int(os.environ.get("FAULT_AT", 1))
        if is_wrong and once:
            is_wrong = not os.path.exists(once)
            open(once, "wb").close()
        self.say(self.wrong(reply) if is_wrong else reply)

    def wrong(self, reply):
        fault = self.fault
        if fault in ("lost", "worn"):
            self.say({"lost": b"refused 15 TwoLost\n", "worn": b"refused 16 Worn\n"}[fault])
            raise Refused({"lost": 15, "worn": 16}[fault])
        if fault == "memory":
            self.fault = None
            return b"refused 14 Memory\n"
        if fault in ("dies", "torn"):
            self.say(reply[: len(reply) // 2] if fault == "torn" else b"")
            os.kill(os.getpid(), signal.SIGKILL)
        if fault == "waits":
            self.held.append(reply)
            signal.signal(signal.SIGALRM, self.say_held)
            signal.setitimer(signal.ITIMER_REAL, SECONDS_OF_SILENCE)
            return b""
        if fault == "exits":
            sys.exit("it has had enough")
        if fault == "closes":
            os.close(1)
            time.sleep(3)
            sys.exit(1)
        while fault == "endless":
            self.say(b"00" * 50_000)
        texts = {"strange": b"what\n", "short": reply[:-2] + b"\n", "twice": reply * 2, "empty": b"\n", "other": b"blocks 1\n" + bytes(512)}
        return texts.get(fault, reply)

    def done(self, word, *fields):
        """The reply to a line that is no `together`."""
        if word == "read":
            return b"blocks %d\n" % fields[2] + self.set.read(*fields)
        if word == "write":
            reply = self.staged(*fields)
            waiting, self.waiting = self.waiting, []
            if waiting:
                self.set.commit(waiting)
            return f"{reply}\n".encode()
        if word == "zero":
            self.set.commit([(self.set.start(*fields), bytes(fields[2] * BLOCK))])
        elif word == "list":
            volumes = sorted(self.set.table["volumes"].items())
            return "".join([f"volumes {len(volumes)}\n", *(f"{name} {blocks}\n" for name, (_, blocks) in volumes)]).encode()
        elif word == "status":
            text = json.dumps(self.set.status(), separators=(",", ":")).encode()
            return b"status %d\n" % len(text) + text
        elif word in ("create", "extend", "remove", "rename"):
            self.set.change(word, *fields)
        else:
            raise Refused(20)
        return b"ok\n"

    def run(self):
        try:
            while words := self.words():
                if words[0] == "together":
                    self.together(words[1])
                    continue
                try:
                    reply = self.done(*words)
                except Refused as fault:
                    reply = f"{fault}\n".encode()
                    if fault.number in (15, 16, 20):
                        raise
                self.answer(reply, words[0])
        except EOFError:
            sys.exit("refused 21 ReadFault")
        except Refused as fault:
            self.say(f"{fault}\n".encode())
            sys.exit("refused 21 ReadFault" if fault.number in (7, 20) else str(fault))


def make(words):
    blocks = (words.stripes or 2080) * (words.chunk or 8) * (MEMBERS - 1)
    table = {"id": words.id, "generation": 1, "slots": ["in-sync"] * SLOTS, "volumes": {}, "blocks": blocks}
    for slot in range(SLOTS):
        with open(f"{words.folder}/dev{slot}.img", "xb") as file:
            file.write(json.dumps(table).encode().ljust(HEADER, b"\0"))
            file.truncate(HEADER + blocks * BLOCK)
    print("made")


def examine(words):
    ids = sorted({it["id"] for it in Set(words.folder, words.id, is_locked=False).tables.values()})
    for set_id in ids if words.id == "auto" else [words.id]:
        examine_set(Set(words.folder, set_id, is_locked=False), words)


def examine_set(found, words):
    stale = found.stale()
    missing = [slot for slot, state in enumerate(found.table["slots"]) if state != "in-sync"]
    told = f"would assemble: slot {missing[0]} missing" if missing else "would assemble: complete"
    told = f"would mark slot {stale[0]} missing" if stale else told
    told = "refused 15 TwoLost" if len(stale) + len(missing) > 1 else told
    print(json.dumps({"id": found.table["id"], "outlook": told}) if words.json else f"set {found.table['id']}\n{told}")


def replace(found, words):
    slot = words.slot
    if found.table["slots"][slot] != "missing":
        raise Refused(10)
    with contextlib.suppress(KeyError):
        os.close(found.files.pop(slot))
    found.files[slot] = os.open(f"{words.folder}/dev{slot}.img", os.O_RDWR | os.O_CREAT)
    source = found.files[found.live()[0]]
    os.ftruncate(found.files[slot], os.fstat(source).st_size)
    if slot < MEMBERS:
        os.pwrite(found.files[slot], os.pread(source, 1 << 30, 0), 0)
    found.table["slots"][slot] = "in-sync"
    found.put_table()
    print("ok")


def commanded(words):
    """One of the other commands on a set that is opened."""
    found = Set(words.folder, words.id)
    found.assemble()
    if words.command == "serve":
        Serve(found).run()
    elif words.command == "status":
        print("".join(f" {it['slot']} {it['role']:8} {it['state']:10} 1\n" for it in found.status()["slots"]), end="")
    elif words.command == "replace":
        replace(found, words)
    elif words.command == "create":
        found.change("create", words.name, int(words.size[:-1]) * 2048)
        print("ok")
    elif words.command == "upgrade":
        print("ok")
    elif words.command in ("rebuild", "scrub"):
        print({"rebuild": "complete", "scrub": "8320 rows, 0 bad"}[words.command])


def main():
    parser = argparse.ArgumentParser(prog="raidtool")
    parser.add_argument("--version", action="version", version="stand-in")
    parser.add_argument("command")
    parser.add_argument("folder")
    parser.add_argument("name", nargs="?")
    parser.add_argument("size", nargs="?")
    for word in ("--id", "--size"):
        parser.add_argument(word, dest=f"set{word[1:]}" if word == "--size" else "id", default="auto")
    for word in ("--members", "--chunk", "--stripes", "--slot"):
        parser.add_argument(word, type=int)
    parser.add_argument("--json", action="store_true")
    words = parser.parse_args()
    try:
        {"make": make, "examine": examine}.get(words.command, commanded)(words)
    except Refused as fault:
        sys.exit(str(fault))


if __name__ == "__main__":
    main()

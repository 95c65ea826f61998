"""What the cases of `nbd` share: raidmounts that run, what they leave behind, and what a volume holds by the program alone."""
import contextlib, hashlib, os, pathlib, re, shutil, signal, subprocess, time

from shared import ID, Failed, run, shape, words

BLOCK_BYTES, MOST_BLOCKS = 512, 2_048
# The volume on which there is a file system: the smallest one with a journal.
DISK_BLOCKS, SMALL_BLOCKS = 16_384, 2_048
LONGEST, STEP = 180, 0.02
PLACES = pathlib.Path("/run/raidmount")


def until(done, what):
    """Waits until it is done."""
    end = time.monotonic() + LONGEST
    while not done():
        if time.monotonic() > end:
            raise Failed(f"{what}: not within {LONGEST} seconds")
        time.sleep(STEP)


def processes(*wanted):
    """The processes that have all these words on their command lines."""
    for entry in pathlib.Path("/proc").glob("[0-9]*"):
        with contextlib.suppress(OSError):
            given = (entry / "cmdline").read_bytes().split(b"\0")
            if all(os.fsencode(word) in given for word in wanted):
                yield int(entry.name)


def parent_of(process):
    return int(re.search(r"^PPid:\s+(\d+)", pathlib.Path(f"/proc/{process}/status").read_text(encoding="utf-8"), re.M)[1])


def left_behind(top, places):
    """What of this folder, and of the places of its sets, is still mounted, served or running, a line each."""
    top, places = str(top), tuple(map(str, places))
    for line in pathlib.Path("/proc/self/mountinfo").read_text(encoding="utf-8").splitlines():
        path = line.split(" ")[4]
        if path.startswith((f"{top}/mnt", *places)):
            yield f"a mount on {path}"
    for file in pathlib.Path("/sys/block").glob("loop*/loop/backing_file"):
        with contextlib.suppress(OSError):
            if file.read_text().startswith(places):
                yield f"a loop device over {file.read_text().strip()}"
    for entry in pathlib.Path("/proc").glob("[0-9]*"):
        with contextlib.suppress(OSError):
            given = (entry / "cmdline").read_bytes().split(b"\0")
            named = os.path.basename(given[0]) + b" " + os.path.basename(b"".join(given[1:2]))
            if re.match(rb"(nbdkit|nbdfuse|raidtool|python\S* raid(mount|tool))\b", named) and os.fsencode(top) in b"".join(given):
                yield f"process {entry.name}, {b' '.join(given).decode()}"
    yield from (f"the socket {path}" for path in pathlib.Path(top).rglob("*") if path.is_socket())
    yield from (f"the place {path}" for path in places if os.path.isdir(path))


class Sets:
    """The installed program, and the folder in which sets are made."""

    def __init__(self, top, prefix):
        self.top, self.prefix = top, prefix
        self.program, self.raidmount = f"{prefix}/bin/raidtool", f"{prefix}/bin/raidmount"
        self.plugin = prefix / "lib/raidtool/nbdkit-raidtool-plugin.so"
        self.mountpoint, self.second = top / "mnt", top / "mnt2"
        for place in (self.mountpoint, self.second):
            place.mkdir()
        self.cases, self.served, self.places = 0, [], set()

    def make(self, name, *volumes, size=None):
        """A set with these volumes, where a size is given of format 2."""
        folder = self.place_of(name)
        folder.mkdir()
        run([self.program, *words("make", folder, *(["--members", "3", "--size", size] if size else shape(3, 128, 66)))])
        script = "".join(f"create {volume} {blocks}\n" for volume, blocks in volumes)
        self.script(folder, script, b"ok\n" * len(volumes))
        return folder

    def lines(self, folder, script):
        """What the program ends with by these lines, answers, and tells."""
        script = script.encode() if isinstance(script, str) else script
        ran = subprocess.run([self.program, *words("serve", folder)], input=script, capture_output=True, timeout=LONGEST)
        return ran.returncode, ran.stdout, ran.stderr.decode()

    def script(self, folder, script, wanted=None):
        status, found, told = self.lines(folder, script)
        if status or wanted not in (None, found):
            raise Failed(f"{script[:80]!r} was answered {found[:80]!r} with status {status}: {told}")
        return found

    def volumes(self, folder):
        """The blocks of each volume."""
        head, *lines = self.script(folder, "list\n").decode().splitlines()
        if head != f"volumes {len(lines)}":
            raise Failed(f"{len(lines)} volumes are listed as {head!r}")
        return {name: int(blocks) for name, blocks in (line.split(" ") for line in lines)}

    def status(self, folder):
        return run([self.program, *words("status", folder)])

    def image(self, folder, volume="disk"):
        """What a volume holds, as the program alone answers it."""
        blocks = self.volumes(folder)[volume]
        asked = [(at, min(MOST_BLOCKS, blocks - at)) for at in range(0, blocks, MOST_BLOCKS)]
        replies = self.script(folder, "".join(f"read {volume} {at} {count}\n" for at, count in asked))
        found, at = [], 0
        for _, count in asked:
            head = b"blocks %d\n" % count
            if replies[at : at + len(head)] != head:
                raise Failed(f"a read is answered {replies[at : at + 40]!r}")
            found.append(replies[at + len(head) : at + len(head) + count * BLOCK_BYTES])
            at += len(head) + count * BLOCK_BYTES
        return b"".join(found)

    def copy(self, folder, name):
        place = self.place_of(name)
        shutil.copytree(folder, place)
        return place

    def place_of(self, name):
        """A folder for a set, whose raidmounts have their place by it."""
        folder = self.top / name
        self.places.add(PLACES / hashlib.sha256(os.fsencode(folder)).hexdigest()[:16])
        return folder

    def left(self):
        return list(left_behind(self.top, self.places))

    def count(self, what):
        """A case that is done: nothing of it may be left."""
        try:
            until(lambda: not self.left(), f"{what}: left behind is")
        except Failed as fault:
            raise Failed(f"{fault}: {', '.join(self.left())}") from fault
        self.cases += 1

    def clear(self):
        """Removes what a part made, but for the set whose file system others begin with."""
        for path in self.top.iterdir():
            if path.is_dir() and path not in (self.mountpoint, self.second, pathlib.Path(self.prefix), self.top / "formatted"):
                shutil.rmtree(path)
            elif not path.is_dir():
                path.unlink()


class Raidmount:
    """A raidmount that runs."""

    def __init__(self, sets, folder, *line, name="nbd", waits=True, **how):
        self.sets, self.folder = sets, os.path.realpath(folder)
        self.log, self.output = sets.top / f"{name}.log", sets.top / f"{name}.out"
        with open(self.log, "wb") as log, open(self.output, "wb") as output:
            streams = {"stdin": subprocess.DEVNULL, "stdout": output, "stderr": log, "start_new_session": True}
            self.ran = subprocess.Popen([sets.raidmount, self.folder, *map(str, line)], **streams, **how)
        sets.served.append(self)
        if waits:
            self.await_start()

    def is_ready(self):
        """Whether it has said so, with nothing after it."""
        lines = self.output.read_text(encoding="utf-8").splitlines()
        return lines[-1:] == ["ready"]

    def await_start(self):
        until(lambda: self.ran.poll() is not None or self.is_ready(), "raidmount's start")
        if self.ran.poll() is not None:
            raise Failed(f"raidmount ended with {self.ran.returncode}: {self.told()}")

    def told(self):
        return self.log.read_text(encoding="utf-8", errors="replace")

    def says(self, *texts):
        return any(text in self.told() for text in texts)

    def await_word(self, text):
        until(lambda: self.says(text), f"the word {text!r}")

    def check_refused(self, text):
        """It ends with 1, says this, and never was ready."""
        until(lambda: self.ran.poll() is not None, f"the refusal {text!r}")
        if self.ran.returncode != 1 or text not in self.told() or self.output.read_bytes():
            raise Failed(f"raidmount had to be refused with {text!r}, and ended with {self.ran.returncode}: {self.told()}")

    def process(self, name):
        """The process of nbdkit or of the program, which are the set's, or of nbdfuse or a second nbdkit, which are this raidmount's own, or this itself."""
        if name == "raidmount":
            return self.ran.pid
        shared = {"nbdkit": [f"folder={self.folder}"], "program": [self.sets.program, "serve", self.folder]}
        own = {"nbdfuse": ["nbdfuse"], "front": ["dynamic-export=true"]}
        found = [it for it in processes(*{**shared, **own}[name]) if name in shared or parent_of(it) == self.ran.pid]
        if len(found) != 1:
            raise Failed(f"{len(found)} processes are the {name} of {self.folder}: {self.told()}")
        return found[0]

    def kill(self, name, number=signal.SIGKILL):
        process = self.process(name)
        os.kill(process, number)
        return process

    def end(self, number=signal.SIGTERM, status=0):
        """Ends it by a signal, or only waits for its end."""
        if number:
            self.ran.send_signal(number)
        until(lambda: self.ran.poll() is not None, "the end of raidmount")
        if self.ran.returncode != status:
            raise Failed(f"raidmount ended with {self.ran.returncode}, and not {status}: {self.told()}")


class Served(Raidmount):
    """A raidmount that serves the set in a folder at a socket."""

    def __init__(self, sets, folder, *more, name="nbd", **how):
        self.socket = sets.top / f"{name}.sock"
        super().__init__(sets, folder, "--serve", "--id", ID, "--socket", self.socket, *more, name=name, **how)

    @property
    def uri(self):
        return self.uri_of("disk")

    def uri_of(self, volume):
        return f"nbd+unix:///{volume}?socket={self.socket}"


class Mounted(Raidmount):
    """A raidmount that mounts a volume of the set in a folder."""

    def __init__(self, sets, folder, *more, volume="disk", place=None, name="nbd", **how):
        self.place = place or sets.mountpoint
        super().__init__(sets, folder, volume, self.place, "--id", ID, *more, name=name, **how)

    def unmount(self):
        """Unmounts the file system, which ends it."""
        run(["umount", self.place])
        self.end(None)

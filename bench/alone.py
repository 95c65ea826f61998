"""What bench/nbd times of the program alone: `serve`, fed from a file, beside a loop of C that makes the same calls on the same files.

A library (.ci/unsynced.c) records the calls of a run; replay.c makes them again, and writes the bytes of blocks that are read to standard output, which is a
pipe to `cat` for both. Each time is that of a whole process, from its start to its end; of some runs in turn the best counts."""
import os, random, shutil, struct, subprocess, sys, time

sys.path.insert(0, f"{os.path.dirname(os.path.realpath(__file__))}/../.ci")
from shared import TOP, Failed, c_compiler, run, words
from unsynced import calls_in

BLOCK_BYTES = 512
CALL = struct.Struct("<4Q")


def build(source, to, *how):
    run([c_compiler(), "-O2", *how, source, "-o", to])
    return to


class Alone:
    """The program over a set with the volume `disk`."""

    def __init__(self, top, program, folder):
        self.top = top
        self.replayer = build(TOP / "bench/replay.c", f"{top}/replay")
        self.recorder = build(TOP / ".ci/unsynced.c", f"{top}/calls.so", "-shared", "-fPIC", "-ldl")
        self.syncs = build(TOP / ".ci/syncs.c", f"{top}/alone-syncs.so", "-shared", "-fPIC", "-ldl")
        self.serve = [program, *words("serve", folder)]
        # What the loop writes is no set.
        self.copy = shutil.copytree(folder, f"{top}/copy")

    def timed(self, line, script, wait=0):
        """The seconds of a process whose output `cat` reads, and its syncs."""
        log = f"{self.top}/alone.syncs"
        open(log, "wb").close()
        env = {**os.environ, "LD_PRELOAD": self.syncs, "SYNCS_LOG": log, "SYNCS_WAIT": str(int(1000 * wait))}
        with open(script, "rb") as lines:
            began = time.perf_counter()
            ran = subprocess.Popen(line, stdin=lines, stdout=subprocess.PIPE, env=env)
            subprocess.run(["cat"], stdin=ran.stdout, stdout=subprocess.DEVNULL, check=True)
            if ran.wait():
                raise Failed(f"{line[0]} ends with {ran.returncode}")
        return time.perf_counter() - began, os.path.getsize(log)

    def recorded(self, script):
        """The calls on device files by which it answers a script."""
        log = f"{self.top}/calls"
        with open(log, "wb"), open(script, "rb") as lines:
            subprocess.run(self.serve, stdin=lines, stdout=subprocess.DEVNULL, env={**os.environ, "LD_PRELOAD": self.recorder, "CALLS_LOG": log}, check=True)
        with open(log, "rb") as file:
            return [call for call in calls_in(file.read()) if call.kind in "RWY"]

    def script(self, name, parts):
        path = f"{self.top}/{name}.script"
        with open(path, "wb") as file:
            file.writelines(parts)
        return path

    def replay(self, script, are_shown):
        """The words that make the same calls as the program; what it reads after its start is shown, if anything is."""
        start = len(self.recorded(os.devnull))
        path = f"{script}.calls"
        with open(path, "wb") as file:
            for number, call in enumerate(self.recorded(script)):
                kind = "P" if are_shown and number >= start and call.kind == "R" else call.kind
                file.write(CALL.pack(ord(kind), call.slot, call.at, call.bytes))
        return [self.replayer, self.copy, path]

    def beside(self, what, script, count, runs, wait=0, are_shown=False):
        """Prints the times of a script of so many lines beside those of the loop. Returns the seconds and the syncs of a line."""
        loop = self.replay(script, are_shown)
        empty = min(self.timed(self.serve, os.devnull, wait) for _ in range(runs))
        ours, loops = zip(*((self.timed(self.serve, script, wait), self.timed(loop, os.devnull, wait)) for _ in range(runs)))
        best, syncs = min(ours)
        ratio = min(loops)[0] / best
        each, syncs = (best - empty[0]) / count, (syncs - empty[1]) / count
        print(f"the program alone, {what}: {1000 * each:.3f} ms and {syncs:.2f} syncs each, {ratio:.2f} of the loop's rate", flush=True)
        return each, syncs


def write(at, count):
    return b"write disk %d %d\n" % (at, count) + random.randbytes(count * BLOCK_BYTES)


def time_alone(top, program, folder, blocks, runs, waits):
    alone = Alone(top, program, folder)
    places = random.sample(range(0, blocks, 8), 512)
    ones = alone.script("ones", [write(at, 8) for at in places[:64]])
    groups = alone.script("groups", [part for k in range(0, 512, 16) for part in (b"together 16\n", *(write(at, 8) for at in places[k : k + 16]))])
    large = alone.script("large", [write(at, 2048) for at in range(0, blocks - 2047, 2048)])
    reads = alone.script("reads", [b"read disk %d 2048\n" % at for at in range(0, blocks - 2047, 2048)] * 8)
    for wait in waits:
        print(f"each sync takes {wait:g} ms more")
        one, _ = alone.beside("writes of 4 KiB", ones, 64, runs, wait)
        group, _ = alone.beside("16 writes of 4 KiB together", groups, 32, runs, wait)
        print(f"    16 together take {group / one:.2f} of the time of one")
        alone.beside("writes of 1 MiB", large, blocks // 2048, runs, wait)
    alone.beside("reads of 1 MiB", reads, blocks // 2048 * 8, runs, are_shown=True)

"""The first look at a set: one is made on files, written, and then read without one of its files, which is then replaced. `./try-it` shows it by the program
before any proof, and `.ci/statuses` runs it with its own cases.

A folder can't lose a file between two cases that run by themselves. So the set without a file is a folder of links to the others.
"""
import pathlib, random

from shared import BLOCK_BYTES, BLOCKS, MOST_BLOCKS, ROWS, SLOTS, Case, shape, words

LOST, LOST_THEN = 1, 0
COLUMNS = 100


class Look:
    """The folders of a set and of that set without a file, and what is asked of it, in order, each with what it shows."""

    def __init__(self, top):
        self.top = pathlib.Path(top)
        self.set, self.without, self.again = (self.top / name for name in ("set", "set-without-1", "set-without-0"))
        links = {self.without: (self.set, LOST), self.again: (self.without, LOST_THEN)}
        self.set.mkdir(parents=True)
        for folder, (files, lost) in links.items():
            folder.mkdir()
            for slot in range(SLOTS):
                if slot != lost:
                    (folder / f"dev{slot}.img").symlink_to(files / f"dev{slot}.img")
        self.steps = list(self.in_order())
        self.cases = {f"look{number:02}": case for number, (_, case) in enumerate(self.steps, 1)}

    def in_order(self):
        """Each case, with what is said before it."""
        blocks = [bytes(BLOCK_BYTES)] * BLOCKS
        yield "A set of 3 member files and 2 journal files is made.", Case(words("make", self.set, *shape()), output="made\n")
        script, count = f"create a {BLOCKS}\n", 1
        for at in range(0, BLOCKS, 16):
            block = random.randbytes(BLOCK_BYTES)
            script, count = script + f"write a {at} {block.hex()} {block.hex()}\n", count + 1
            blocks[at : at + 2] = [block, block]
        said = f"A volume a of {BLOCKS} blocks of {BLOCK_BYTES} bytes is created, and random bytes are written to it."
        yield said, Case(words("run", self.set), script, output="ok\n" * count)
        reads = "".join(f"read a {at} {MOST_BLOCKS}\n" for at in range(0, BLOCKS, MOST_BLOCKS))
        read = "".join("00*512\n" if not any(block) else f"{block.hex()}\n" for block in blocks)
        said = f"The file dev{LOST}.img is gone (the folder has links to the other files alone), and the whole volume is read."
        yield said, Case(words("run", self.without), reads, output=read)
        yield "A new file takes its place, and its rows are rebuilt from the others.", Case(words("replace", self.without, "--slot", LOST), output="ok\n")
        yield "", Case(words("rebuild", self.without), output="complete\n")
        yield "", Case(words("scrub", self.without), output=f"{ROWS} rows, 0 bad\n")
        yield f"Then dev{LOST_THEN}.img is gone, and the whole volume is read again.", Case(words("run", self.again), reads, output=read)

    def show(self, show):
        """Shows what was asked, and what was answered, since all was as it has to be."""
        for said, case in self.steps:
            show(f"\n{said}" * bool(said))
            name, *more = case.words
            show(f"$ raidtool {' '.join([name, *more])}" + (f"    # {case.script.count(chr(10))} lines" if case.script else ""))
            lines = case.output.splitlines()
            if lines and all(line == "ok" for line in lines) and len(lines) > 1:
                show(f"ok ({len(lines)} times)")
            elif len(lines) > 1:
                show(f"{lines[0][:COLUMNS]}..\n({len(lines)} blocks, each as it was written)")
            else:
                show(case.output.rstrip())

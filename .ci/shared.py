"""What the scripts of this repository share: the set that they make, how the program is called, built and tried, and where the toolchain lies."""
import collections, os, pathlib, re, shutil, subprocess, sys, time

TOP = pathlib.Path(__file__).resolve().parent.parent
PROGRAM_CRATE = TOP / "crates/raidtool"
ID = "000102030405060708090a0b0c0d0e0f"
MEMBERS, CHUNK, STRIPES = 3, 8, 32
SLOTS, ROWS, BLOCKS, BLOCK_BYTES = MEMBERS + 2, CHUNK * STRIPES, 448, 512
MOST_BLOCKS = 32
COLUMNS = 200


class Failed(Exception):
    """Something is not as it has to be. The text says what."""


def ending(main):
    """Ends the process as main says, with 1 and its text where something has failed."""
    try:
        sys.exit(main())
    except Failed as fault:
        sys.exit(f"FAILED: {fault}")


def shape(members=MEMBERS, chunk=CHUNK, stripes=STRIPES):
    return ["--members", str(members), "--chunk", str(chunk), "--stripes", str(stripes)]


def words(name, folder, *more):
    """The words of a command on the set in a folder."""
    return [name, str(folder), "--id", ID, *map(str, more)]


def answered(line, script="", **how):
    """A process's status, and what it wrote to standard output and error."""
    ran = subprocess.run([*map(str, line)], input=script.encode(), capture_output=True, **how)
    return ran.returncode, ran.stdout.decode(), ran.stderr.decode()


def run(line, script=""):
    """What a process writes to standard output. Only status 0 will do."""
    status, output, told = answered(line, script)
    if status:
        raise Failed(f"{' '.join(map(str, line))}: status {status}: {told.strip()}")
    return output


def crates():
    """The crates of crates.txt, lowest first, each with what it stands on."""
    found = {}
    for line in (TOP / "crates.txt").read_text(encoding="utf-8").splitlines():
        head, colon, libraries = line.partition("#")[0].partition(":")
        if colon and head.split():
            found[head.split()[0]] = libraries.split()
    return found


# The program, proved or not


def built(program=None):
    """The path of the program that is given, or of the proved one, which is built where it was not."""
    if program:
        return os.path.abspath(program)
    ran = subprocess.run([TOP / "build"], stdout=subprocess.PIPE, encoding="utf-8")
    if ran.returncode:
        sys.exit(1)
    return ran.stdout.strip()


# What the program is asked, and how that has to end: its status, what it writes, and a text that is in what it tells on standard error, or None where it
# tells nothing.
Case = collections.namedtuple("Case", "words script status output told", defaults=("", 0, "", None))


def tried(cases, folder, tell=lambda seconds: None):
    """Builds the program without any proof and runs it for each case, by their names (`rt try --cases`). Returns what is wrong, a line each; all that was said
    goes before these. `tell` is called now and then while the program is built."""
    folder = pathlib.Path(folder)
    folder.mkdir()
    for name, case in cases.items():
        # With no file of its output, `rt try` prints what a case writes.
        (folder / name).write_text(case.script, encoding="ascii")
        (folder / f"{name}.args").write_text("".join(f"{word}\n" for word in case.words), encoding="ascii")
    how = {"stdin": subprocess.DEVNULL, "stdout": subprocess.PIPE, "stderr": subprocess.PIPE, "encoding": "utf-8", "errors": "replace"}
    ran = subprocess.Popen(["rt", "try", "--cases", folder], cwd=PROGRAM_CRATE, **how)
    began, said = time.monotonic(), None
    while said is None:
        try:
            said = ran.communicate(timeout=15)
        except subprocess.TimeoutExpired:
            tell(int(time.monotonic() - began))
    faults = faults_of(cases, *said)
    if ran.returncode:
        faults.append(f"rt try ended with {ran.returncode}")
    return [*(line[:COLUMNS] for text in said for line in text.splitlines()), *faults] if faults else []


def faults_of(cases, output, told):
    """What is wrong with the cases, by what `rt try` wrote."""
    # A case's output stands after its name, and what it writes to standard error before the line of its end.
    written = re.split(r"^== (\w+)\n", output, flags=re.M)
    written = dict(zip(written[1::2], written[2::2]))
    lines = re.split(r"^case=(\w+) (.*)\n", told, flags=re.M)
    ended = {name: (text, end) for text, name, end in zip(lines[::3], lines[1::3], lines[2::3])}
    faults = []
    for name, case in cases.items():
        text, end = ended.get(name, ("", "not run"))
        is_told = text == "" if case.told is None else case.told in text
        if not end.startswith(f"run=ended status={case.status} ") or not is_told or written.get(name) != case.output:
            error = f"and {case.told!r}" if case.told else "and nothing"
            wanted = f"status {case.status}, {case.output[:500]!r} {error} on standard error"
            faults.append(f"case {name}, raidtool {' '.join(case.words)}: {end}; wanted were {wanted}")
    return faults


# The toolchain, and C


def kit():
    """The folder of the toolchain, whose `rt` is on the path."""
    found = shutil.which("rt")
    if not found:
        sys.exit("rt is not on the path: the toolchain is needed")
    return os.path.dirname(os.path.dirname(os.path.realpath(found)))


def c_compiler():
    """The C compiler that CC names, or cc."""
    found = os.environ.get("CC", "cc")
    if not shutil.which(found):
        sys.exit(f"there is no C compiler {found}: set CC")
    return found


def said_by(fault, line, folder):
    """What a process says that has to end well, else the fault."""
    ran = subprocess.run(line, cwd=folder, stdin=subprocess.DEVNULL, stdout=subprocess.PIPE, stderr=subprocess.STDOUT, encoding="utf-8", errors="replace")
    if ran.returncode:
        sys.exit(f"{ran.stdout}{fault}")
    return ran.stdout


def prove(crate):
    """A crate, and what it stands on, is proved and built as a library, unless it is."""
    said_by(f"crates/{crate} was not built", [f"{kit()}/bin/rt", "lib"], TOP / f"crates/{crate}")


def static_library(crate, root, below, of_kit, folder, cpu=()):
    """The static library of a crate that C calls, over these crates of the repository and of the kit, which are there."""
    place, library = kit(), f"{folder}/lib{'-'.join([crate, *cpu])}.a"
    line = [f"{place}/bin/rattle", "build", "--crate-name", crate, "--crate-type", "staticlib", root, "-o", library]
    line += [word for level in cpu for word in ("--cpu", level)]
    line += ["--antt-project", f"{place}/rattle/logic/antt-project.json", "--logic-built", f"{place}/logic_built", "--toolchain", f"{place}/toolchain"]
    line += ["-L", f"dependency={place}/rlibs"]
    outs = {name: TOP / f"crates/{name}/out/rlib" for name in below}
    for out in outs.values():
        line += ["-L", f"dependency={out}"]
    for name, out in {**{name: f"{place}/rlibs" for name in ("core", "std", *of_kit)}, **outs}.items():
        line += ["--extern", f"{name}={out}/{name}.rlib"]
    said_by("the library was not built", line, folder)
    return library

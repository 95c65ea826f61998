"""The cases of `edges` in which two programs come to one set: at once, one while another one has
the files, and one after another that was killed."""
import contextlib, fcntl, itertools, os, pathlib, re, signal, subprocess
from concurrent.futures import ThreadPoolExecutor

from inspections import told_in
from shared import SLOTS, shape, words
from trials import COMMANDS, LONGEST, LOST, MADE, NO_SET, SCRIPTS
from trials import asked, check, check_files, differing, differs, file, held, without

ROUNDS, WORKERS = 25, 4
ANY_IN_USE = r"in use dev\d\.img\n"
IN_USE = (1, "", "in use")
PIPES = {"stdin": subprocess.PIPE, "stdout": subprocess.PIPE, "stderr": subprocess.PIPE}


# Two at once


def blocks_after(names, order):
    """What `read` gives of the blocks 0, 1, 40, 62 and 63 after these runs, if all goes well."""
    found = {0: "5a", 1: "a5", 40: "00", 62: "01", 63: "02"}
    written = ({0: "11", 1: "12", 40: "13"}, {1: "21", 63: "22"})
    for which in order:
        found.update(written[which] if names[which] == "run" else {})
    return "".join(f"{it}*512\n" for it in found.values())


def assembles(trials, what, folder, names, order, said):
    """Then the set assembles, if there is one, and what was acknowledged is there."""
    is_there = any(folder.iterdir())
    status, _, told = trials.ask("status", folder)
    check(f"{what}, the status", (status, told), (0, "") if is_there else (1, "refused 17 NoSet\n"))
    if is_there and "make" not in names:
        runs = [said[it][0] for it in order if names[it] == "run"]
        check(f"{what}, the status of a run", any(runs), False)
        reads = "read a 0 2\nread a 40 1\nread a 62 2\n"
        check(what, trials.ask("run", folder, reads), (0, blocks_after(names, order), ""))


def one_after_the_other(trials, start, names, order, away=0):
    """What commands say one after the other, and what is held after that; one that does not come
    finds the files in use. So many of the first files are away while the second runs, as if it had
    looked for them before the first ran."""
    what, said = f"{' and '.join(names[it] for it in order)} from {start}", [IN_USE, IN_USE]
    with trials.over(start) as folder:
        for which in order:
            with without(folder, range(away if which != order[0] else 0)):
                said[which] = trials.ask(names[which], folder, SCRIPTS[which])
        found = held(folder)
        assembles(trials, what, folder, names, order, said)
    return tuple(said), found


def ends_of(trials, start, names, is_creating):
    """All ends that two commands at once may come to."""
    orders = ((0, 1), (1, 0), (0,), (1,), ())
    ends = [one_after_the_other(trials, start, names, order) for order in orders]
    if is_creating and names[1] not in ("make", "replace"):
        # A file that is not there yet is locked by none: the first may create it when the second
        # has looked for it.
        absent = SLOTS if start == "empty" else LOST + 1
        more = range(1, absent + 1)
        ends += [one_after_the_other(trials, start, names, (0, 1), away) for away in more]
    return ends


def folded(status, output, told):
    """What a program said, without which file is in use."""
    is_in_use = (status, output) == (1, "") and re.fullmatch(ANY_IN_USE, told)
    return IN_USE if is_in_use else (status, output, told)


def at_once(trials, folder, names, turn):
    """What two commands say that start at once."""
    waits = ["sh", "-c", 'read go; exec "$@"', "sh", trials.program]
    started = [subprocess.Popen([*waits, *asked(name, folder)], **PIPES) for name in names]
    for which in (turn, 1 - turn):
        started[which].stdin.write(f"go\n{SCRIPTS[which]}".encode())
        started[which].stdin.flush()
    said = []
    for ran in started:
        output, told = ran.communicate(timeout=LONGEST)
        said.append(folded(ran.returncode, output.decode(), told.decode()))
    return tuple(said)


def pair(trials, start, names, rounds, is_creating=False):
    """Two commands at once, so many times. Returns how often one was refused for the other."""
    ends, refusals = ends_of(trials, start, names, is_creating), 0
    for number in range(rounds):
        with trials.over(start) as folder:
            said, found = at_once(trials, folder, names, number % 2), held(folder)
        if is_creating and IN_USE in said:
            # One that was refused may leave an empty file that it created.
            found = {name: content for name, content in found.items() if content != b""}
        what = f"{names[0]} and {names[1]} at once, from {start}, round {number + 1}"
        wanted = [files for texts, files in ends if texts == said]
        if not wanted:
            differs(what, f"said {said!r}")
        if found not in wanted:
            differs(what, f"said {said!r}, with other bytes in {differing(found, wanted[0])}")
        refusals += IN_USE in said
        trials.count()
    return refusals


def inspect_beside(trials, name):
    """An inspection that starts together with a command ends with 0, or finds no set where there was none.
    The command ends as ever. Returns how often they started."""
    start = "empty" if name == "make" else start_of([name])
    with trials.over(start) as folder:
        whole, after = trials.ask(name, folder, SCRIPTS[1]), held(folder)
    for number in range(ROUNDS):
        with trials.over(start) as folder:
            what = f"examine and {name} at once, round {number + 1}"
            inspected, said = at_once(trials, folder, ("examine", name), number % 2)
            found = held(folder)
            check(f"{what}, the command", said, whole)
            check_files(what, found, after)
            if start != "empty" or inspected != NO_SET:
                check(f"{what}, the inspection", (inspected[0], inspected[2]), (0, ""))
                check(f"{what}, the sets that are told", len([*told_in(what, inspected[1])]), 1)
            trials.count()
    return ROUNDS


def start_of(names):
    """A set that both commands have something to do on, and whose files are all there."""
    if "rebuild" in names:
        return "joined"
    return "given up" if "replace" in names else "whole"


def pairs(trials):
    """All pairs of commands, and those that create files, with each other."""
    both = itertools.combinations_with_replacement(COMMANDS, 2)
    wanted = [(start_of(names), names, ROUNDS) for names in both]
    for name in COMMANDS:
        wanted.append(("empty", ("make", name), ROUNDS, True))
        wanted.append(("absent", ("replace", name), ROUNDS, True))
    with ThreadPoolExecutor(WORKERS) as workers:
        inspections = [workers.submit(inspect_beside, trials, name) for name in COMMANDS]
        refusals = sum(workers.map(lambda it: pair(trials, *it), wanted))
        times = sum(it[2] for it in wanted) + sum(it.result() for it in inspections)
    print(f"two at once: {times} times, with one refused in {refusals}")


# One that has the files


def in_use_by_another(trials):
    """Each file is locked by this process in turn, also one after the set, and one of no set."""
    slots = [("ten", slot) for slot in (*range(SLOTS), 7)]
    for (start, slot), how in itertools.product(slots, (fcntl.LOCK_EX, fcntl.LOCK_SH)):
        with trials.over(start) as folder, open(folder / file(slot), "rb") as opened:
            fcntl.flock(opened, how)
            what = f"where another program has {file(slot)}"
            trials.each_refused(what, f"in use {file(slot)}\n", folder)
    with trials.over("empty") as folder:
        (folder / file(7)).write_bytes(b"")
        with open(folder / file(7), "rb") as opened:
            fcntl.flock(opened, fcntl.LOCK_EX)
            trials.each_refused("of no set", f"in use {file(7)}\n", folder)


def lockable(folder):
    """The slots whose files can be locked now, if only together with others that read."""
    found = []
    for slot in range(SLOTS):
        with open(folder / file(slot), "rb") as opened, contextlib.suppress(BlockingIOError):
            fcntl.flock(opened, fcntl.LOCK_SH | fcntl.LOCK_NB)
            found.append(slot)
    return found


@contextlib.contextmanager
def ended(ran):
    """A program that is killed at last, where it has not ended, also if it is stopped."""
    try:
        yield ran
    finally:
        if ran.returncode is None:
            ran.kill()
            ran.communicate()


@contextlib.contextmanager
def serving(trials, folder):
    """A run that waits for more of its script, after a reply."""
    with ended(subprocess.Popen([trials.program, *asked("run", folder)], **PIPES)) as ran:
        ran.stdin.write(b"write a 0 77*512 78*512\n")
        ran.stdin.flush()
        check("a run whose script stays open", ran.stdout.readline(), b"ok\n")
        yield ran


def held_by_a_script(trials):
    """A run has the files while each other command starts, and then goes on."""
    with trials.over("whole") as folder:
        with serving(trials, folder) as ran:
            trials.each_refused("while a script runs", ANY_IN_USE, folder)
            check("the slots that can be locked while a script runs", lockable(folder), [])
            output, told = ran.communicate(b"read a 0 1\nwrite a 1 79*512\n", timeout=LONGEST)
            check("the script", (ran.returncode, output, told), (0, b"77*512\nok\n", b""))
        trials.works("after a script", folder, "77*512\n79*512\n")
        check("the slots that can be locked after it", lockable(folder), list(range(SLOTS)))
        trials.count()


def killed(trials):
    """A run that has the files is killed, and each command works."""
    refusals = {"replace": "refused 10 NotMissing\n", "rebuild": "refused 12 NothingToRebuild\n"}
    for name in COMMANDS:
        with trials.over("whole") as folder:
            with serving(trials, folder) as ran:
                ran.kill()
                ran.communicate()
            status, _, told = trials.ask(name, folder, "read a 0 2\n")
            wanted = (int(name in refusals), refusals.get(name, ""))
            check(f"{name} after a kill", (status, told), wanted)
            if name not in ("make", "fail"):
                trials.works(f"{name} after a kill", folder, "77*512\n78*512\n")
            trials.count()


def has_all(folder):
    """Whether someone has a lock on each file of a set in a folder."""
    try:
        found = [(folder / file(slot)).stat() for slot in range(SLOTS)]
    except FileNotFoundError:
        return False
    names = {f"{os.major(it.st_dev):02x}:{os.minor(it.st_dev):02x}:{it.st_ino}" for it in found}
    locks = pathlib.Path("/proc/locks").read_text(encoding="ascii").splitlines()
    return names <= {it.split()[5] for it in locks if it.split()[1] == "FLOCK"}


def caught(trials, line, folder):
    """A command that is stopped while it has all files, or None where it had ended."""
    how = {**PIPES, "stdin": subprocess.DEVNULL}
    ran = subprocess.Popen([trials.program, *line], **how)
    while ran.poll() is None and not has_all(folder):
        pass
    if ran.returncode is None:
        ran.send_signal(signal.SIGSTOP)
        state = os.waitid(os.P_PID, ran.pid, os.WSTOPPED | os.WEXITED | os.WNOWAIT)
        if state.si_code == os.CLD_STOPPED and has_all(folder):
            return ran
        ran.kill()
    ran.communicate()
    return None


def stopped(trials):
    """The making and the scrub of a greater set are stopped in the middle while each other command
    starts, and then go on or are killed."""
    greater = {"make": shape(chunk=128, stripes=256), "scrub": []}
    outputs = {"make": "made\n", "scrub": "32768 rows, 0 bad\n"}
    for name, is_killed in itertools.product(greater, (False, True)):
        with trials.over("empty") as folder:
            line, wanted = words(name, folder, *greater[name]), (0, outputs[name], "")
            if name == "scrub":
                check("make", trials.run(words("make", folder, *greater["make"])).said, MADE)
            ran = next((it for it in (caught(trials, line, folder) for _ in range(10)) if it), None)
            if not ran:
                print(f"left out: no {name} was caught in the middle")
                continue
            with ended(ran):
                trials.each_refused(f"while a {name} is stopped", ANY_IN_USE, folder)
                ran.send_signal(signal.SIGKILL if is_killed else signal.SIGCONT)
                output, told = ran.communicate(timeout=LONGEST)
            said = (ran.returncode, output.decode(), told.decode())
            said = trials.run(line).said if is_killed else said
            check(f"{name}, after one that was stopped, or that one", said, wanted)
            trials.works(f"after a {name} that was stopped", folder)
            trials.count()


# One that is stopped by the library, right after some of its locks


def stopped_at(calls, name, folder, lock):
    """A command that stops itself after this many locks."""
    seen = calls.new_path()
    env = calls.environment(seen, {"LOCK_STOP": lock})
    with open(calls.new_path(), "w+b") as given:
        given.write(SCRIPTS[0].encode() if name == "run" else b"")
        given.seek(0)
        how = {**PIPES, "stdin": given, "env": env}
        ran = subprocess.Popen([calls.trials.program, *asked(name, folder)], **how)
        os.unlink(given.name)
    state = os.waitid(os.P_PID, ran.pid, os.WSTOPPED | os.WEXITED | os.WNOWAIT)
    seen.unlink(missing_ok=True)
    check(f"whether {name} stops after {lock} locks", state.si_code, os.CLD_STOPPED)
    return ran


def start_to_stop(name):
    """A start of which the command locks five files."""
    return {"make": "empty", "replace": "absent", "rebuild": "joined"}.get(name, "whole")


def stopped_at_locks(trials, calls):
    """Each command is stopped after its first lock and after its last one while each command
    starts, and then goes on as ever."""
    for name, lock in itertools.product(COMMANDS, (1, SLOTS)):
        start = start_to_stop(name)
        with trials.over(start) as folder:
            whole, after = trials.ask(name, folder), held(folder)
        with trials.over(start) as folder:
            with ended(stopped_at(calls, name, folder, lock)) as ran:
                what = f"while a {name} is stopped after {lock} locks"
                trials.each_refused(what, ANY_IN_USE, folder)
                trials.inspect(folder)
                ran.send_signal(signal.SIGCONT)
                output, told = ran.communicate(timeout=LONGEST)
            check(f"the end, {what}", (ran.returncode, output.decode(), told.decode()), whole)
            check_files(what, held(folder), after)
            trials.count()


def killed_at_locks(trials, calls):
    """Each command is killed while it has all files. It leaves no lock, and is done as ever then."""
    for name in COMMANDS:
        start = start_to_stop(name)
        with trials.over(start) as folder:
            whole = trials.ask(name, folder)
        with trials.over(start) as folder:
            with ended(stopped_at(calls, name, folder, SLOTS)) as ran:
                what = f"while a {name} is stopped"
                check(f"the slots that can be locked {what}", lockable(folder), [])
                ran.kill()
                ran.communicate()
            what = f"after a {name} that was killed"
            check(f"the slots that can be locked {what}", lockable(folder), [*range(SLOTS)])
            if name not in ("make", "replace"):
                check_files(what, held(folder), trials.starts[start])
            check(f"{name} {what}", trials.ask(name, folder), whole)
            trials.count()


GROUPS = (stopped, in_use_by_another, held_by_a_script, killed)
STOPPED = (stopped_at_locks, killed_at_locks)

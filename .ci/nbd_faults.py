"""The parts of `nbd` in which something fails, and nothing is mounted: refusals, programs that end or answer wrongly, and starts after kills."""
import contextlib, os, pwd, re, shutil, signal, subprocess, threading, time

from nbd_by_hand import READ, WRITE, WRITE_ZEROES, ByHand
from nbd_requests import asked_by_qemu, copied_in_and_out, done_by_qemu
from nbd_served import LONGEST, SMALL_BLOCKS, Mounted, Raidmount, Served, until
from shared import ID, TOP, Failed, answered, c_compiler, run, shape

STAND_IN = TOP / ".ci/serve_stand_in.py"


def refusals(sets):
    """What is refused at the start is shown, and a set that somebody else has."""
    folder = sets.make("refusals", ("disk", SMALL_BLOCKS), ("refused", 20))
    refused = lambda text, *line, **how: Raidmount(sets, *line, waits=False, **how).check_refused(text)
    refused("the set has no volume nobody: it has disk, refused", folder, "--attach", "nobody")
    refused("is no name of a volume", folder, "--attach", "disk 0 1")
    refused("is no folder", folder, "disk", sets.top / "nowhere")
    refused("refused 17 NoSet", sets.top / "nowhere", "--serve")
    refused("refused 17 NoSet", folder, "--serve", "--id", 32 * "e")
    for line in ((), ("disk",), ("--attach",), ("--serve", "disk"), ("--serve", "--mkfs"), ("--serve", "--id", "1"), ("--serve", "--tls", "on")):
        if answered([sets.raidmount, folder, *line], timeout=LONGEST)[0] != 2:
            raise Failed(f"the words {line} are not refused")
    (sets.top / "strange").mkdir()
    run([sets.program, "make", sets.top / "strange", "--id", 32 * "5", *shape(3, 128, 66)])
    (folder / "dev1.img").rename(sets.top / "away.img")
    shutil.copyfile(sets.top / "strange/dev1.img", folder / "dev1.img")
    refused(f"several sets: {ID} {32 * '5'}: say which by --id", folder, "--serve")
    (sets.top / "away.img").rename(folder / "dev1.img")
    served = Served(sets, folder)
    refused("is served by another program", sets.make("others", ("disk", SMALL_BLOCKS)), "--serve", "--socket", served.socket, name="second")
    refused(f"is served as the set {ID}", folder, "--serve", "--id", 32 * "e", name="second")
    refused("in use dev0.img", folder, "--serve", "--id", ID, name="second", env={**os.environ, "XDG_RUNTIME_DIR": str(sets.top)}, **as_nobody(sets, folder))
    asked_by_qemu(served.uri, "write -P 1 0 10k", "read -P 1 0 10k")
    served.end()
    for slot in (0, 3):
        (folder / f"dev{slot}.img").unlink()
    refused("refused 15 TwoLost", folder, "--serve", "--id", ID)
    clear_places_of_nobody(sets)
    sets.count("refusals")


def as_nobody(sets, folder):
    """How a process is somebody's who may use the files of a set, and has no rights of root."""
    if os.geteuid():
        return {}
    user = pwd.getpwnam("nobody").pw_uid
    sets.top.chmod(0o777)
    for path in (folder, *folder.iterdir()):
        os.chown(path, user, -1)
    return {"user": user}


def clear_places_of_nobody(sets):
    with contextlib.suppress(FileNotFoundError):
        (sets.top / "raidmount").rmdir()


def can_run(line, **how):
    """Whether somebody may run this."""
    try:
        return answered(line, **how)[0] == 0
    except OSError:
        return False


def without_rights(sets):
    """Who may not mount is told so, and may serve."""
    folder = sets.make("rights", ("disk", SMALL_BLOCKS))
    how = as_nobody(sets, folder)
    if not can_run([sets.raidmount, "--help"], **how):
        return "nobody else may run raidmount here"
    how["env"] = {**os.environ, "XDG_RUNTIME_DIR": str(sets.top)}
    Mounted(sets, folder, waits=False, **how).check_refused("missing to mount: the rights of root")
    served = Served(sets, folder, **how)
    asked_by_qemu(served.uri, "write -P 1 0 10k", "read -P 1 0 10k")
    served.end()
    clear_places_of_nobody(sets)
    sets.count("without the rights of root")


def ends_of_the_program(sets):
    """A program that is killed is started again, at most once in ten seconds, and what was asked is answered then, also what was under way."""
    folder = sets.make("ends", ("disk", SMALL_BLOCKS))
    served = Served(sets, folder)
    began = time.monotonic()
    for number, least in ((signal.SIGKILL, 0), (signal.SIGTERM, 10)):
        ran = subprocess.Popen(["nbdcopy", served.uri, "null:"], stdin=subprocess.DEVNULL)
        program = served.kill("program", number)
        asked_by_qemu(served.uri, f"write -P {number} 0 64k", f"read -P {number} 0 64k", "write -z 0 512", "read -P 0 0 512")
        if not served.says(f"was ended by signal {number}, and is started again") or served.process("program") == program:
            raise Failed(f"the log lacks the signal: {served.told()}")
        if time.monotonic() - began < least or ran.wait(LONGEST):
            raise Failed(f"after signal {number} it was started again too early, or requests of others failed")
        sets.cases += 1
    served.end()
    sets.count("the program is started again")


def kills_under_requests(sets):
    """What is written while the program is killed is there, and in order: of the writes of a client that waits for none the later one is found."""
    folder = sets.make("under", ("disk", SMALL_BLOCKS))
    for _ in range(3):
        served = Served(sets, folder)
        with ByHand(served.socket) as client:
            killer = threading.Timer(0.02, lambda: served.kill("program"))
            killer.start()
            for k in range(1, 200):
                client.check((0, b""), WRITE, (k % 32) << 14, 1 << 14, sent=bytes([k]) * (1 << 14))
                client.check((0, bytes([k]) * 512), READ, (k % 32) << 14, 512)
            killer.join()
        served.end()
        image = sets.image(folder)
        if image[: 32 << 14] != b"".join(bytes([192 + k if k < 8 else 160 + k]) * (1 << 14) for k in range(32)):
            raise Failed("what was written while the program was killed is not there")
    sets.count("kills under requests")


def devices_that_come_back(sets):
    """A program that is killed while a device file is away is started when that is back, and the slot is not missing."""
    folder = sets.make("back", ("disk", SMALL_BLOCKS))
    served = Served(sets, folder)
    (folder / "dev1.img").rename(folder / "away")
    served.kill("program")
    with subprocess.Popen(["qemu-io", "-f", "raw", "-c", "write -P 5 0 64k", served.uri], stdin=subprocess.DEVNULL, stdout=subprocess.DEVNULL) as ran:
        time.sleep(3)
        if ran.poll() is not None:
            raise Failed("a request was answered while a device was away")
        (folder / "away").rename(folder / "dev1.img")
        if ran.wait(LONGEST):
            raise Failed(f"a request failed after the device was back: {served.told()}")
    served.end()
    if "missing" in sets.status(folder):
        raise Failed(f"a slot is missing, whose device was back: {sets.status(folder)}")
    sets.count("devices that come back")


def two_lost(sets):
    """Where two device files stay away, the set serves no more: each request fails, also after they are back, until raidmount is started again."""
    folder = sets.make("lost", ("disk", SMALL_BLOCKS))
    served = Served(sets, folder)
    for slot in (0, 3):
        (folder / f"dev{slot}.img").rename(folder / f"away{slot}")
    served.kill("program")
    began = time.monotonic()
    if done_by_qemu(served.uri, "read 0 512") or time.monotonic() - began < 20 or not all(map(served.says, ("refused 15 TwoLost", "the set serves no more"))):
        raise Failed(f"with two device files away a request was answered, or they were not waited for: {served.told()}")
    for slot in (0, 3):
        (folder / f"away{slot}").rename(folder / f"dev{slot}.img")
    for command in ("read 0 512", "write 0 64k", "write -z 0 512"):
        if done_by_qemu(served.uri, command):
            raise Failed(f"{command} was answered after two devices were lost")
    Served(sets, folder, name="second", waits=False).check_refused("the set serves no more")
    served.end()
    served = Served(sets, folder)
    asked_by_qemu(served.uri, "write -P 5 0 64k", "read -P 5 0 64k")
    served.end()
    sets.count("two lost devices")


def a_start_after_a_kill(sets):
    """A program whose nbdkit was killed has the set until its lines are done, which the next start waits for; a second kill after a crash is cleared too."""
    folder = sets.make("after", ("disk", SMALL_BLOCKS))
    served = Served(sets, folder)
    program = served.kill("program", signal.SIGSTOP)
    served.kill("nbdkit")
    served.end(None, 1)
    served = Served(sets, folder, waits=False)
    time.sleep(1)
    os.kill(program, signal.SIGCONT)
    served.await_start()
    served.end()
    sets.count("a start after a kill")
    served = Served(sets, folder)
    served.end(signal.SIGKILL, -signal.SIGKILL)
    served = Served(sets, folder)
    asked_by_qemu(served.uri, "write -P 1 0 10k", "read -P 1 0 10k")
    served.end()
    sets.count("a start after a killed raidmount")


@contextlib.contextmanager
def plugin_alone(sets, folder, program, plugin=None, **variables):
    """An nbdkit with the plugin, without raidmount. It gives what it has said so far, and the device."""
    socket, log = sets.top / "alone.sock", sets.top / "alone.log"
    line = ["nbdkit", "--foreground", "--unix", socket, plugin or sets.plugin, f"folder={folder}", f"id={ID}", f"program={program}"]
    with open(log, "wb") as errors:
        ran = subprocess.Popen(line, stdin=subprocess.DEVNULL, stderr=errors, env={**os.environ, **variables})
    until(lambda: socket.is_socket() or ran.poll() is not None, "nbdkit's start")
    yield lambda: log.read_text(encoding="utf-8"), f"nbd+unix:///disk?socket={socket}"
    ran.terminate()
    if ran.wait(LONGEST):
        raise Failed(f"nbdkit ended with {ran.returncode}: {log.read_text(encoding='utf-8')}")
    socket.unlink()


def stand_in(sets, name):
    """A set of the program that stands in, which can be told to do wrong."""
    folder = sets.top / name
    folder.mkdir()
    run([STAND_IN, "make", folder, "--id", ID, "--stripes", "66", "--chunk", "128"])
    run([STAND_IN, "serve", folder, "--id", ID], f"create disk {SMALL_BLOCKS}\n")
    return folder


def false_programs(sets):
    """A program that answers wrongly, refuses what ends it, or ends by itself, makes every request fail from then on, and none wait."""
    folder = stand_in(sets, "false")
    for fault in ("strange", "short", "twice", "empty", "other", "endless", "closes", "exits", "lost", "worn"):
        with plugin_alone(sets, folder, STAND_IN, FAULT=fault) as (told, uri):
            # The second answer to the first line is seen with the second line.
            done = [done_by_qemu(uri, f"{what} 4k 4k") for what in ("write", "read", "write")]
            if any(done[1 if fault == "twice" else 0 :]) or "the set serves no more" not in told():
                raise Failed(f"with the fault `{fault}` requests are answered {done}: {told()}")
        sets.count(f"a program with the fault `{fault}`")


def true_programs(sets):
    """A program that has no memory once, is slow, or ends in the middle of a reply or before one, and is started again, is no fault."""
    folder = stand_in(sets, "true")
    with plugin_alone(sets, folder, STAND_IN, FAULT="memory") as (told, uri):
        done = [done_by_qemu(uri, what) for what in ("write -P 1 0 4k", "write -P 1 0 4k", "read -P 1 0 4k")]
        if done != [False, True, True]:
            raise Failed(f"with memory refused once requests are answered {done}: {told()}")
    with plugin_alone(sets, folder, STAND_IN, FAULT="slow") as (_, uri):
        copied_in_and_out(sets, uri)
    for fault in ("dies", "torn"):
        once = {"FAULT": fault, "FAULT_AT": "5", "FAULT_ONCE": str(sets.top / f"once-{fault}")}
        with plugin_alone(sets, folder, STAND_IN, **once) as (told, uri):
            copied_in_and_out(sets, uri)
            if "is started again" not in told():
                raise Failed(f"a program that {fault} was not started again")
        sets.count(f"a program that {fault} once")
    sets.count("a program that is slow, or has no memory")


def dying_programs(sets):
    """A program that is killed by each request is given up."""
    folder = stand_in(sets, "dying")
    with plugin_alone(sets, folder, STAND_IN, FAULT="dies") as (told, uri):
        if done_by_qemu(uri, "read 0 512") or told().count("is started again") != 3 or "the set serves no more" not in told():
            raise Failed(f"a program that dies of each request is started again and again: {told()}")
    sets.count("a program that dies")


def together(sets):
    """Writes that wait go together, and a read passes them; a list of lines is what the program was given, so this asks the one that stands in."""
    folder, log = stand_in(sets, "together"), sets.top / "lines"
    with plugin_alone(sets, folder, STAND_IN, SERVED_LINES=str(log), SYNC_MILLISECONDS="1000") as (_, uri):
        with contextlib.ExitStack() as stack:
            clients = [stack.enter_context(ByHand(sets.top / "alone.sock")) for _ in range(20)]
            clients[0].send(WRITE, 0, 512, sent=bytes(512))
            time.sleep(0.05)
            for k, client in enumerate(clients[1:-1], 1):
                client.send(WRITE, k * 512, 512, sent=bytes([k]) * 512)
            time.sleep(0.02)
            clients[-1].send(READ, 512, 512)
            errors = [client.answer()[0] for client in clients]
    given = log.read_text(encoding="ascii").splitlines()[-21:]
    if any(errors) or given[:3] != ["write disk 0 1", "read disk 1 1", "together 18"] or sorted(given[3:]) != sorted(f"write disk {k} 1" for k in range(1, 19)):
        raise Failed(f"writes at once are given as {given}, and answered {errors}")
    sets.count("writes together")


def room(sets):
    """So much, and so many lines, are under way at most, whatever is asked for: a program that answers only when no more comes has been given as much."""
    folder, log = stand_in(sets, "room"), sets.top / "lines"
    for clients, requests, blocks in ((10, 4, 2_048), (30, 16, 1)):
        log.write_bytes(b"")
        with plugin_alone(sets, folder, STAND_IN, FAULT="waits", SERVED_LINES=str(log)) as (_, uri), contextlib.ExitStack() as stack:
            connections = [stack.enter_context(ByHand(sets.top / "alone.sock")) for _ in range(clients)]
            for k in range(requests):
                for client in connections:
                    client.send(WRITE if k % 4 == 3 else WRITE_ZEROES, 0, blocks * 512, sent=bytes(blocks * 512 * (k % 4 == 3)))
            errors = [client.answer()[0] for client in connections for _ in range(requests)]
        groups = [re.findall(r"(?:write|zero) disk \d+ (\d+)", group) for group in log.read_text(encoding="ascii").split("answered\n")]
        found = [(len(group), sum(map(int, group))) for group in groups]
        if any(errors) or max(lines for lines, _ in found) > 256 or max(many for _, many in found) > 32_768:
            raise Failed(f"lines and blocks under way are {found}, and answered {errors}")
        if sum(lines for lines, _ in found) != clients * requests or max(found)[0] < min(256, 32_768 // blocks):
            raise Failed(f"lines and blocks under way are {found}, where there is room for more")
    sets.count("room")


def small_pipes(sets):
    """The plugin serves as well where its pipes have room for less than a line, which the system may not give."""
    plugin, source = sets.top / "small.so", sets.top / "small.c"
    text = (TOP / "nbd/plugin.c").read_text(encoding="utf-8")
    small = text.replace("PIPE_BYTES = 1 << 20", "PIPE_BYTES = 4096")
    if small == text:
        raise Failed("nbd/plugin.c names the size of its pipes otherwise")
    source.write_text(small, encoding="utf-8")
    run([c_compiler(), "-O2", "-shared", "-fPIC", "-o", plugin, source, "-lpthread"])
    folder = sets.make("pipes", ("disk", SMALL_BLOCKS), ("other", SMALL_BLOCKS))
    with plugin_alone(sets, folder, sets.program, plugin) as (_, uri):
        # Another volume is read meanwhile, by large requests.
        beside = [subprocess.Popen(["nbdcopy", uri.replace("disk", "other", 1), "null:"], stdin=subprocess.DEVNULL) for _ in range(4)]
        wanted = copied_in_and_out(sets, uri)
        fails = any([ran.wait(LONGEST) for ran in beside])
    if fails or sets.image(folder) != wanted:
        raise Failed("through small pipes the program was given other blocks")
    sets.count("small pipes")


def ports(sets):
    """A set is served at a port too, with TLS, and at a second socket beside a server that runs."""
    folder = sets.make("ports", ("disk", SMALL_BLOCKS), ("other", 20))
    key = sets.top / "keys.psk"
    key.write_text(f"raid:{'5a' * 32}\n", encoding="ascii")
    first = Served(sets, folder)
    port = str(20_000 + os.getpid() % 10_000)
    second = Served(sets, folder, "--port", port, "--tls", "require", "--tls-psk", key, name="second")
    asked_by_qemu(second.uri, "write -P 6 0 64k", "read -P 6 0 64k")
    size = run(["nbdinfo", "--size", f"nbds://raid@localhost:{port}/other?tls-psk-file={key}"])
    if size != f"{20 * 512}\n" or answered(["nbdinfo", "--size", f"nbd://localhost:{port}/other"])[0] == 0:
        raise Failed(f"at a port with TLS a volume has {size} bytes, or is served without it")
    first.end()
    asked_by_qemu(second.uri, "read -P 6 0 64k")
    second.end()
    sets.count("ports")
    first, second = Served(sets, folder), Served(sets, folder, name="second")
    second.kill("front")
    second.end(None, 1)
    asked_by_qemu(first.uri, "read -P 6 0 64k")
    second = Served(sets, folder, name="second")
    first.end(signal.SIGKILL, -signal.SIGKILL)
    asked_by_qemu(second.uri, "read -P 6 0 64k")
    second.end()
    Served(sets, folder).end()
    sets.count("a killed server at a second socket")


FAULTS = {
    refusals: ("qemu-io",),
    without_rights: ("qemu-io",),
    ends_of_the_program: ("qemu-io", "nbdcopy"),
    kills_under_requests: (),
    devices_that_come_back: ("qemu-io",),
    two_lost: ("qemu-io",),
    a_start_after_a_kill: ("qemu-io",),
    false_programs: ("qemu-io",),
    true_programs: ("qemu-io", "nbdcopy"),
    dying_programs: ("qemu-io",),
    together: (),
    room: (),
    small_pipes: ("nbdcopy",),
    ports: ("qemu-io", "nbdinfo"),
}

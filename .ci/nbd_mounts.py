"""The parts of `nbd` that mount: file systems made and copied to, kills in the middle of transactions, and a device file that fails."""
import contextlib, hashlib, os, random, re, shutil, signal, subprocess, sys, time

import nbd_transactions
from nbd_requests import asked_by_qemu
from nbd_served import DISK_BLOCKS, LONGEST, SMALL_BLOCKS, Mounted, Raidmount, Served, until
from shared import ID, TOP, Failed, answered, run

KILLS, FEWER_KILLS = 10, 3
# Of these kills nobody sees anything: the program is started again, and what raidmount has mounted stays.
UNSEEN = (("program",), ("raidmount",))
TRANSACTIONS = (3, 25)
TOOLS = ("mkfs.ext4", "e2fsck", "dumpe2fs", "blkid", "umount")


def can_mount(sets):
    """Why nothing can be mounted here, or nothing."""
    if not hasattr(sets, "unable"):
        folder = sets.make("means", ("disk", SMALL_BLOCKS))
        served = Mounted(sets, folder, "--mkfs", waits=False)
        served.ran.wait(LONGEST)
        found = re.search(r"missing to mount: .*", served.told())
        sets.unable = found[0] if found else None
        if not found:
            served.check_refused("too few for a journal of ext4")
            Mounted(sets, folder, waits=False).check_refused("the volume has no file system")
        sets.count("the means to mount")
    return sets.unable


def mounting(part):
    """A part that mounts, and is passed over where nothing can be."""

    def tried(sets):
        unable = can_mount(sets)
        return unable or part(sets)

    tried.__name__ = part.__name__
    return tried


def sums(folder):
    """A sum of each file under a folder."""
    files = sorted(path for path in folder.rglob("*") if path.is_file())
    return {str(path.relative_to(folder)): hashlib.sha256(path.read_bytes()).hexdigest() for path in files}


def check_file_system(sets, folder, what, volume="disk"):
    """The file system on the volume is clean, by what the program alone answers."""
    image = sets.top / "disk.img"
    image.write_bytes(sets.image(folder, volume))
    status, output, told = answered(["e2fsck", "-fn", image], timeout=LONGEST)
    if status:
        raise Failed(f"{what}: e2fsck ends with {status}: {output}{told}")


def has_to_recover(sets, folder, volume="disk"):
    """Whether the journal of the file system holds what is not in its place yet."""
    image = sets.top / "disk.img"
    image.write_bytes(sets.image(folder, volume))
    return "needs_recovery" in run(["dumpe2fs", "-h", image])


def with_file_system(sets):
    """A set with a file system on each of its two volumes, which are made once, in the same time."""
    folder = sets.top / "formatted"
    if not folder.exists():
        sets.make("formatted", ("disk", DISK_BLOCKS), ("base", DISK_BLOCKS), size="20M")
        first, second = (Mounted(sets, folder, "--mkfs", waits=False, **it) for it in ({}, on_second(sets)))
        for mounted in (first, second):
            mounted.await_start()
        for mounted in (first, second):
            mounted.unmount()
        for volume in ("disk", "base"):
            check_file_system(sets, folder, "a new file system", volume)
    return folder


def on_second(sets):
    """The second volume, at a place of its own."""
    return {"volume": "base", "place": sets.second, "name": "second"}


def copy_tree(to):
    """Copies a tree of files to a folder, and has it synced."""
    shutil.copytree(TOP / "docs", to / "docs")
    shutil.copytree(TOP / ".ci", to / "ci", ignore=shutil.ignore_patterns("__pycache__"))
    os.sync()
    return sums(to)


@mounting
def trees(sets):
    """A tree is copied, and is the same after a restart, also without one of the device files; no file system is made over another one."""
    folder = sets.copy(with_file_system(sets), "trees")
    Mounted(sets, folder, "--mkfs", waits=False).check_refused("the volume is not empty")
    mounted = Mounted(sets, folder)
    wanted = copy_tree(sets.mountpoint)
    mounted.end()
    check_file_system(sets, folder, "after a copied tree")
    sets.count("a tree is copied")
    for slot in (1, 4):
        (folder / f"dev{slot}.img").rename(sets.top / "away.img")
        mounted = Mounted(sets, folder)
        if sums(sets.mountpoint) != wanted:
            raise Failed(f"without dev{slot}.img files are not as they were")
        mounted.unmount()
        (sets.top / "away.img").unlink()
        answered([sets.program, "replace", folder, "--id", ID, "--slot", str(slot)])
        answered([sets.program, "rebuild", folder, "--id", ID])
        sets.count(f"without dev{slot}.img")
    check_file_system(sets, folder, "after lost devices")


@mounting
def several(sets):
    """Volumes of a set are mounted, attached and served in any order, each once; the set is let go with the last; options are those of mount."""
    folder = sets.copy(with_file_system(sets), "several")
    first = Mounted(sets, folder, "-o", "noatime,ro")
    second = Mounted(sets, folder, **on_second(sets))
    if first.process("nbdkit") != second.process("nbdkit"):
        raise Failed("two volumes of a set have two servers")
    if {"noatime", "ro"} - set(run(["findmnt", "-n", "-o", "OPTIONS", sets.mountpoint]).strip().split(",")):
        raise Failed("the options are not those that were given")
    Mounted(sets, folder, name="third", waits=False).check_refused("disk is mounted or attached already")
    Raidmount(sets, folder, "--attach", "base", name="third", waits=False).check_refused("base is mounted or attached already")
    Mounted(sets, folder, volume="nobody", name="third", waits=False).check_refused("the set has no volume nobody: it has base, disk")
    if "in use dev0.img" not in answered([sets.program, "status", folder, "--id", ID])[2]:
        raise Failed("the set is not in use while it is mounted")
    first.unmount()
    (sets.second / "file").write_text("after the first was unmounted", encoding="ascii")
    served = Served(sets, folder, name="served")
    second.unmount()
    third = Raidmount(sets, folder, "--attach", "base", name="third")
    device, _ = third.output.read_text(encoding="utf-8").splitlines()
    if run(["blockdev", "--getsize64", device]).strip() != str(DISK_BLOCKS * 512) or answered(["e2fsck", "-fn", device], timeout=LONGEST)[0]:
        raise Failed(f"{device} has another size, or its file system is not clean")
    asked_by_qemu(served.uri, "read 0 64k")
    served.end()
    run(["mount", device, sets.second])
    if (sets.second / "file").read_text(encoding="ascii") != "after the first was unmounted":
        raise Failed("a file is not as it was written after the first volume was unmounted")
    run(["umount", sets.second])
    run(["losetup", "--detach", device])
    third.end(None)
    sets.count("several volumes")


@mounting
def crashes(sets):
    """The end of nbdfuse ends raidmount; a raidmount that is killed leaves its file system served, and the next one takes that down; not while it is in use,
    and nothing of another raidmount."""
    folder = sets.copy(with_file_system(sets), "crashes")
    other = Mounted(sets, folder, **on_second(sets))
    mounted = Mounted(sets, folder)
    mounted.end(signal.SIGKILL, -signal.SIGKILL)
    (sets.mountpoint / "file").write_text("written after the kill", encoding="ascii")
    with open(sets.mountpoint / "file", "rb"):
        Mounted(sets, folder, waits=False).check_refused("is still in use")
    mounted = Mounted(sets, folder)
    if (sets.mountpoint / "file").read_text(encoding="ascii") != "written after the kill":
        raise Failed("a file is not as it was written after the kill of raidmount")
    with open(sets.mountpoint / "file", "rb"):
        mounted.ran.send_signal(signal.SIGTERM)
        mounted.await_word("is in use, and is unmounted as soon as")
    mounted.end(None)
    (sets.second / "file").write_text("written beside", encoding="ascii")
    other.end(signal.SIGKILL, -signal.SIGKILL)
    mounted = Mounted(sets, folder)
    if os.path.ismount(sets.second):
        raise Failed("what a killed raidmount left was not taken down")
    mounted.unmount()
    check_file_system(sets, folder, "after a killed raidmount")
    check_file_system(sets, folder, "after a killed raidmount", "base")
    sets.count("a killed raidmount")
    other = Mounted(sets, folder, **on_second(sets))
    mounted = Mounted(sets, folder)
    mounted.kill("nbdfuse")
    mounted.end(None, 1)
    if (sets.second / "file").read_text(encoding="ascii") != "written beside":
        raise Failed("a file of another volume is not as it was")
    other.unmount()
    sets.count("a killed nbdfuse")
    Mounted(sets, folder).unmount()
    check_file_system(sets, folder, "after a killed nbdfuse")


class Transactions:
    """Transactions of SQLite on a file of the mounted file system, in a process of their own."""

    def __init__(self, sets):
        self.file, self.output = sets.second / "base.sqlite", sets.top / "transactions.txt"
        line = [sys.executable, nbd_transactions.__file__, self.file]
        with open(self.output, "wb") as output, open(sets.top / "transactions.log", "wb") as log:
            self.ran = subprocess.Popen(line, stdin=subprocess.DEVNULL, stdout=output, stderr=log, cwd=sets.top)

    def answered(self):
        """The number of the last transaction that was answered."""
        whole = self.output.read_bytes().rpartition(b"\n")[0].split()
        return int(whole[-1]) if whole else 0

    def await_answers(self, many):
        until(lambda: self.answered() >= many or self.ran.poll() is not None, "transactions")
        if self.ran.poll() is not None:
            raise Failed("the transactions ended before anything was killed")

    def end(self, number=None):
        """Ends it, or waits for its end, which comes with the first transaction that fails. Returns the number of the last one that was answered."""
        if number:
            self.ran.send_signal(number)
        try:
            self.ran.wait(LONGEST)
        except subprocess.TimeoutExpired as fault:
            self.ran.kill()
            raise Failed("transactions wait for ever") from fault
        return self.answered()


def kill_in_the_middle(sets, folder, victims, *before):
    """Kills these processes in the middle of transactions on one volume, while a tree is copied to another, and some before. Returns how many were answered."""
    mounts = [Mounted(sets, folder), Mounted(sets, folder, **on_second(sets))]
    transactions = Transactions(sets)
    copied = subprocess.Popen(["cp", "-r", TOP / "docs", sets.mountpoint], stdin=subprocess.DEVNULL, stderr=subprocess.DEVNULL)
    for names in (before, victims) if before else (victims,):
        transactions.await_answers(transactions.answered() + random.randint(*TRANSACTIONS))
        processes = [mounts[1].process(name) for name in names]
        time.sleep(random.uniform(0, 0.03))
        for process in processes:
            os.kill(process, signal.SIGKILL)
    if victims in UNSEEN:
        transactions.await_answers(transactions.answered() + 5)
    number = transactions.end(signal.SIGKILL if victims in UNSEEN else None)
    copied.wait(LONGEST)
    take_down(sets, folder, mounts, victims)
    return number


def take_down(sets, folder, mounts, victims):
    """Ends two mounts after the kill of processes of the second one."""
    if victims == ("raidmount",):
        mounts[0].unmount()
        mounts[1].end(None, -signal.SIGKILL)
        # What it left is taken down by the next one.
        Mounted(sets, folder).unmount()
    elif victims == ("program",):
        for mounted in mounts:
            mounted.unmount()
    else:
        mounts[1].end(None, 1)
        if victims == ("nbdfuse",):
            mounts[0].unmount()
        else:
            mounts[0].end(None, 1)


def check_transactions(sets, folder, number):
    """After a restart the journal is replayed, what was answered is there, and the file systems are clean. Returns whether it had to be."""
    needs_recovery = has_to_recover(sets, folder, "base")
    mounts = [Mounted(sets, folder), Mounted(sets, folder, **on_second(sets))]
    fault, _ = nbd_transactions.fault_of(sets.second / "base.sqlite", number)
    if fault:
        raise Failed(fault)
    for mounted in mounts:
        mounted.unmount()
    for volume in ("disk", "base"):
        check_file_system(sets, folder, "after a kill", volume)
    return needs_recovery


def kills(sets, victims, many=KILLS):
    what = f"a kill of {' and '.join(victims)}"
    recovered = 0
    for k in range(many):
        folder = sets.copy(with_file_system(sets), f"kill-{k}")
        recovered += check_transactions(sets, folder, kill_in_the_middle(sets, folder, victims))
        shutil.rmtree(folder)
        sets.count(what)
    if recovered != (0 if victims in UNSEEN else many):
        raise Failed(f"{what}: {recovered} of {many} times the journal of the file system had anything to be replayed")


@mounting
def kills_of_the_program(sets):
    kills(sets, ("program",))


@mounting
def kills_of_nbdkit(sets):
    kills(sets, ("nbdkit",))


@mounting
def kills_of_both(sets):
    kills(sets, tuple(random.sample(("program", "nbdkit"), 2)))


@mounting
def kills_of_nbdfuse(sets):
    kills(sets, ("nbdfuse",), FEWER_KILLS)


@mounting
def kills_of_raidmount(sets):
    kills(sets, ("raidmount",), FEWER_KILLS)


@mounting
def two_volumes(sets):
    """SQLite writes to one volume while a tree is copied to the other: both are as they have to be, also after a restart."""
    folder = sets.copy(with_file_system(sets), "two")
    mounts = [Mounted(sets, folder), Mounted(sets, folder, **on_second(sets))]
    transactions = Transactions(sets)
    wanted = copy_tree(sets.mountpoint)
    transactions.await_answers(50)
    number = transactions.end(signal.SIGKILL)
    for mounted in mounts:
        mounted.unmount()
    mounts = [Mounted(sets, folder, **on_second(sets)), Mounted(sets, folder)]
    fault, _ = nbd_transactions.fault_of(sets.second / "base.sqlite", number)
    if fault or sums(sets.mountpoint) != wanted:
        raise Failed(fault or "files are not as they were copied beside transactions")
    for mounted in mounts:
        mounted.unmount()
    for volume in ("disk", "base"):
        check_file_system(sets, folder, "after transactions beside a copied tree", volume)
    sets.count("two volumes")


@contextlib.contextmanager
def small_disk(folder, slot):
    """The device file of this slot lies on a file system in memory that has room for it and little else."""
    file, place = folder / f"dev{slot}.img", folder / "small"
    place.mkdir()
    size = file.stat().st_size
    run(["mount", "-t", "tmpfs", "-o", f"size={size + (64 << 10)}", "tmpfs", place])
    try:
        shutil.copyfile(file, place / file.name)
        file.unlink()
        file.symlink_to(place / file.name)
        yield place / file.name
    finally:
        run(["umount", "--lazy", place])


def take_room(file):
    """Punches holes into a file where it has only zeros, and takes their room, so that writes into them fail."""
    run(["fallocate", "--dig-holes", file])
    with contextlib.suppress(OSError), open(file.parent / "taken", "wb", buffering=0) as taken:
        while taken.write(bytes(1 << 16)):
            pass


@mounting
def a_failing_file(sets):
    """A device file fails while the file system is mounted: its slot is missing from then on, and the data are right."""
    for slot in (0, 3):
        folder = sets.copy(with_file_system(sets), f"failing-{slot}")
        with small_disk(folder, slot) as file:
            mounted = Mounted(sets, folder)
            take_room(file)
            wanted = copy_tree(sets.mountpoint)
            mounted.end()
            if not re.search(rf"^ {slot} \S+ +missing ", sets.status(folder), re.M):
                raise Failed(f"slot {slot} is not missing: {sets.status(folder)}")
            mounted = Mounted(sets, folder)
            if sums(sets.mountpoint) != wanted:
                raise Failed(f"files are not as they were written while slot {slot} failed")
            mounted.unmount()
            check_file_system(sets, folder, "after a device file that failed")
        sets.count(f"slot {slot} fails")


@mounting
def tutorial(sets):
    """The commands of the page that mount print what stands after them there."""
    if answered([sets.program, "--version"])[1].strip() == "stand-in":
        return "the program is only one that stands in"
    run([TOP / ".ci/tutorial", "--root", sets.program])
    sets.count("the tutorial")


MOUNTS = {
    trees: TOOLS,
    several: (*TOOLS, "findmnt", "blockdev", "qemu-io"),
    two_volumes: TOOLS,
    crashes: TOOLS,
    a_failing_file: (*TOOLS, "fallocate"),
    tutorial: (*TOOLS, "pgrep", "mountpoint"),
    kills_of_the_program: TOOLS,
    kills_of_nbdkit: TOOLS,
    kills_of_both: TOOLS,
    kills_of_nbdfuse: TOOLS,
    kills_of_raidmount: TOOLS,
}

"""The part of `nbd` that cuts the power in the middle of transactions and of a copy: what no device file had synced is there or not, sector by sector."""
import copy, random, shutil

from nbd_mounts import TOOLS, check_transactions, kill_in_the_middle, mounting, with_file_system
from shared import TOP, Failed, c_compiler, run
from unsynced import File, calls_in

SLOTS, CUTS = 5, 6
# Calls that change no device file.
HARMLESS = "SORYDE"


def recording(sets, log, fault):
    """Sets whose raidmount has the program's calls on device files recorded, and those on one file fail from some call on, where that is asked for."""
    library, prefix = sets.top / "unsynced.so", sets.top / "recording"
    if not prefix.exists():
        run([c_compiler(), "-O1", "-shared", "-fPIC", TOP / ".ci/unsynced.c", "-o", library, "-ldl"])
        shutil.copytree(sets.prefix, prefix)
    found = copy.copy(sets)
    found.raidmount = f"{prefix}/bin/raidmount"
    words = f"LD_PRELOAD={library} CALLS_LOG={log} " + (f"CALLS_FAULT={fault[0]}:{fault[1]} " if fault else "")
    (prefix / "bin/raidtool").write_text(f'#!/bin/sh\n{words}exec {sets.program} "$@"\n', encoding="utf-8")
    return found


def left(before, calls, choose):
    """What a device file holds after a power cut: all that was written before its last sync, and of what was written to each sector since as much as is chosen."""
    synced = max((number for number, call in enumerate(calls) if call.kind == "Y"), default=0)
    content = bytearray(before)
    for call in calls[:synced]:
        if call.kind == "W":
            content[call.at : call.at + call.bytes] = call.data
    file = File(bytes(content))
    for number, call in enumerate(calls[synced:]):
        if call.kind == "W":
            file.write(number, call.at, call.data)
    return file.left(choose, -1)


def files_of(folder):
    return [(folder / f"dev{slot}.img").read_bytes() for slot in range(SLOTS)]


def check_cut(sets, folder, before, calls, choose, lost, number):
    """After a power cut, and the loss of this device, each transaction that was answered is there."""
    for slot in range(SLOTS):
        path = folder / f"dev{slot}.img"
        path.write_bytes(left(before[slot], calls[slot], choose))
        if slot == lost:
            path.unlink()
    if not check_transactions(sets, folder, number):
        raise Failed("after a power cut the journal of the file system had nothing to be replayed")


@mounting
def power_cuts(sets):
    """The power is cut in the middle, once or after a kill of the program, with a device that failed before it or is lost with it, or none: all that was answered is
    there, and the file systems are clean."""
    reached = 4_000
    for k in range(CUTS):
        folder, log = sets.copy(with_file_system(sets), f"power-{k}"), sets.top / f"calls-{k}"
        before = files_of(folder)
        fault = (random.choice((1, 3)), random.randint(reached // 4, reached // 2)) if k % 3 == 1 else None
        number = kill_in_the_middle(recording(sets, log, fault), folder, ("nbdkit", "program"), *(["program"] if k % 2 else []))
        all_calls = calls_in(log.read_bytes())
        strange = {call.kind for call in all_calls} - set(HARMLESS) - {"W"}
        calls = [[call for call in all_calls if call.slot == slot] for slot in range(SLOTS)]
        reached = sum(call.kind not in "SO" for call in all_calls)
        if strange or [left(*it, lambda at, values: len(values)) for it in zip(before, calls)] != files_of(folder):
            raise Failed(f"the calls that were recorded don't explain the device files: kinds {strange}")
        lost = random.randrange(SLOTS) if k % 3 == 2 else None
        for name, choose in (("old", lambda at, values: 0), ("mixed", lambda at, values: random.randint(0, len(values)))):
            check_cut(sets, sets.copy(folder, f"power-{k}-{name}"), before, calls, choose, lost, number)
            sets.count(f"a power cut, {name}")
        sets.clear()


CUT = {power_cuts: TOOLS}

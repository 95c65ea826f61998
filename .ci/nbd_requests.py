"""The parts of `nbd` that ask for blocks and mount nothing: requests of each kind, exports, several clients, and lines of the program by themselves."""
import random, re, signal, socket, struct, subprocess, threading

from nbd_by_hand import EINVAL, ENOTSUP, FAST_ZERO, FUA, READ, TRIM, WRITE, WRITE_ZEROES, ByHand
from nbd_served import BLOCK_BYTES, LONGEST, SMALL_BLOCKS, Raidmount, Served
from shared import Failed, answered, run, words


def asked_by_qemu(uri, *commands):
    """What qemu-io does, which compares what it reads with a pattern."""
    line = ["qemu-io", "-f", "raw", *(word for command in commands for word in ("-c", command)), uri]
    status, output, told = answered(line, timeout=LONGEST)
    if status or "failed" in output + told or told:
        raise Failed(f"{' '.join(line)}: status {status}: {output}{told}")


def done_by_qemu(uri, command):
    """Whether qemu-io has done this."""
    return answered(["qemu-io", "-f", "raw", "-c", command, uri], timeout=LONGEST)[0] == 0


def patterns(sets):
    """Aligned and unaligned requests, zeros, the last block, and many at once."""
    folder = sets.make("patterns", ("disk", SMALL_BLOCKS), ("refused", 20))
    last = (SMALL_BLOCKS - 1) * BLOCK_BYTES
    served = Served(sets, folder)
    asked_by_qemu(served.uri, "write -P 0x5a 0 16k", "write -P 0xa5 16k 32k", "read -P 0x5a 0 16k", "read -P 0xa5 16k 32k")
    asked_by_qemu(served.uri, "write -P 0x11 1000 3000", "read -P 0x5a 0 1000", "read -P 0x11 1000 3000", "read -P 0x5a 4000 12384")
    asked_by_qemu(served.uri, "write -P 0x12 511 2", "read -P 0x12 511 2", "read -P 0x5a 500 11", "write -P 0x77 5 1", "read -P 0x77 5 1")
    asked_by_qemu(served.uri, "write -z 8k 8k", "read -P 0 8k 8k", "read -P 0xa5 16k 512", "write -z 16k 4k", "read -P 0 16k 4k")
    asked_by_qemu(served.uri, "write -z 20500 3", "read -P 0 20500 3", "read -P 0xa5 20503 100")
    asked_by_qemu(served.uri, f"write -P 0x33 {last} 512", f"read -P 0x33 {last} 512", f"read -P 0 {last - 512} 512")
    many = [f"aio_write -P {k} {k * 17408} 17408" for k in range(1, 60)]
    asked_by_qemu(served.uri, *many, "aio_flush", *(f"read -P {k} {k * 17408} 17408" for k in range(1, 60)))
    asked_by_qemu(served.uri, "write -f -P 0x44 4k 4k", "flush")
    if done_by_qemu(served.uri, f"read {last + 512} 512"):
        raise Failed("a read after the end was answered")
    asked_by_qemu(served.uri_of("refused"), "write -P 1 0 10k", "read -P 1 0 10k")
    served.end()
    wanted = b"".join(bytes([k]) * 17408 for k in range(1, 60))
    image = sets.image(folder)
    if image[17408 : 60 * 17408] != wanted or image[last:] != b"\x33" * 512 or image[4096:8192] != b"\x44" * 4096:
        raise Failed("the program alone answers other blocks than were written")
    if sets.image(folder, "refused") != b"\1" * (20 * BLOCK_BYTES):
        raise Failed("the program alone answers other blocks of the volume `refused` than were written")
    sets.count("patterns")


def copied_in_and_out(sets, uri):
    """A volume of random blocks is copied in and out, by several connections. Returns what it holds."""
    wanted = b"".join(random.choice((random.randbytes(512), bytes([k % 256]) * 512, bytes(512))) for k in range(SMALL_BLOCKS))
    (sets.top / "in.img").write_bytes(wanted)
    run(["nbdcopy", sets.top / "in.img", uri])
    run(["nbdcopy", uri, sets.top / "out.img"])
    if (sets.top / "out.img").read_bytes() != wanted:
        raise Failed("what is copied out is not what was copied in")
    return wanted


def copies(sets):
    """What is copied in and out, to two volumes at once, is what the program alone answers then."""
    folder = sets.make("copies", ("disk", SMALL_BLOCKS), ("second", SMALL_BLOCKS + 7))
    served = Served(sets, folder)
    (sets.top / "second.img").write_bytes(random.randbytes((SMALL_BLOCKS + 7) * BLOCK_BYTES))
    beside = subprocess.Popen(["nbdcopy", sets.top / "second.img", served.uri_of("second")], stdin=subprocess.DEVNULL)
    wanted = copied_in_and_out(sets, served.uri)
    if beside.wait(LONGEST):
        raise Failed("a copy to a second volume failed")
    served.end(signal.SIGINT)
    if sets.image(folder) != wanted or sets.image(folder, "second") != (sets.top / "second.img").read_bytes():
        raise Failed("the program alone answers other blocks than were copied in")
    sets.count("copies")


def long_names(sets):
    """A volume with a name of 63 bytes, which a table of version 2 has, is served as one that was renamed to it, and one of 64 bytes is no name."""
    folder, name = sets.make("names", ("disk", SMALL_BLOCKS)), "disk-" + 3 * "of-a-long-name-" + "and-63-bytes_"
    run([sets.program, *words("upgrade", folder)])
    sets.script(folder, f"rename disk {name}\n", b"ok\n")
    Raidmount(sets, folder, "--attach", f"{name}s", waits=False).check_refused(f"{name}s is no name of a volume")
    served = Served(sets, folder)
    if done_by_qemu(served.uri, "read 0 512") or done_by_qemu(served.uri_of(f"{name}s"), "read 0 512"):
        raise Failed("a volume that is not there is served")
    asked_by_qemu(served.uri_of(name), "write -P 0x5a 0 40k", "read -P 0x5a 0 40k")
    asked_by_qemu(served.uri_of(""), "read -P 0x5a 0 40k")
    served.end()
    if sets.image(folder, name)[: 41 * 1024] != b"\x5a" * (40 * 1024) + bytes(1024):
        raise Failed("the program alone answers other blocks than were written")
    sets.count("long names")


def is_opened(path, export):
    """Whether a server has an export of this name."""
    try:
        with ByHand(path, export):
            return True
    except ConnectionError:
        return False


def exports(sets):
    """Every volume is an export; no name is the only volume; and a name that is none, or holds lines, opens nothing and does nothing."""
    folder = sets.make("exports", ("disk", SMALL_BLOCKS), ("other", 20))
    served = Served(sets, folder)
    names = re.findall(r'^export="(.*)":', run(["nbdinfo", "--list", served.uri_of("")]), re.M)
    sizes = [int(run(["nbdinfo", "--size", served.uri_of(name)])) for name in ("disk", "other")]
    if names != ["disk", "other"] or sizes != [SMALL_BLOCKS * BLOCK_BYTES, 20 * BLOCK_BYTES]:
        raise Failed(f"the exports are {names}, and have {sizes} bytes")
    strange = [b"", b"d", b"disk ", b"disk\n", b"disk\0", b"disk 0 1", b"x" * 4_096, b"\xff\xfe"]
    strange += [b"disk\nremove other", b"disk 0 1\nremove other\n", b"\nremove other\n"]
    opened = [name for name in strange if is_opened(served.socket, name)]
    if opened or not served.says("an export has to be named by a volume of the set: disk, other"):
        raise Failed(f"exports {opened} were opened: {served.told()}")
    asked_by_qemu(served.uri_of("other"), "write -P 7 0 10k", "read -P 7 0 10k")
    served.end()
    if sets.volumes(folder) != {"disk": SMALL_BLOCKS, "other": 20}:
        raise Failed("a name of an export has changed the volumes")
    sets.count("exports")


def by_hand(sets):
    """Requests that clients make seldom: FUA, one that is larger than the volume's requests may be, zeros that are wanted only where they are quick, trims."""
    folder, written, large = sets.make("hand", ("disk", 4 * SMALL_BLOCKS)), b"\x5a" * 4096, random.randbytes(3 << 20)
    served = Served(sets, folder)
    with ByHand(served.socket) as client:
        client.check((0, b""), WRITE, 0, 4096, sent=written)
        for at, count in ((0, 4096), (0, 512), (0, 1 << 20), (100, 3)):
            client.check((ENOTSUP, b""), WRITE_ZEROES, at, count, FAST_ZERO)
        client.check((0, written), READ, 0, 4096)
        client.check((0, b""), WRITE_ZEROES, 0, 4096)
        client.check((0, bytes(4096)), READ, 0, 4096)
        client.check((0, b""), WRITE, 512, 3 << 20, FUA, sent=large)
        client.check((0, large[5:-5]), READ, 517, (3 << 20) - 10)
        client.check((EINVAL, b""), TRIM, 0, 4096)
        client.check((0, b""), WRITE_ZEROES, 700, (3 << 20) - 5)
        client.check((0, large[:188] + bytes(1000)), READ, 512, 1188)
    served.end()
    at = 700 + (3 << 20) - 5
    wanted = bytes(512) + large[:188] + bytes((3 << 20) - 5) + large[at - 512 :]
    if sets.image(folder)[: len(wanted)] != wanted:
        raise Failed("the program alone answers other blocks than were written by hand")
    sets.count("requests by hand")


def hang_ups(sets):
    """A client that goes away in the middle of a write has written nothing, one that waits for no answer all or nothing, and nobody else is hindered."""
    folder = sets.make("hang-ups", ("disk", SMALL_BLOCKS))
    served = Served(sets, folder)
    for part in (0, 1, 511, 512, 65_535):
        client = ByHand(served.socket)
        client.send(WRITE, 0, 1 << 16, sent=b"\x11" * part)
        client.socket.close()
    client = ByHand(served.socket)
    client.socket.sendall(struct.pack(">LHHQ", 0x25609513, 0, WRITE, 0))
    client.socket.close()
    for k in range(20):
        client = ByHand(served.socket)
        client.send(WRITE, (16 + k) << 14, 1 << 14, sent=bytes([0x20 + k]) * (1 << 14))
        client.socket.setsockopt(socket.SOL_SOCKET, socket.SO_LINGER, struct.pack("ii", k % 2, 0))
        client.socket.close()
    asked_by_qemu(served.uri, "read -P 0 0 64k", "write -P 0x55 64k 64k", "read -P 0x55 64k 64k")
    served.end()
    image = sets.image(folder)
    lines = [image[(16 + k) << 14 : (17 + k) << 14] for k in range(20)]
    if image[: 1 << 16] != bytes(1 << 16) or any(line not in (bytes(1 << 14), bytes([0x20 + k]) * (1 << 14)) for k, line in enumerate(lines)):
        raise Failed("a client that went away has written a part")
    sets.count("clients that hang up")


def writes_to_one_block(sets):
    """Clients write each a part of the same blocks, at once, and one of them whole blocks: each finds what it wrote, where nobody else writes, right after."""
    folder = sets.make("halves", ("disk", 64))
    served = Served(sets, folder)
    faults = []

    def write(at, count, byte, beside):
        """Writes to two blocks in turn. Where the others write to a part of them, that is not looked at."""
        with ByHand(served.socket) as client:
            for k in range(300):
                client.check((0, b""), WRITE, at + 512 * (k % 2), count, sent=bytes([byte ^ (k // 8)]) * count)
                error, found = client.asked(READ, at + 512 * (k % 2), count)
                if error or set(found[: beside[0]] + found[beside[1] :]) - {byte ^ (k // 8)}:
                    raise Failed(f"{count} bytes at {at} are not what was written to them last")

    writes = ((0, 256, 0x40, (256, 256)), (256, 256, 0x80, (0, 0)), (1024, 512, 0xC0, (412, 462)), (1024 + 412, 50, 1, (0, 50)))
    in_threads(faults, [lambda what=what: write(*what) for what in writes])
    served.end()
    if faults:
        raise Failed(faults[0])
    sets.count("writes to one block")


def unaligned(sets):
    """Two clients write and read at random, also within blocks, each its own bytes, which end within a block where the other's begin."""
    folder, edge, faults = sets.make("unaligned", ("disk", 256)), 100_003, []
    served = Served(sets, folder)
    held = [bytearray(edge), bytearray(256 * BLOCK_BYTES - edge)]

    def ask(k):
        place, own = k * edge, held[k]
        with ByHand(served.socket) as client:
            for _ in range(500):
                count = random.choice((random.randint(1, 1_500), random.randint(1, 30_000), 512 * random.randint(1, 20)))
                # Now at the edge, now anywhere.
                at = random.choice((0 if k else len(own) - count, random.randint(0, len(own) - count)))
                what = random.choice((READ, WRITE, WRITE, WRITE_ZEROES))
                sent = random.randbytes(count) if what == WRITE else b""
                if what != READ:
                    own[at : at + count] = sent or bytes(count)
                client.check((0, bytes(own[at : at + count]) if what == READ else b""), what, place + at, count, sent=sent)

    in_threads(faults, [lambda: ask(0), lambda: ask(1)])
    served.end()
    if faults or sets.image(folder) != held[0] + held[1]:
        raise Failed(f"unaligned requests: {faults or 'the program alone answers other blocks'}")
    sets.count("unaligned requests")


def in_threads(faults, asked):
    """Does these at once, and notes what fails."""

    def tried(what):
        try:
            what()
        except (Failed, ConnectionError) as fault:
            faults.append(fault)

    threads = [threading.Thread(target=tried, args=(what,)) for what in asked]
    for thread in threads:
        thread.start()
    for thread in threads:
        thread.join(LONGEST)


def fio(sets):
    """fio reads what it wrote, by one and sixteen requests at a time, and by two clients at once."""
    folder = sets.make("fio", ("disk", 2 * SMALL_BLOCKS), ("other", SMALL_BLOCKS))
    served = Served(sets, folder)
    same = ["--ioengine=nbd", "--verify=crc32c", "--do_verify=1", "--verify_fatal=1", "--randrepeat=0", "--loops=4"]
    whole = ["--bs=4k", "--size=1m"]
    cases = {
        "depth 1": [["disk", *whole, "--iodepth=1"]],
        "depth 16": [["disk", *whole, "--iodepth=16"]],
        "large requests": [["disk", "--bs=256k", "--size=2m", "--iodepth=4"]],
        "odd blocks": [["disk", "--bsrange=512-9728", "--blockalign=512", "--size=1m", "--iodepth=16"]],
        "two clients": [["disk", *whole, "--iodepth=16"], ["other", *whole, "--iodepth=4"]],
        "two clients of a volume": [["disk", *whole, "--iodepth=8"], ["disk", *whole, "--offset=1m", "--iodepth=8"]],
    }
    for what, jobs in cases.items():
        line = ["nice", "fio", *same]
        for k, (volume, *how) in enumerate(jobs):
            line += [f"--name=job{k}", f"--uri={served.uri_of(volume)}", "--rw=randwrite", *same, *how]
        status, output, told = answered(line, timeout=LONGEST, cwd=sets.top)
        if status or "verify:" in output + told or re.search(r"err= *[1-9]", output):
            raise Failed(f"fio, {what}: status {status}: {output[-2000:]}{told[-2000:]}")
        sets.cases += 1
    served.end()
    sets.count("fio")


def lines(sets):
    """Lines of the program by themselves: what is cut short, or no line, is not done, nor what follows it, and bytes of a client are never lines."""
    block = (b"remove other\n" * 40)[:BLOCK_BYTES]
    good, bad, bad_count = b"write disk 0 1\n" + block, b"refused 20 BadLine\n", b"refused 7 BadCount\n"
    cases = {
        b"": (0, b""),
        good + b"read disk 0 1\n": (0, b"ok\nblocks 1\n" + block),
        good + b"read disk 0 1": (1, b"ok\n"),
        b"write disk 0 8\n" + 8 * block[:-1]: (1, b""),
        good + b"write disk 1 2\n" + block: (1, b"ok\n"),
        b"remove other": (1, b""),
        b"write disk 00 1\n" + block: (1, bad),
        b"write disk 0 1 \n" + block: (1, bad),
        b"write disk 0\n" + block: (1, bad),
        b"write  disk 0 1\n" + block: (1, bad),
        b"write disk 0 1 2\n" + block: (1, bad),
        b"write disk 0 99999999999\n" + block: (1, bad),
        good + b"nothing\nremove other\n": (1, b"ok\n" + bad),
        good + b"\nremove other\n": (1, b"ok\n" + bad),
        b"write disk 0 2049\nremove other\n": (1, bad_count),
        b"write disk 0 0\nremove other\n": (1, bad_count),
        b"read nobody 0 2049\nremove other\n": (1, bad_count),
        b"zero disk 0 65537\nremove other\n": (1, bad_count),
        b"write nobody 0 1\n" + block + good: (0, b"refused 6 NoVolume\nok\n"),
        b"write disk %d 2\n" % (SMALL_BLOCKS - 1) + 2 * block + good: (0, b"refused 8 OutOfRange\nok\n"),
        b"read disk %d 2\n" % (SMALL_BLOCKS - 1) + b"zero disk %d 2\n" % (SMALL_BLOCKS - 1): (0, 2 * b"refused 8 OutOfRange\n"),
        b"together 2\n" + good + b"write disk 1 1\n" + block + b"read disk 0 2\n": (0, b"ok\nok\nblocks 2\n" + 2 * block),
        b"together 2\n" + good + b"write disk 1 2\n" + block: (1, b"ok\n"),
        b"together 2\n" + good: (1, b"ok\n"),
        b"together 2\n" + good + b"remove other\n": (1, b"ok\n" + bad),
        b"together 2\n" + good + b"write disk 1 2049\nremove other\n": (1, b"ok\n" + bad_count),
        b"together 0\nremove other\n": (1, bad_count),
        b"together 257\nremove other\n": (1, bad_count),
    }
    folder = sets.make("lines", ("disk", SMALL_BLOCKS), ("other", 20))
    for script, wanted in cases.items():
        sets.script(folder, "zero disk 0 2048\n", b"ok\n")
        status, found, told = sets.lines(folder, script)
        if (status, found) != wanted or (status == 1) != told.startswith("refused 21 "):
            raise Failed(f"lines {script[:60]!r} end with {status}, {found[:80]!r}: {told}")
        written = block if found.startswith(b"ok\n") or good in script and wanted[0] == 0 else bytes(512)
        second = block if wanted[1].startswith(b"ok\nok\n") else bytes(512)
        image = sets.image(folder)
        if sets.volumes(folder) != {"disk": SMALL_BLOCKS, "other": 20} or image != written + second + bytes((SMALL_BLOCKS - 2) * BLOCK_BYTES):
            raise Failed(f"lines {script[:60]!r} have done more, or less, than is answered")
        sets.cases += 1
    sets.count("lines")


REQUESTS = {
    lines: (),
    patterns: ("qemu-io",),
    copies: ("nbdcopy",),
    long_names: ("qemu-io",),
    exports: ("qemu-io", "nbdinfo"),
    by_hand: (),
    hang_ups: ("qemu-io",),
    writes_to_one_block: (),
    unaligned: (),
    fio: ("fio",),
}

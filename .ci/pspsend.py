"""Runs pspsend on many frames files and arguments and holds what it writes to a second program.

The second program is the sender and the capture file of document 01 once more, below, written from the paper and not from the
Rattle code. Every case is compared whole: standard output byte for byte, standard error line by line. Ends with status 0 only
where all agree. Needs crates/pspsend/out/pspsend, which rt run or rt ci leaves there.
"""
import pathlib
import random
import subprocess
import sys

ROOT = pathlib.Path(__file__).resolve().parent.parent
USAGE = (
    "usage: pspsend SESSION FLOW NUMBER L < FRAMES > CAPTURE   "
    "(numbers in decimal, or in hexadecimal behind 0x; SESSION to 4294967295, NUMBER to 65535)\n"
)


class Refused(Exception):
    pass


def packet(session, flow, number, limit, frames, frame, offset):
    """One packet and the next position; the room starts at L - 4, and an entry takes 2 of it."""
    room, entries, bodies = limit - 4, [], b""
    while frame < len(frames) and len(entries) < 127 and room >= 3:
        rest = len(frames[frame]) - offset
        size = min(rest, room - 2)
        entries.append((0x8000 if offset == 0 else 0) | (0x4000 if size == rest else 0) | size)
        bodies += frames[frame][offset : offset + size]
        room -= 2 + size
        frame, offset = (frame + 1, 0) if size == rest else (frame, offset + size)
    head = session.to_bytes(4, "big") + bytes([0x40 | flow, len(entries)]) + number.to_bytes(2, "big")
    return head + b"".join(e.to_bytes(2, "big") for e in entries) + bodies, frame, offset


def frames_of(file):
    """The frames of a frames file; 33 where it does not end with a whole frame."""
    frames, at = [], 0
    while at < len(file):
        size = int.from_bytes(file[at : at + 2], "big")
        if at + 2 > len(file) or at + 2 + size > len(file):
            raise Refused(33)
        frames.append(file[at + 2 : at + 2 + size])
        at += 2 + size
    return frames


def capture(session, flow, number, limit, file):
    if session == 0 or flow > 3:
        raise Refused(31)
    if not 16 <= limit <= 4096:
        raise Refused(32)
    frames = frames_of(file)
    if len(frames) > 127 or any(not 1 <= len(f) <= 2048 for f in frames):
        raise Refused(33)
    if not frames:
        raise Refused(35)
    entries, frame, offset = [(1, session.to_bytes(4, "big"))], 0, 0
    while frame < len(frames):
        body, frame, offset = packet(session, flow, number, limit, frames, frame, offset)
        entries.append((4, body))
        number = (number + 1) % 65536
    contents = b"".join(bytes([kind, 0]) + len(body).to_bytes(2, "big") for kind, body in entries)
    made = len(entries).to_bytes(2, "big") + contents + b"".join(body for _, body in entries) if len(entries) < 65536 else bytes(60001)
    if len(made) > 60000:
        raise Refused(41)
    if len(entries) > 1000:
        raise Refused(43)
    return made


def number_of(word):
    """The number that a word says: in decimal, or in hexadecimal behind 0x; None where it says none."""
    base, digits, most = (16, word[2:], 0xFFFFFFFF) if word[:2] in ("0x", "0X") else (10, word, 9999999999)
    good = digits and set(digits) <= set("0123456789abcdefABCDEF" if base == 16 else "0123456789")
    return int(digits, base) if good and len(word) <= 32 and int(digits, base) <= most else None


def wanted(words, file):
    """What the program is to write: standard output and standard error."""
    numbers = [number_of(word) for word in words]
    if None in numbers:
        return b"", USAGE
    if len(numbers) != 4 or numbers[0] > 0xFFFFFFFF or numbers[2] > 0xFFFF:
        return b"", USAGE
    try:
        return capture(*numbers, file), ""
    except Refused as refused:
        return b"", f"refused {refused.args[0]}\n"


def pack(frames):
    return b"".join(len(f).to_bytes(2, "big") + f for f in frames)


def cases():
    rng = random.Random(4)
    two = pack([bytes(range(0x11, 0x17)), bytes(range(0x21, 0x2A))])
    yield ["257", "1", "65535", "16"], two
    # arguments
    for words in (
        [],
        ["1", "1", "1"],
        ["1", "1", "1", "16", "16"],
        ["", "1", "1", "16"],
        ["-1", "1", "1", "16"],
        ["1", "+1", "1", "16"],
        ["1", "1", "0x1", "16"],
        ["0x101", "0X1", "0xffFF", "0x10"],
        ["0xFFFFFFFF", "3", "0x0", "0x1000"],
        ["0x00000000aBcDeF01", "0x3", "09", "16"],
        ["0x100000000", "3", "0", "16"],
        ["1", "3", "0x10000", "16"],
        ["0x", "1", "1", "16"],
        ["0x1g", "1", "1", "16"],
        ["0x1", "1", "1", "1a"],
        ["x1", "1", "1", "16"],
        ["00x1", "1", "1", "16"],
        ["0x0x1", "1", "1", "16"],
        ["1", "1", "1 ", "16"],
        ["4294967295", "3", "0", "16"],
        ["4294967296", "3", "0", "16"],
        ["1", "9999999999", "0", "16"],
        ["1", "10000000000", "0", "16"],
        ["1", "0", "65536", "16"],
        ["1", "0", "65535", "9999999999"],
        ["0001", "00", "000065535", "0016"],
        ["1" * 33, "0", "0", "16"],
        ["0", "4", "0", "15"],
        ["1", "4", "0", "15"],
        ["1", "3", "0", "15"],
        ["1", "3", "0", "4097"],
        ["1", "3", "0", "4096"],
    ):
        yield words, two
    # frames files: none, cut short, a length without a frame, lengths at their bounds, 127 and 128 frames; 31 and 32 before 33
    for file in (
        b"",
        b"\0",
        b"\0\1",
        b"\0\0",
        two[:-1],
        two + b"\0",
        pack([bytes(2048)]),
        pack([bytes(2049)]),
        pack([b"x", b"", b"y"]),
        pack([b"x"] * 127),
        pack([b"x"] * 128),
        pack([b"x"] * 128) + b"\0",
        pack([b"x"] * 127) + b"\0",
        bytes(262144),
        bytes(300000),
        pack([bytes(2048)] * 127),
    ):
        yield ["1", "0", "5", "16"], file
        yield ["1", "0", "5", "4096"], file
        yield ["0", "0", "5", "16"], file
        yield ["1", "0", "5", "17000"], file
    # the capture's own limits: 60,000 bytes and one more, 1,000 entries and one more, both at once
    big = [rng.randbytes(2048) for _ in range(29)]
    for last in range(322, 339):
        yield ["9", "2", "65530", "4096"], pack(big + [rng.randbytes(last)])
    for total in (9988, 9989, 9990, 9991, 9992, 20000, 40000):
        yield ["9", "2", "65530", "16"], pack([rng.randbytes(min(2000, total - at)) for at in range(0, total, 2000)])
    # anything
    for _ in range(150):
        frames = [rng.randbytes(rng.choice((1, 2, 3, 7, 8, 9, 10, 11, 64, 300, rng.randint(1, 2048)))) for _ in range(rng.choice((1, 2, 3, 5, 20, 127)))]
        limit = rng.choice((16, 17, 18, 19, 20, 21, 64, 1496, 4095, 4096, rng.randint(16, 4096)))
        yield [str(rng.getrandbits(32) or 1), str(rng.randint(0, 3)), str(rng.choice((0, 65535, 65534, rng.getrandbits(16)))), str(limit)], pack(frames)


def main():
    run = [str(ROOT / "bin" / "run-x86-64"), str(ROOT / "crates" / "pspsend" / "out" / "pspsend")]
    seen, count = {}, 0
    for words, file in cases():
        done = subprocess.run(run + words, input=file, capture_output=True)
        out, err = wanted(words, file)
        got = done.stderr.decode("utf-8", "replace")
        if (done.stdout, got) != (out, err):
            sys.exit(f"pspsend {' '.join(words)} on {len(file)} bytes wrote {len(done.stdout)} bytes and {got!r}; expected {len(out)} bytes and {err!r}")
        what = err.strip().split("   ")[0] if err else "capture"
        seen[what] = seen.get(what, 0) + 1
        count += 1
    print(f"pspsend: {count} cases agree: " + ", ".join(f"{what} {n}" for what, n in sorted(seen.items())))
    missing = {"capture", *(f"refused {n}" for n in (31, 32, 33, 35, 41, 43))} - set(seen)
    if missing:
        sys.exit(f"no case came to: {', '.join(sorted(missing))}")


if __name__ == "__main__":
    main()

"""Runs pspmpeg and mpegframes on many captures and files and holds what they write to a second program.

The second program is W3's writer once more, below, with the capture file and the packets of document 01, by either transport (W1), written from the
papers and not from the Rattle code. Captures are made here, and by pspsend; what pspmpeg writes is compared byte for byte with the packets made here,
and what mpegframes writes with the frames that they were made of. Ends with status 0 only where all agree. Needs pspsend, pspmpeg and mpegframes, each
in crates/NAME/out, where rt run or rt ci leaves it.
"""
import pathlib
import random
import subprocess
import sys

ROOT = pathlib.Path(__file__).resolve().parent.parent
USAGE = "usage: pspmpeg SESSION < CAPTURE > FILE.ts   (SESSION in decimal, or in hexadecimal behind 0x, to 4294967295)\n"
TOO_LONG = "mpegframes: more than 65536 bytes on standard input, and that is all that it has room for\n"
NULL = b"\x47\x1f\xff\x10" + b"\xff" * 184


def frame(rng, size, first=None):
    """A frame that W3 lets travel: bytes 2 and 3 say its length less 6, and the first byte is not 0xFF."""
    body = bytearray(rng.randbytes(size))
    body[0] = rng.randrange(255) if first is None else first
    body[2:4] = (size - 6).to_bytes(2, "big")
    return bytes(body)


def may_travel(f):
    return 6 <= len(f) <= 2048 and int.from_bytes(f[2:4], "big") + 6 == len(f) and f[0] != 0xFF


def packets(frames, count=0):
    """The packets of frames that all wait before the first is written."""
    stream = b"".join(frames)
    starts, at = set(), 0
    for f in frames:
        starts.add(at)
        at += len(f)
    ends = sorted(starts | {at})
    made, place = [], 0
    while place < len(stream):
        left = 0 if place in starts else min(e for e in ends if e > place) - place
        if left >= 184:
            made.append(b"\x47\x1f\xfe" + bytes([0x10 | count]) + stream[place : place + 184])
            place += 184
        else:
            chunk = stream[place : place + 183]
            made.append(b"\x47\x5f\xfe" + bytes([0x10 | count, left]) + chunk.ljust(183, b"\xff"))
            place += len(chunk)
        count = (count + 1) % 16
    return made


def pack(frames):
    return b"".join(len(f).to_bytes(2, "big") + f for f in frames)


def capture(entries):
    contents = b"".join(bytes([kind, 0]) + len(body).to_bytes(2, "big") for kind, body in entries)
    return len(entries).to_bytes(2, "big") + contents + b"".join(body for _, body in entries)


def cut(session, flow, number, room, frames):
    """Data entries that carry the frames in order, in packets with at most so many bytes of bodies."""
    pieces = []
    for f in frames:
        at = 0
        while at < len(f):
            size = min(len(f) - at, room)
            pieces.append(((0x8000 if at == 0 else 0) | (0x4000 if at + size == len(f) else 0) | size, f[at : at + size]))
            at += size
    entries = []
    while pieces:
        taken, total = [], 0
        while pieces and len(taken) < 127 and total + len(pieces[0][1]) <= room:
            total += len(pieces[0][1])
            taken.append(pieces.pop(0))
        head = session.to_bytes(4, "big") + bytes([0x40 | flow, len(taken)]) + (number % 65536).to_bytes(2, "big")
        entries.append((4, head + b"".join(e.to_bytes(2, "big") for e, _ in taken) + b"".join(b for _, b in taken)))
        number += 1
    return entries


def over_udp(rng, entry):
    """A data entry as it comes over UDP: four bytes more, of which T, 0, and the version, 3, count (W1)."""
    return 5, bytes([rng.randrange(128), 16 * rng.randrange(16) + 3]) + rng.randbytes(2) + entry[1]


def by_either(rng, entries):
    """Data entries, each by one of the two transports."""
    return [over_udp(rng, entry) if rng.random() < 0.5 else entry for entry in entries]


def run(name, words, given):
    done = subprocess.run([str(ROOT / "bin" / "run-x86-64"), str(ROOT / "crates" / name / "out" / name), *words], input=given, capture_output=True)
    return done.stdout, done.stderr.decode("utf-8", "replace")


class Tally:
    def __init__(self):
        self.seen = {}

    def hold(self, what, name, words, given, out, err=""):
        got = run(name, words, given)
        if got != (out, err):
            sys.exit(f"{what}: {name} {' '.join(words)} on {len(given)} bytes wrote {len(got[0])} bytes and {got[1]!r}; expected {len(out)} bytes and {err!r}")
        self.seen[what] = self.seen.get(what, 0) + 1


def bodies(session):
    return session.to_bytes(4, "big")


def hold_transports(rng, tally, sizes):
    """Frames over UDP, and by both transports; what is refused over UDP, and what was recorded by the wrong transport, brings none."""
    for turn in range(30):
        frames = [frame(rng, rng.choice(sizes)) for _ in range(4)]
        sent = cut(5, 2, 65530, rng.choice((200, 500, 1496)), frames)
        udp = over_udp(rng, sent[0])[1]
        short, version_2, control = udp[:11], udp[:1] + b"\2" + udp[2:], b"\x80" + udp[1:]
        strays = [(5, b""), (5, short), (5, version_2), (5, control), (5, sent[0][1]), (4, b"\0\3" + udp[2:])]
        for what, entries in (("over UDP", [over_udp(rng, entry) for entry in sent]), ("by both", by_either(rng, sent))):
            tally.hold(what, "pspmpeg", ["5"], capture([(1, bodies(5))] + strays + entries), b"".join(packets(frames)))


def main():
    rng = random.Random(7)
    tally = Tally()
    sizes = (6, 7, 64, 100, 182, 183, 184, 185, 189, 190, 366, 367, 368, 1518, 2047, 2048)
    # frames through pspsend, pspmpeg and mpegframes, and back
    for turn in range(60):
        count = rng.choice((1, 2, 3, 5, 12, 40))
        frames = [frame(rng, rng.choice((rng.choice(sizes), rng.randint(6, 300)))) for _ in range(count)]
        while len(pack(frames)) > 40000:
            frames.pop()
        session = rng.randint(1, 0xFFFFFFFF)
        words = [str(session), str(rng.randint(0, 3)), str(rng.getrandbits(16)), str(rng.choice((200, 1496, 4096)))]
        made, err = run("pspsend", words, pack(frames))
        if err:
            sys.exit(f"pspsend {' '.join(words)}: {err}")
        ts = b"".join(packets(frames))
        tally.hold("through", "pspmpeg", [str(session)], made, ts)
        tally.hold("back", "mpegframes", [], ts, pack(frames))
        tally.hold("other session", "pspmpeg", [str(session % 0xFFFFFFFF + 1)], made, b"")
    hold_transports(rng, tally, sizes)
    # several sessions and flows in one capture, by both transports, D-MPT among them, and one ID that is PSP, then closed, then D-MPT
    for turn in range(30):
        one = [frame(rng, rng.choice(sizes)) for _ in range(4)]
        two = [frame(rng, rng.choice(sizes)) for _ in range(4)]
        mpegs = [b"\x47" + rng.randbytes(187) for _ in range(3)]
        dmpt = bodies(3) + bytes([0x40, 0, 0, 1]) + b"".join(mpegs)
        same = bodies(1) + bytes([0x40, 0, 0, 1]) + b"".join(mpegs)
        first = by_either(rng, cut(1, 0, 9, 500, one))
        second = by_either(rng, cut(2, 3, 65535, 333, two))
        mixed = [(1, bodies(1)), (1, bodies(2)), (2, bodies(3)), (4, dmpt)]
        while first or second:
            mixed.append((first if first and (not second or rng.random() < 0.5) else second).pop(0))
        mixed += [(3, bodies(1)), (2, bodies(1)), (4, same), (4, dmpt), (4, b""), (4, b"\0\0\0")]
        tally.hold("mixed", "pspmpeg", ["1"], capture(mixed), b"".join(packets(one)))
        tally.hold("mixed", "pspmpeg", ["2"], capture(mixed), b"".join(packets(two)))
        tally.hold("D-MPT", "pspmpeg", ["3"], capture(mixed), b"")
    # a packet lost: what is delivered is what travels
    lost = [(1, bodies(5))] + cut(5, 1, 0, 100, [frame(rng, 90), frame(rng, 250), frame(rng, 80)])
    rest = [lost[0], lost[1]] + lost[3:]
    kept = [lost[1][1][10:100]] + [lost[-1][1][10:90]]
    tally.hold("lost", "pspmpeg", ["5"], capture(rest), b"".join(packets(kept)))
    # as many bytes as a capture has room for, and as many small frames
    large = [frame(rng, 2048) for _ in range(28)]
    tally.hold("large", "pspmpeg", ["5"], capture([(1, bodies(5))] + cut(5, 1, 0, 4000, large)), b"".join(packets(large)))
    small = [frame(rng, 6) for _ in range(7000)]
    tally.hold("small", "pspmpeg", ["5"], capture([(1, bodies(5))] + cut(5, 1, 0, 4000, small)), b"".join(packets(small)))
    tally.hold("small back", "mpegframes", [], b"".join(packets(small)), pack(small))
    # refused captures, frames that may not travel, and arguments
    sound = capture([(1, bodies(5))] + cut(5, 1, 0, 100, [frame(rng, 90)]))
    for number, file in ((41, bytes(60001)), (42, b""), (42, b"\0\1"), (43, b"\xff\xff"), (44, b"\0\1\x09\0\0\0"), (45, sound + b"\0")):
        tally.hold(f"refused {number}", "pspmpeg", ["5"], file, f"refused {number}\n".encode())
    for bad in (frame(rng, 90, 0xFF), rng.randbytes(2) + b"\0\0" + rng.randbytes(20), b"\0\1\2\3\4"):
        assert not may_travel(bad)
        file = capture([(1, bodies(5))] + cut(5, 1, 0, 100, [frame(rng, 90), bad, frame(rng, 50)]))
        tally.hold("refused 52", "pspmpeg", ["5"], file, b"refused 52\n")
        tally.hold("other session", "pspmpeg", ["6"], file, b"")
    for words in ([], ["5", "5"], ["x"], [""], ["-5"], ["4294967296"], ["99999999999"], ["0x"], ["0xg"], ["0x100000000"]):
        tally.hold("usage", "pspmpeg", words, sound, b"", USAGE)
    for word in ("0005", "0x5", "0X00000005"):
        tally.hold("the same number", "pspmpeg", [word], sound, run("pspmpeg", ["5"], sound)[0])
    # mpegframes: any first count, null packets, an unfinished last frame, and packets of no run
    for turn in range(40):
        frames = [frame(rng, rng.choice(sizes)) for _ in range(rng.randint(1, 6))]
        made = packets(frames, rng.randrange(16))
        tally.hold("any count", "mpegframes", [], b"".join(made), pack(frames))
        nulls = [NULL] * rng.randint(1, 3)
        tally.hold("null packets", "mpegframes", [], b"".join(nulls + made + nulls), pack(frames))
        cut_short = made[: rng.randint(0, len(made) - 1)]
        carried = sum(184 if p[1] == 0x1F else 183 for p in cut_short)
        whole = []
        for f in frames:
            carried -= len(f)
            if carried < 0:
                break
            whole.append(f)
        tally.hold("unfinished", "mpegframes", [], b"".join(cut_short), pack(whole))
        spoilt = bytearray(b"".join(made))
        at = rng.randrange(len(made)) * 188
        how = rng.choice(("sync", "pid", "count", "cut", "pointer"))
        if how == "sync":
            spoilt[at] ^= 1
        elif how == "pid":
            spoilt[at + 2] ^= 4
        elif how == "count":
            if len(made) == 1:
                spoilt[at + 3] ^= 0x20
            else:
                spoilt[at + 3] ^= 8
        elif how == "cut":
            del spoilt[-1]
        else:
            spoilt[4] = 200
        tally.hold("refused 53", "mpegframes", [], bytes(spoilt), b"refused 53\n")
    tally.hold("nothing", "mpegframes", [], b"", b"")
    tally.hold("only nulls", "mpegframes", [], NULL * 300, b"")
    tally.hold("all its room", "mpegframes", [], NULL * 348, b"")
    tally.hold("no packet", "mpegframes", [], bytes(65536), b"refused 53\n")
    tally.hold("too long", "mpegframes", [], NULL * 349, b"", TOO_LONG)
    tally.hold("too long", "mpegframes", [], bytes(65537), b"", TOO_LONG)
    print(f"pspmpeg and mpegframes: {sum(tally.seen.values())} cases agree: " + ", ".join(f"{what} {n}" for what, n in tally.seen.items()))


if __name__ == "__main__":
    main()

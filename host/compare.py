#!/usr/bin/env python3
"""compare.py NODE CAPTURE...: whether the host program NODE prints what it has to.

Runs it on each capture, with the word frames and without it, and compares what it prints, byte for byte, with what
host/summary.py works out from the listing of psplist and the trace of psptrace. tests/prepare has to have built those
two. One more capture is made here, since none of the others fills a queue to its last byte.

Prints how much was compared. Status 1 where anything differs, and where the captures do not have in them what is to be
compared: every refusal that a capture can bring about, every state in which a session can end, queues that are full,
sessions that get packets over IP, over UDP and by both, PSP packets without a number.
"""

import collections
import pathlib
import subprocess
import sys

import summary

ROOT = pathlib.Path(__file__).resolve().parent.parent
RUN = subprocess.run([ROOT / "bin/run-x86-64"], stdout=subprocess.PIPE, check=True, text=True).stdout.split()
DATA_LINE = summary.CALLS.index("data")  # in a summary's lines of calls
OPEN_PSP, DATA = 1, 4  # kinds of entries
NUMBERED = 0x40  # S, in the byte behind a packet's session ID

# What the summaries have to show at least once: refusals of files, then of calls, kinds and states of sessions, and
# what else can come up.
WANTED = [f"refused {code}" for code in range(41, 46)]
WANTED += [f"code {code}" for code in [*range(2, 8), *range(9, 13), 15, 21, 22, 23, 25]]
WANTED += [f"{kind} {state}" for kind in ("PSP", "D-MPT") for state in ("open", "closed")]
WANTED += ["six sessions open", "bytes held at the end", "two frames waiting", "frames lost to a full queue"]
WANTED += ["a session over IP", "a session over UDP", "a session by both"]
WANTED += ["frames without a number", "drops without a number"]


def number_bytes(number, width):
    return number.to_bytes(width, "big")


def whole_frames(number, lengths):
    """A PSP packet for session 1, flow 0, with whole frames of these lengths; their bytes tell the packets apart."""
    entries = b"".join(number_bytes(0xC000 | length, 2) for length in lengths)
    head = number_bytes(1, 4) + bytes([0x40, len(lengths)]) + number_bytes(number, 2)
    return head + entries + bytes([number]) * sum(lengths)


def filled_queue():
    """A capture that fills a queue to its last byte. Before the fifth packet 4 x 4,086 bytes came, and
    1 + 2,048 + 2,037 + 1 were taken: 12,257 wait. The frame of 31 makes 12,288, all that there is room for, and the
    last frame is lost."""
    packets = [whole_frames(number, [1, 2048, 2037]) for number in range(4)] + [whole_frames(4, [31, 1])]
    entries = [(OPEN_PSP, number_bytes(1, 4))] + [(DATA, packet) for packet in packets]
    contents = b"".join(bytes([what, 0]) + number_bytes(len(body), 2) for what, body in entries)
    return number_bytes(len(entries), 2) + contents + b"".join(body for _, body in entries)


def printed(program, capture, *words):
    """What a program prints for a capture. One that ends with a status other than 0 has failed, whatever it prints."""
    done = subprocess.run([*RUN, program, *words], input=capture, stdout=subprocess.PIPE, check=False)
    if done.returncode != 0:
        sys.exit(f"compare.py: {program} ended with status {done.returncode}")
    return done.stdout.decode("ascii")


def first_difference(one, other):
    """The first line at which two texts differ, as it stands in each."""
    ones, others = one.splitlines() + ["(the end)"], other.splitlines() + ["(the end)"]
    return next((pair for pair in zip(ones, others) if pair[0] != pair[1]), ("the same lines", "other line ends"))


def sections(text):
    """The lines of a summary below each of its headings, as words."""
    found, lines = {}, None
    for line in text.splitlines():
        if line in summary.HEADINGS:
            lines = found.setdefault(line, [])
        else:
            lines.append(line.split())
    return found


def seen_in(text):
    """What a summary shows, in the words of WANTED; and 'frames' and 'packets', to be counted."""
    if text.startswith("refused "):
        return collections.Counter([text.strip()])
    found = sections(text)
    frames = [words for words in found[summary.SESSIONS_HEADING] if words[0] == "frame"]
    sessions = [words for words in found[summary.SESSIONS_HEADING] if words[0] != "frame"]
    channels = found[summary.CHANNELS_HEADING]
    seen = collections.Counter(f"{words[2]} {words[3]}" for words in sessions)
    seen.update(f"code {words[0]}" for words in found[summary.REFUSALS_HEADING])
    seen["six sessions open"] = sum(words[3] == "open" for words in sessions) == summary.CHANNELS
    seen["bytes held at the end"] = any(int(held) > 0 for words in sessions for held in words[-summary.FLOWS :])
    seen["two frames waiting"] = any(int(words[2]) > 1 for words in channels)
    seen["frames lost to a full queue"] = any(int(words[3]) > 0 for words in channels)
    seen["frames"] = len(frames)
    seen["packets"] = int(found[summary.CALLS_HEADING][DATA_LINE][1])
    return seen


def transports_in(capture, listing):
    """How many sessions had packets accepted over IP, over UDP and by both."""
    if listing.startswith("refused "):
        return collections.Counter()
    codes = [line.split()[2] for line in listing.splitlines()[1:]]
    accepted = [entry for entry, code in zip(summary.entries_of(capture), codes) if code == "0"]
    over_ip = {summary.session_of(*entry) for entry in accepted if entry[0] == DATA}
    over_udp = {summary.session_of(*entry) for entry in accepted if entry[0] == summary.DATA_OVER_UDP}
    found = {"a session over IP": over_ip, "a session over UDP": over_udp, "a session by both": over_ip & over_udp}
    return collections.Counter({what: len(sessions) for what, sessions in found.items()})


def is_numbered(kind, packet):
    """Whether S is set in an accepted packet."""
    lead = summary.BEFORE_SESSION_OVER_UDP if kind == summary.DATA_OVER_UDP else 0
    return packet[lead + 4] & NUMBERED != 0


def without_number_in(capture, listing):
    """How many PSP packets without a number delivered frames, and how many dropped bytes (document 02, W2)."""
    found, opened_as = collections.Counter(), {}
    if listing.startswith("refused "):
        return found
    for (kind, body), line in zip(summary.entries_of(capture), listing.splitlines()[1:]):
        _, what, code, frames, _, dropped, _ = line.split()
        session = summary.session_of(kind, body)
        if code == "0" and what == "open":
            opened_as[session] = kind
        elif code == "0" and what == "data" and opened_as[session] == OPEN_PSP and not is_numbered(kind, body):
            found["frames without a number"] += frames != "0"
            found["drops without a number"] += dropped != "0"
    return found


def differences(node, name, capture, expected):
    """What is wrong with what node prints for a capture."""
    for words, wanted in ((["frames"], expected), ([], summary.without_frames(expected))):
        text = printed(node, capture, *words)
        if text != wanted:
            one, other = first_difference(text, wanted)
            yield f"{name}: node {' '.join(words)}\n  prints   {one[:200]}\n  expected {other[:200]}"


def main():
    node, *paths = sys.argv[1:]
    captures = {path: pathlib.Path(path).read_bytes() for path in paths}
    captures["a queue filled to its last byte"] = filled_queue()
    seen, wrong = collections.Counter(), 0
    for name, capture in captures.items():
        listing, trace = (printed(ROOT / "crates" / program / "out" / program, capture) for program in ("psplist", "psptrace"))
        expected = summary.summary(capture, listing, trace)
        seen += seen_in(expected) + transports_in(capture, listing) + without_number_in(capture, listing)
        for difference in differences(node, name, capture, expected):
            print(difference)
            wrong += 1
    missing = [what for what in WANTED if not seen[what]]
    for what in missing:
        print(f"no capture has this: {what}")
    verdict = "no difference" if wrong == 0 else f"{wrong} DIFFERENCES"
    print(f"node: {len(captures)} captures, {seen['packets']} packets, {seen['frames']} frames: {verdict}")
    return 1 if wrong or missing else 0


if __name__ == "__main__":
    sys.exit(main())

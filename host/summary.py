#!/usr/bin/env python3
"""summary.py CAPTURE LISTING TRACE: what `node frames` (host/node.c) has to print, worked out without the C library.

LISTING is what bin/psplist prints for the capture, TRACE what bin/psptrace does: what became of each call is taken from
the one; the frames, the rows and the held bytes from the other. The capture itself is asked only for whom an entry is,
since no listing tells that. The words for the refusals are the names in include/sklyapina.h. What node does with the
frames afterwards, its queues and its modulator, is done here once more.
"""

import collections
import pathlib
import re
import sys

HEADER = pathlib.Path(__file__).resolve().parent.parent / "include/sklyapina.h"

CHANNELS, FLOWS = 6, 4
# Twice what one packet can complete (document 01, 'The card in numbers').
QUEUE_BYTES, QUEUE_FRAMES = 2 * 6144, 2 * 127

CALLS = ["open", "close", "data"]
KINDS = {1: "PSP", 2: "D-MPT"}
# The kind of an entry whose packet came over UDP, and how many bytes stand there before its session ID (document 02, W1).
DATA_OVER_UDP, BEFORE_SESSION_OVER_UDP = 5, 4

SESSIONS_HEADING = "channel session kind state packets frames bytes dropped missing held0 held1 held2 held3"
CHANNELS_HEADING = "channel taken most lost"
CALLS_HEADING = "call made refused"
REFUSALS_HEADING = "code times words"
HEADINGS = (SESSIONS_HEADING, CHANNELS_HEADING, CALLS_HEADING, REFUSALS_HEADING)

# A call: what it was, its code and counts, the session it names, its frames, and how things stand afterwards: the
# rows, as row: (session, kind), and the bytes that flows hold, as (row, flow): bytes. Fresh flows are not there.
Call = collections.namedtuple("Call", "what code frames bytes dropped gap session delivered rows held")


class Unsound(Exception):
    """Listing, trace and capture do not belong together."""


# Reading


def entries_of(capture):
    """The entries of a sound capture: the kind and the body of each."""
    count = int.from_bytes(capture[:2], "big")
    start = 2 + 4 * count
    for place in range(count):
        at = 2 + 4 * place
        length = int.from_bytes(capture[at + 2 : at + 4], "big")
        yield capture[at], capture[start : start + length]
        start += length


def session_of(kind, body):
    """The session that an entry names: four bytes of its body, or as many of them as there are."""
    at = BEFORE_SESSION_OVER_UDP if kind == DATA_OVER_UDP else 0
    return int.from_bytes(body[at : at + 4], "big")


def details_by_line(trace):
    """The lines of a trace that psplist prints too; and for each the lines behind it that only a trace has, as words."""
    lines, details = [], []
    for line in trace.splitlines():
        if line.startswith(" "):
            details[-1].append(line.split())
        else:
            lines.append(line)
            details.append([])
    return lines, details


def calls_of(capture, listing, trace):
    """The calls of a capture that was not refused, in order."""
    lines, details = details_by_line(trace)
    sessions = [session_of(kind, body) for kind, body in entries_of(capture)]
    if lines != listing.splitlines() or len(lines) != len(sessions) + 1:
        raise Unsound("the listing, the trace and the capture have different entries")
    for line, found, session in zip(lines[1:], details[1:], sessions):
        _, what, *numbers = line.split()
        yield Call(
            what,
            *map(int, numbers),
            session,
            delivered=[bytes.fromhex(words[1]) for words in found if words[0] == "frame"],
            rows={int(words[1]): (int(words[2]), int(words[3])) for words in found if words[0] == "row"},
            held={(int(words[1]), int(words[2])): int(words[4]) for words in found if words[0] == "flow"},
        )


def refusal_words():
    """The header's names of the refusals, by number: SKLYAPINA_FLOW_OUTSIDE = 7 gives 'flow outside' for 7."""
    header = HEADER.read_text(encoding="utf-8")
    enumeration = re.search(r"enum sklyapina_refusal \{(.*?)\n\};", header, re.DOTALL).group(1)
    names = re.findall(r"^\s*SKLYAPINA_(\w+) = (\d+)", enumeration, re.MULTILINE)
    return {int(number): name.lower().replace("_", " ") for name, number in names}


# Adding up


class Queue:
    """A channel's frames that wait; what does not fit is lost."""

    def __init__(self):
        self.waiting = []
        self.taken = self.most = self.lost = 0

    def put(self, frame):
        if len(self.waiting) == QUEUE_FRAMES or sum(map(len, self.waiting)) + len(frame) > QUEUE_BYTES:
            self.lost += 1
        else:
            self.waiting.append(frame)
        self.most = max(self.most, len(self.waiting))

    def take(self):
        self.taken += 1
        return self.waiting.pop(0)


def row_of(session, rows):
    return next(row for row, (open_session, _) in rows.items() if open_session == session)


def session_line(row, session, kind, state, counts, held):
    numbers = [counts[name] for name in ("packets", "frames", "bytes", "dropped", "missing")] + held
    return " ".join(map(str, [row, session, KINDS[kind], state, *numbers]))


def modulate(queues):
    """A line for each frame that the modulator takes: one from each queue."""
    for channel, queue in enumerate(queues):
        if queue.waiting:
            yield f"frame {channel} {queue.take().hex()}"


def sessions_and_frames(calls, queues):
    """The lines of sessions and frames. A session's counts stand under its row, until another one is opened there."""
    counts, before = {}, {}
    for call in calls:
        if call.code == 0 and call.what == "open":
            counts[row_of(call.session, call.rows)] = collections.Counter()
        elif call.code == 0:
            row = row_of(call.session, before)
            of_row = {"frames": call.frames, "bytes": call.bytes, "dropped": call.dropped, "missing": call.gap}
            counts[row].update(of_row, packets=1 if call.what == "data" else 0)
            for frame in call.delivered:
                queues[row].put(frame)
            if call.what == "close":
                yield session_line(row, *before[row], "closed", counts[row], [0] * FLOWS)
        before = call.rows
        yield from modulate(queues)
    while any(queue.waiting for queue in queues):
        yield from modulate(queues)
    for row, (session, kind) in sorted(before.items()):
        held = [call.held.get((row, flow), 0) for flow in range(FLOWS)]
        yield session_line(row, session, kind, "open", counts[row], held)


def refusals(calls):
    """How many calls were made and refused, and how often each number was given."""
    yield CALLS_HEADING
    for what in CALLS:
        codes = [call.code for call in calls if call.what == what]
        yield f"{what} {len(codes)} {sum(code != 0 for code in codes)}"
    yield REFUSALS_HEADING
    words = refusal_words()
    for code, times in sorted(collections.Counter(call.code for call in calls if call.code != 0).items()):
        yield f"{code} {times} {words[code]}"


def summary(capture, listing, trace):
    """What `node frames` has to print: the file as bytes, the other two as text."""
    if listing.startswith("refused "):
        return listing
    calls, queues = list(calls_of(capture, listing, trace)), [Queue() for _ in range(CHANNELS)]
    lines = [SESSIONS_HEADING, *sessions_and_frames(calls, queues), CHANNELS_HEADING]
    lines += [f"{channel} {queue.taken} {queue.most} {queue.lost}" for channel, queue in enumerate(queues)]
    lines += refusals(calls)
    return "".join(line + "\n" for line in lines)


def without_frames(text):
    """The same as `node` prints it, without the word frames."""
    return "".join(line for line in text.splitlines(keepends=True) if not line.startswith("frame "))


def main():
    if len(sys.argv) != 4:
        sys.exit("usage: summary.py CAPTURE LISTING TRACE")
    capture, listing, trace = (pathlib.Path(word).read_bytes() for word in sys.argv[1:])
    sys.stdout.write(summary(capture, listing.decode("ascii"), trace.decode("ascii")))


if __name__ == "__main__":
    main()

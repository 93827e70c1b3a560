//! Calls that write frames into MPEG packets and read them back (W3): directed ones, which do not depend on a seed, and
//! others by dice, without end.
//!
//! Streams come from the writer of `mpeg` without a fault, so that a fault does not spoil what is asked. What no run of
//! the writer gives is made of them by changing bytes and packets, often with the counts set right again: otherwise a
//! reader that looks at nothing but counts would do.

use crate::calls::{Answer, Array, MpegWriting};
use crate::card::LONGEST_FRAME;
use crate::dice::Dice;
use crate::faults::{Fault, Faults};
use crate::mpeg::{bounds, next_packet, DATA_HEADER, FLAG, NULL_HEADER, PAYLOAD, STUFFING, UNCOUNTED};
use crate::packet::{MPEG_BYTES, MPEG_SYNC};
use crate::records::{Recorded, Recorder};

/// What the calls are there for. Each case has to come up.
pub const CASES: [&str; 41] = [
    "first calls",
    "the null packet alone",
    "handed out of queues of each length",
    "two frames of each length, written",
    "two frames of each length, read",
    "frames that begin at each place, written",
    "frames that begin at each place, read",
    "frames that begin in the last bytes, written",
    "frames that begin in the last bytes, read",
    "many frames, written",
    "many frames, read",
    "written from each place",
    "written from far places",
    "written with each count",
    "written into each output",
    "frames refused",
    "lengths that do not add up",
    "refusals 52 and 51",
    "read into each output",
    "refusals 53 and 51",
    "streams of no frames",
    "streams of each length in bytes",
    "streams of each number of packets",
    "streams of each first count",
    "each byte changed",
    "a null packet put in",
    "a packet of stuffing put in",
    "packets dropped, doubled, swapped",
    "packets dropped, doubled, swapped, with counts set right",
    "pointer and field disagree",
    "stuffing between frames",
    "frames that no writer takes, read",
    "streams of wrong writers",
    "tails of each length",
    "tails that end in the length field",
    "random writes",
    "random runs, written",
    "random runs, read",
    "random queues, handed out",
    "random streams, damaged",
    "random streams, damaged, with counts set right",
];

/// Lengths around which something changes: the shortest frame; a packet with a pointer; that and one without; the longest.
const AROUND: [usize; 7] = [6, 183, 184, 185, 367, 368, LONGEST_FRAME];
/// What a writer can get wrong in its packets.
const WRONG_WRITERS: [Fault; 12] = [
    Fault::MpegPointerOneOff,
    Fault::Mpeg183WithoutPointer,
    Fault::MpegPointerTo255,
    Fault::MpegStartWithoutPointer,
    Fault::MpegFlagOnlyAtStarts,
    Fault::MpegFramesNotBegun,
    Fault::MpegStuffingOfZeros,
    Fault::MpegStuffingAloneSent,
    Fault::MpegCountOfEightBits,
    Fault::MpegCountNotWrapped,
    Fault::MpegNullMovesCount,
    Fault::MpegNullFourthByteZero,
];
/// More room than the streams here need.
const AMPLE: (usize, usize) = (8_192, 1_024);

/// A run of the writer: frames, and for each packet how many of them had been added, the place and the count.
struct Run {
    frames: Vec<Vec<u8>>,
    steps: Vec<(usize, usize, u8)>,
    packets: Vec<Vec<u8>>,
}

impl Run {
    /// Adds so many frames before each packet, and those that are left after that, and goes on until all are sent.
    fn new(frames: Vec<Vec<u8>>, bursts: &[usize], first: u8) -> Run {
        Run::by(Faults::NONE, frames, bursts, first)
    }

    /// The run of a writer that has a fault.
    fn by(faults: Faults, frames: Vec<Vec<u8>>, bursts: &[usize], first: u8) -> Run {
        let (bytes, bounds) = (frames.concat(), bounds(&lengths_of(&frames)));
        let (mut added, mut place, mut count) = (0, 0, first);
        let mut run = Run { frames, steps: Vec::new(), packets: Vec::new() };
        for number in 0.. {
            added = bursts.get(number).map_or(run.frames.len(), |burst| run.frames.len().min(added + burst));
            if number >= bursts.len() && place == bytes.len() {
                break;
            }
            let written = next_packet(&bytes[..bounds[added]], &bounds[..=added], place, count, faults);
            run.steps.push((added, place, count));
            run.packets.push(written.packet);
            (place, count) = (written.place, written.count);
        }
        run
    }

    fn of_lengths(dice: &mut Dice, lengths: &[usize], bursts: &[usize]) -> Run {
        let frames = lengths.iter().map(|length| frame(dice, *length)).collect();
        Run::new(frames, bursts, dice.byte() % 16)
    }

    fn stream(&self) -> Vec<u8> {
        self.packets.concat()
    }

    /// Asks for each packet, with counts above 15 among those that are passed.
    fn write(&self, recorder: &mut Recorder, case: &'static str) -> Recorded<()> {
        let (bytes, lengths) = (self.frames.concat(), lengths_of(&self.frames));
        let bounds = bounds(&lengths);
        for (turn, (added, place, count)) in self.steps.iter().enumerate() {
            let writing = MpegWriting {
                frame_bytes: bounds[*added],
                lengths: lengths[..*added].to_vec(),
                place: *place as u64,
                count: count + 16 * (turn % 16) as u8,
                output: MPEG_BYTES + turn % 3,
            };
            recorder.mpeg_write(case, &bytes, &writing)?;
        }
        Ok(())
    }

    fn read(&self, recorder: &mut Recorder, case: &'static str) -> Recorded<Answer> {
        recorder.mpeg_read(case, &self.stream(), AMPLE)
    }
}

fn lengths_of(frames: &[Vec<u8>]) -> Vec<u16> {
    frames.iter().map(|frame| frame.len() as u16).collect()
}

/// A good frame of that length, 6 or more; one in four has 0xFF wherever it may, one in four zeros.
fn frame(dice: &mut Dice, length: usize) -> Vec<u8> {
    let mut frame = match dice.below(4) {
        0 => vec![STUFFING; length],
        1 => vec![0; length],
        _ => dice.bytes(length),
    };
    frame[0] = dice.below(usize::from(STUFFING)) as u8;
    set_field(&mut frame, length);
    frame
}

/// Sets the length field so that it gives that length.
fn set_field(frame: &mut [u8], length: usize) {
    frame[2..4].copy_from_slice(&((length - UNCOUNTED) as u16).to_be_bytes());
}

fn null_packet() -> Vec<u8> {
    [&NULL_HEADER[..], &[STUFFING; PAYLOAD]].concat()
}

/// A data packet of that count and payload, filled up with stuffing; with a pointer, if one is given.
fn data_packet(count: u8, pointer: Option<usize>, payload: &[u8]) -> Vec<u8> {
    let flag = if pointer.is_some() { FLAG } else { 0 };
    let mut packet = vec![MPEG_SYNC, DATA_HEADER[1] | flag, DATA_HEADER[2], DATA_HEADER[3] | (count % 16)];
    packet.extend(pointer.map(|pointer| pointer as u8));
    packet.extend(payload);
    packet.resize(MPEG_BYTES, STUFFING);
    packet
}

/// Counts the data packets on from the first one's count.
fn set_counts_right(packets: &mut [Vec<u8>]) {
    let mut next = None;
    for packet in packets.iter_mut().filter(|packet| packet.len() > 3 && packet[..3] != NULL_HEADER[..3]) {
        let count = next.unwrap_or(packet[3] % 16);
        packet[3] = packet[3] & 0xF0 | count;
        next = Some((count + 1) % 16);
    }
}

/// All directed calls; short themes come first, so that a fault is soon found.
pub fn all(recorder: &mut Recorder) -> Recorded<()> {
    first(recorder)?;
    counts(recorder)?;
    outputs(recorder)?;
    frames_refused(recorder)?;
    lengths_refused(recorder)?;
    rooms(recorder)?;
    stuffing(recorder)?;
    tails(recorder)?;
    bad_frames_read(recorder)?;
    wrong_writers(recorder)?;
    packets_moved(recorder)?;
    stream_lengths(recorder)?;
    places(recorder)?;
    two_frames(recorder)?;
    last_bytes(recorder)?;
    each_beginning(recorder)?;
    many_frames(recorder)?;
    bytes_changed(recorder)
}

/// Two short frames written and read, a null packet, a frame of three packets, and a stream without packets.
fn first(recorder: &mut Recorder) -> Recorded<()> {
    let case = "first calls";
    let mut dice = Dice::new(0x51);
    let short = Run::of_lengths(&mut dice, &[6, 9], &[2, 0]);
    let long = Run::of_lengths(&mut dice, &[500, 20], &[1, 0, 0, 0, 0, 1]);
    for run in [short, long] {
        run.write(recorder, case)?;
        run.read(recorder, case)?;
    }
    recorder.mpeg_null("the null packet alone")?;
    for packets in 0..4 {
        recorder.mpeg_read("streams of no frames", &null_packet().repeat(packets), (0, 0))?;
    }
    queues(recorder)
}

/// Queues of no byte, of less than a packet, of one packet, of two and of many, whole and not: of packets with frames, of
/// null packets, and of bytes that are no packets, since a queue is not judged.
fn queues(recorder: &mut Recorder) -> Recorded<()> {
    let mut dice = Dice::new(0x188);
    let run = Run::of_lengths(&mut dice, &[500, 20, 2_048], &[1, 0, 0, 0, 0, 1, 1]);
    let null_first = [null_packet(), run.stream()].concat();
    let (zeros, full) = (vec![0; 600], vec![STUFFING; 600]);
    for bytes in [run.stream(), null_first, zeros, full, dice.bytes(Array::Packet.capacity())] {
        for length in [0, 1, 4, 5, 94, 186, 187, 188, 189, 190, 256, 375, 376, 377, 564, 65_536, bytes.len()] {
            let Some(queue) = bytes.get(..length) else {
                continue;
            };
            recorder.mpeg_hand_out("handed out of queues of each length", queue)?;
        }
    }
    Ok(())
}

/// Each count, for a packet with a pointer, one without, and a null packet; streams of each first count, with nulls.
fn counts(recorder: &mut Recorder) -> Recorded<()> {
    let mut dice = Dice::new(0x16);
    let bytes = frame(&mut dice, 400);
    for count in 0..=u8::MAX {
        for place in [0, 183, 400, 401] {
            let writing = MpegWriting { frame_bytes: 400, lengths: vec![400], place, count, output: MPEG_BYTES };
            recorder.mpeg_write("written with each count", &bytes, &writing)?;
        }
    }
    for first in 0..16 {
        let frames = (0..40).map(|_| frame(&mut dice, 100)).collect();
        let run = Run::new(frames, &[0, 3, 0, 0, 0, 30], first);
        run.read(recorder, "streams of each first count")?;
        for (number, change) in (0..run.packets.len()).zip([1, 2, 8, 15, 16].iter().cycle()) {
            let mut packets = run.packets.clone();
            for packet in packets[number..].iter_mut().filter(|packet| packet[..3] != NULL_HEADER[..3]) {
                packet[3] = DATA_HEADER[3] | ((packet[3] + change) % 16);
            }
            recorder.mpeg_read("streams of each first count", &packets.concat(), AMPLE)?;
        }
    }
    Ok(())
}

/// Outputs around 188 bytes, for each kind of packet.
fn outputs(recorder: &mut Recorder) -> Recorded<()> {
    let mut dice = Dice::new(0x188);
    let frames = [frame(&mut dice, 400), frame(&mut dice, 6)];
    for place in [0, 183, 367, 400, 406, 407] {
        for output in [0, 1, 4, 5, 100, 186, 187, 188, 189, 190, 376, 4_096, 8_192] {
            let writing = MpegWriting { frame_bytes: 406, lengths: vec![400, 6], place, count: 0x5C, output };
            recorder.mpeg_write("written into each output", &frames.concat(), &writing)?;
        }
    }
    let nothing = MpegWriting { frame_bytes: 0, lengths: Vec::new(), place: 0, count: 0xF1, output: 187 };
    recorder.mpeg_write("written into each output", &[], &nothing)?;
    recorder.mpeg_write("written into each output", &[], &MpegWriting { output: 188, ..nothing })?;
    Ok(())
}

/// Frames that break a rule, and beside them those that just do not.
fn spoilt_frames(dice: &mut Dice) -> Vec<Vec<u8>> {
    let mut frames: Vec<Vec<u8>> = (1..6).map(|length| dice.bytes(length)).collect();
    for bytes in [[1, 2, 0, 0, 0], [1, 2, 0xFF, 0xFE, 0], [1, 2, 0xFF, 0xFF, 0]] {
        frames.extend([bytes[..4].to_vec(), bytes.to_vec()]);
    }
    for length in [6, 7, 183, 184, 256, 261, 262, 263, 2_047, 2_048, 2_049, 2_050, 4_096, 65_535] {
        let good = frame(dice, length);
        for field in [0, 1, 6, length.wrapping_sub(7), length - 6, length - 5, length, 0xFFFF] {
            let mut frame = good.clone();
            frame[2..4].copy_from_slice(&(field as u16).to_be_bytes());
            frames.push(frame);
        }
        let mut turned = good.clone();
        turned.swap(2, 3);
        frames.push(turned);
        for byte in [0xFE, 0xFF] {
            let mut frame = good.clone();
            frame[0] = byte;
            frames.push(frame);
        }
    }
    frames
}

/// Each of these frames first, between two others and last, also where it has been sent or nothing is left to send.
fn frames_refused(recorder: &mut Recorder) -> Recorded<()> {
    let mut dice = Dice::new(0x52);
    let others = [frame(&mut dice, 10), frame(&mut dice, 190)];
    for (turn, spoilt) in spoilt_frames(&mut dice).into_iter().enumerate() {
        for at in 0..3 {
            let mut frames = others.to_vec();
            frames.insert(at, spoilt.clone());
            let bytes = frames.concat();
            let places = [0, 10, bytes.len() - 1, bytes.len(), bytes.len() + 1];
            let output = [188, 188, 187, 189][turn % 4];
            let case = if output < MPEG_BYTES { "refusals 52 and 51" } else { "frames refused" };
            let writing = MpegWriting {
                frame_bytes: bytes.len(),
                lengths: lengths_of(&frames),
                place: places[turn % places.len()] as u64,
                count: turn as u8,
                output,
            };
            recorder.mpeg_write(case, &bytes, &writing)?;
        }
    }
    Ok(())
}

/// Fewer bytes than the lengths say, more, by as much as a sum in 16 bits passes over, and lengths of 0.
fn lengths_refused(recorder: &mut Recorder) -> Recorded<()> {
    let case = "lengths that do not add up";
    let mut dice = Dice::new(0x53);
    let frames = [frame(&mut dice, 190), frame(&mut dice, 7), frame(&mut dice, 12)];
    let (bytes, lengths) = (frames.concat(), lengths_of(&frames));
    for (turn, frame_bytes) in (0..=212).chain([400, 65_745, 131_281]).enumerate() {
        for place in [0, 190, 209, 1 << 40] {
            let writing = MpegWriting {
                frame_bytes,
                lengths: lengths.clone(),
                place,
                count: 7,
                output: [188, 187, 200][turn % 3],
            };
            recorder.mpeg_write(case, &bytes, &writing)?;
        }
    }
    let sets: [&[u16]; 10] = [
        &[],
        &[0],
        &[190, 7, 12, 0],
        &[0, 190, 7, 12],
        &[190, 0, 7, 12],
        &[190, 7],
        &[197, 12],
        &[209],
        &[190, 19],
        &[65_535, 65_535],
    ];
    for lengths in sets {
        let writing =
            MpegWriting { frame_bytes: 209, lengths: lengths.to_vec(), place: 0, count: 7, output: MPEG_BYTES };
        recorder.mpeg_write(case, &bytes, &writing)?;
        recorder.mpeg_write(case, &bytes, &MpegWriting { frame_bytes: 0, ..writing })?;
    }
    Ok(())
}

/// Outputs and lengths just too short, just long enough and longer, for sound streams and for damaged ones.
fn rooms(recorder: &mut Recorder) -> Recorded<()> {
    let mut dice = Dice::new(0x5153);
    let runs = [
        Run::of_lengths(&mut dice, &[6], &[1]),
        Run::of_lengths(&mut dice, &[6, 9, 300], &[0, 2, 0, 1, 0]),
        Run::of_lengths(&mut dice, &[2_048, 2_048], &[1, 1]),
        Run::of_lengths(&mut dice, &[7; 60], &[20, 0, 40]),
    ];
    for run in runs {
        let (bytes, frames) = (run.frames.concat().len(), run.frames.len());
        let mut damaged = run.stream();
        let last = damaged.len() - 1;
        damaged[last - 187] ^= 1;
        for output in [0, 1, bytes - 1, bytes, bytes + 1, bytes + 900] {
            for lengths in [0, 1, frames - 1, frames, frames + 1, frames + 50] {
                recorder.mpeg_read("read into each output", &run.stream(), (output, lengths))?;
                recorder.mpeg_read("refusals 53 and 51", &damaged, (output, lengths))?;
            }
        }
        // The last frame unfinished: it needs no room.
        let cut = &run.stream()[..run.packets.len() / 2 * MPEG_BYTES];
        for room in [(0, 0), (bytes / 2, frames / 2), (bytes - 1, frames - 1)] {
            recorder.mpeg_read("read into each output", cut, room)?;
        }
    }
    Ok(())
}

/// Stuffing between frames, before the first, and alone in a packet.
fn stuffing(recorder: &mut Recorder) -> Recorded<()> {
    let mut dice = Dice::new(0xFF);
    for (one, other) in [(6, 6), (50, 60), (100, 300), (176, 6), (183, 183)] {
        let (one, other) = (frame(&mut dice, one), frame(&mut dice, other));
        for count in [1, 2, 30] {
            let filled = [&one[..], &vec![STUFFING; count], &other].concat();
            let mut stream = data_packet(3, Some(0), &filled[..filled.len().min(183)]);
            if filled.len() > 183 {
                stream.extend(data_packet(4, Some(filled.len() - 183), &filled[183..]));
            }
            recorder.mpeg_read("stuffing between frames", &stream, AMPLE)?;
            let filled = [&vec![STUFFING; count][..], &one].concat();
            let stream = data_packet(3, Some(0), &filled[..filled.len().min(183)]);
            recorder.mpeg_read("stuffing between frames", &stream, AMPLE)?;
            let stream = data_packet(3, Some(count), &filled[..filled.len().min(183)]);
            recorder.mpeg_read("stuffing between frames", &stream, AMPLE)?;
        }
    }
    let run = Run::of_lengths(&mut dice, &[6, 183, 400, 20], &[1, 0, 1, 0, 2, 0, 0, 0, 0]);
    for place in 0..=run.packets.len() {
        for pointer in [None, Some(0), Some(1), Some(183)] {
            let mut packets = run.packets.clone();
            packets.insert(place, data_packet(0, pointer, &[]));
            recorder.mpeg_read("a packet of stuffing put in", &packets.concat(), AMPLE)?;
            set_counts_right(&mut packets);
            recorder.mpeg_read("a packet of stuffing put in", &packets.concat(), AMPLE)?;
        }
    }
    for pointer in [None, Some(0), Some(1), Some(255)] {
        recorder.mpeg_read("a packet of stuffing put in", &data_packet(9, pointer, &[]), AMPLE)?;
    }
    Ok(())
}

/// Streams that end inside a frame: after so many of its bytes, with each kind of first byte and length field, at once
/// or a packet later, and with a null packet behind.
fn tails(recorder: &mut Recorder) -> Recorded<()> {
    let mut dice = Dice::new(0x7A11);
    for tail in (1..=12).chain([100, 177]) {
        let before = frame(&mut dice, 183 - tail);
        for first in [0x00, 0x47, 0xFE, 0xFF] {
            for field in [[0, 0], [0, 1], [0, 6], [0, 0xFF], [1, 0], [7, 0xFA], [7, 0xFB], [7, 0xFF], [8, 0], [0xFF; 2]]
            {
                let mut begun = dice.bytes(tail.max(4));
                begun[0] = first;
                begun[2..4].copy_from_slice(&field);
                let case = if tail < 4 { "tails that end in the length field" } else { "tails of each length" };
                let mut stream = data_packet(5, Some(0), &[&before[..], &begun[..tail]].concat());
                recorder.mpeg_read(case, &stream, AMPLE)?;
                stream.extend(null_packet());
                recorder.mpeg_read(case, &stream, AMPLE)?;
            }
        }
    }
    // A whole packet of one frame's beginning, and one more.
    for length in [6, 182, 183, 184, 185, 366, 367, 368, 369, 2_047, 2_048, 2_049, 2_050, 65_541] {
        let mut begun = dice.bytes(183 + 184);
        begun[0] = 3;
        set_field(&mut begun, length);
        let mut stream = data_packet(15, Some(0), &begun[..183]);
        recorder.mpeg_read("tails of each length", &stream, AMPLE)?;
        stream.extend(data_packet(0, None, &begun[183..]));
        recorder.mpeg_read("tails of each length", &stream, AMPLE)?;
    }
    Ok(())
}

/// What a writer that judges nothing would give for frames that are too long, begin with 0xFF or have another field; and
/// pointers that the fields disagree with.
fn bad_frames_read(recorder: &mut Recorder) -> Recorded<()> {
    let mut dice = Dice::new(0x2049);
    for spoilt in spoilt_frames(&mut dice).into_iter().filter(|frame| frame.len() < 5_000) {
        for before in [6, 181, 300] {
            let frames = vec![frame(&mut dice, before), spoilt.clone(), frame(&mut dice, 8)];
            Run::new(frames.clone(), &[3], 6).read(recorder, "frames that no writer takes, read")?;
            Run::new(frames, &[1, 0, 1, 0], 6).read(recorder, "frames that no writer takes, read")?;
        }
    }
    for length in [184, 200, 365, 366, 367, 368, 500] {
        let bytes = [frame(&mut dice, length), frame(&mut dice, 30)].concat();
        for pointer in 0..=u8::MAX {
            let mut packets = Run::new(vec![bytes[..length].to_vec(), bytes[length..].to_vec()], &[2], 1).packets;
            let last = packets.len() - 1;
            packets[last][4] = pointer;
            recorder.mpeg_read("pointer and field disagree", &packets.concat(), AMPLE)?;
        }
        // The other way round: all pointers fit a frame whose field says something else.
        for field in length - 20..=length + 20 {
            let mut frames = vec![bytes[..length].to_vec(), bytes[length..].to_vec()];
            set_field(&mut frames[0], field);
            Run::new(frames, &[2], 1).read(recorder, "pointer and field disagree")?;
        }
    }
    Ok(())
}

/// What writers with a fault give, for frames of lengths at which they come to it.
fn wrong_writers(recorder: &mut Recorder) -> Recorded<()> {
    let mut dice = Dice::new(0x3);
    let firsts = (6..9).chain(176..190).chain(360..376).chain((376..440).step_by(3)).chain([438, 439, 2_048]);
    for (turn, first) in firsts.enumerate() {
        let frames: Vec<Vec<u8>> = [first, 200, 6].iter().map(|length| frame(&mut dice, *length)).collect();
        for fault in WRONG_WRITERS {
            for bursts in [&[3][..], &[1, 0, 0, 0, 1, 0, 0, 1, 0]] {
                let run = Run::by(Faults::of(fault), frames.clone(), bursts, turn as u8 % 16);
                run.read(recorder, "streams of wrong writers")?;
            }
        }
    }
    Ok(())
}

/// Null packets put in everywhere; packets dropped, doubled and swapped, and streams that begin later.
fn packets_moved(recorder: &mut Recorder) -> Recorded<()> {
    let (plain, right) =
        ("packets dropped, doubled, swapped", "packets dropped, doubled, swapped, with counts set right");
    let mut dice = Dice::new(0x4D);
    let runs = [
        Run::of_lengths(&mut dice, &[100, 300, 366, 183, 6, 700], &[6]),
        Run::of_lengths(&mut dice, &[183, 367, 183, 40, 551, 20], &[1, 0, 1, 0, 0, 2, 1, 0, 0, 0, 0, 1, 0]),
        Run::of_lengths(&mut dice, &[200; 20], &[5, 0, 0, 0, 0, 0, 0, 15]),
    ];
    for run in runs {
        let mut changed = Vec::new();
        for place in 0..=run.packets.len() {
            let mut packets = run.packets.clone();
            packets.insert(place, null_packet());
            recorder.mpeg_read("a null packet put in", &packets.concat(), AMPLE)?;
            packets.insert(place, null_packet());
            packets[place][4 + place] = 0;
            recorder.mpeg_read("a null packet put in", &packets.concat(), AMPLE)?;
        }
        for place in 0..run.packets.len() {
            for what in 0..4 {
                let mut packets = run.packets.clone();
                match what {
                    0 => drop(packets.remove(place)),
                    1 => packets.insert(place, packets[place].clone()),
                    2 => packets.swap(place, (place + 1) % run.packets.len()),
                    _ => drop(packets.drain(..place)),
                }
                changed.push(packets);
            }
        }
        for mut packets in changed {
            recorder.mpeg_read(plain, &packets.concat(), AMPLE)?;
            set_counts_right(&mut packets);
            recorder.mpeg_read(right, &packets.concat(), AMPLE)?;
        }
    }
    Ok(())
}

/// A stream cut after each of its bytes, and after each of its packets.
fn stream_lengths(recorder: &mut Recorder) -> Recorded<()> {
    let mut dice = Dice::new(0xC0);
    let stream = Run::of_lengths(&mut dice, &[6, 200, 181, 30], &[0, 4]).stream();
    for length in 0..=stream.len() {
        recorder.mpeg_read("streams of each length in bytes", &stream[..length], AMPLE)?;
    }
    for lengths in [[2_048, 6, 368, 2_048], [181, 2_048, 182, 190], [6, 180, 2_000, 179]] {
        for bursts in [&[4][..], &[1, 1, 0, 1], &[0, 1, 0, 0, 0, 0, 0, 0, 0, 0, 0, 0, 0, 0, 3, 0]] {
            let run = Run::of_lengths(&mut dice, &lengths, bursts);
            for count in 0..=run.packets.len() {
                recorder.mpeg_read("streams of each number of packets", &run.packets[..count].concat(), AMPLE)?;
            }
        }
    }
    Ok(())
}

/// Every place in a few frames, the end, and places beyond it, some of them inside to who reads only some of the bits.
fn places(recorder: &mut Recorder) -> Recorded<()> {
    let mut dice = Dice::new(0x9A);
    let frames = [6, 190, 183, 400, 7].map(|length| frame(&mut dice, length));
    let (bytes, lengths) = (frames.concat(), lengths_of(&frames));
    let end = bytes.len() as u64;
    let writing = MpegWriting { frame_bytes: bytes.len(), lengths, place: 0, count: 0xAB, output: 190 };
    for place in 0..=end + 4 {
        recorder.mpeg_write("written from each place", &bytes, &MpegWriting { place, ..writing.clone() })?;
    }
    for bit in 8..64 {
        for near in [0, 1, 190, end, (1 << bit) - 1] {
            let place = (1 << bit) + near;
            recorder.mpeg_write("written from far places", &bytes, &MpegWriting { place, ..writing.clone() })?;
        }
    }
    for below in (0..190).chain([end, end + 1]) {
        let place = u64::MAX - below;
        recorder.mpeg_write("written from far places", &bytes, &MpegWriting { place, ..writing.clone() })?;
    }
    Ok(())
}

/// A frame of each length around a limit and then another: both at once, one after the other, and with null packets
/// between.
fn two_frames(recorder: &mut Recorder) -> Recorded<()> {
    let mut dice = Dice::new(0x183);
    let firsts = (6..10).chain(174..192).chain(358..376).chain(545..556).chain(2_040..=2_048);
    for (turn, first) in firsts.enumerate() {
        for second in AROUND {
            let burst: &[usize] =
                [&[2][..], &[1], &[0, 1, 0, 0, 0, 0, 0, 0, 0, 0, 0, 0, 0, 0, 1, 0], &[1, 1]][turn % 4];
            let run = Run::of_lengths(&mut dice, &[first, second], burst);
            run.write(recorder, "two frames of each length, written")?;
            run.read(recorder, "two frames of each length, read")?;
        }
    }
    Ok(())
}

/// Frames that begin in a packet's last bytes, with and without a pointer behind.
fn last_bytes(recorder: &mut Recorder) -> Recorded<()> {
    let mut dice = Dice::new(0x1234);
    for left in 0..=8 {
        for second in [6, 7, 8, 10, 100, 183, 184, 185, 186, 187, 188, 189, 190, 367, 368, 371, 2_047, 2_048] {
            let run = Run::of_lengths(&mut dice, &[183 - left, second, 6], &[3]);
            run.write(recorder, "frames that begin in the last bytes, written")?;
            for count in 1..=run.packets.len() {
                let stream = run.packets[..count].concat();
                recorder.mpeg_read("frames that begin in the last bytes, read", &stream, AMPLE)?;
            }
        }
    }
    Ok(())
}

/// A frame that begins at each place of a packet in which another one ends.
fn each_beginning(recorder: &mut Recorder) -> Recorded<()> {
    let mut dice = Dice::new(0x5678);
    for first in 184..=184 + 184 {
        let run = Run::of_lengths(&mut dice, &[first, 200, 6], &[3]);
        run.write(recorder, "frames that begin at each place, written")?;
        run.read(recorder, "frames that begin at each place, read")?;
    }
    Ok(())
}

/// As many frames as lengths are lent, more bytes than 16 bits count, and a stream with as many frames as fit.
fn many_frames(recorder: &mut Recorder) -> Recorded<()> {
    let mut dice = Dice::new(0x3E8);
    for (length, count) in [(6, 1_024), (6, 20_000), (2_048, 60), (2_048, 160)] {
        let one = frame(&mut dice, length);
        let (bytes, lengths) = (one.repeat(count), vec![length as u16; count]);
        let end = bytes.len();
        for place in [0, 1, 3, 65_535, 65_536, 65_537, end / 2, end - 184, end - 6, end - 1, end] {
            let writing = MpegWriting {
                frame_bytes: end,
                lengths: lengths.clone(),
                place: place as u64,
                count: 1,
                output: MPEG_BYTES,
            };
            recorder.mpeg_write("many frames, written", &bytes, &writing)?;
        }
    }
    let run = Run::of_lengths(&mut dice, &[6; 1_024], &[1_024]);
    for lengths in [1_023, 1_024] {
        recorder.mpeg_read("many frames, read", &run.stream(), (6_144, lengths))?;
    }
    let run = Run::of_lengths(&mut dice, &[2_048; 4], &[4]);
    for output in [8_191, 8_192] {
        recorder.mpeg_read("many frames, read", &run.stream(), (output, 4))?;
    }
    let run = Run::of_lengths(&mut dice, &[8, 8], &[vec![0; 180], vec![1], vec![0; 180], vec![1]].concat());
    run.read(recorder, "many frames, read")?;
    Ok(())
}

/// Streams with every kind of packet, each byte of them changed in a few ways.
fn bytes_changed(recorder: &mut Recorder) -> Recorded<()> {
    let mut dice = Dice::new(0xB1);
    let runs = [
        Run::of_lengths(&mut dice, &[20, 300, 7], &[0, 1, 1]),
        Run::of_lengths(&mut dice, &[180, 400], &[2]),
        Run::of_lengths(&mut dice, &[367, 183], &[1, 0, 0, 1]),
    ];
    for run in runs {
        let stream = run.stream();
        for place in 0..stream.len() {
            let header = place % MPEG_BYTES < 5;
            let bits: &[u8] = if header { &[1, 2, 4, 8, 16, 32, 64, 128, 0xFF] } else { &[1, 128, 0xFF] };
            for bit in bits {
                let mut changed = stream.clone();
                changed[place] ^= bit;
                recorder.mpeg_read("each byte changed", &changed, AMPLE)?;
            }
        }
    }
    Ok(())
}

/// Calls until there are enough.
pub fn endless(recorder: &mut Recorder, seed: u64) -> Recorded<()> {
    for round in 0.. {
        let mut dice = Dice::for_index(seed, round);
        if round % 16 == 0 {
            recorder.fill(Array::Output, dice.next())?;
            recorder.fill(Array::Lengths, dice.next())?;
        }
        let run = some_run(&mut dice);
        run.write(recorder, "random runs, written")?;
        run.read(recorder, "random runs, read")?;
        let cut = dice.below(run.packets.len() + 1);
        recorder.mpeg_read("random runs, read", &run.packets[..cut].concat(), some_room(&mut dice, &run))?;
        let (first, any) = (dice.below(run.packets.len() + 1), dice.below(3 * MPEG_BYTES));
        let queue = run.packets[first..].concat();
        recorder.mpeg_hand_out("random queues, handed out", &queue)?;
        recorder.mpeg_hand_out("random queues, handed out", &queue[..any.min(queue.len())])?;
        for _ in 0..8 {
            let mut packets = run.packets.clone();
            for _ in 0..dice.pick(&[1, 1, 1, 2, 3]) {
                damage(&mut dice, &mut packets);
            }
            let mut case = "random streams, damaged";
            if dice.percent(50) {
                set_counts_right(&mut packets);
                case = "random streams, damaged, with counts set right";
            }
            let room = if dice.percent(20) { some_room(&mut dice, &run) } else { AMPLE };
            recorder.mpeg_read(case, &packets.concat(), room)?;
        }
        let (bursts, fault) = ([dice.below(4), dice.below(4), dice.below(4)], dice.pick(&WRONG_WRITERS));
        let wrong = Run::by(Faults::of(fault), run.frames.clone(), &bursts, dice.byte());
        wrong.read(recorder, "streams of wrong writers")?;
        for _ in 0..4 {
            let writing = some_writing(&mut dice, &run);
            recorder.mpeg_write("random writes", &run.frames.concat(), &writing)?;
        }
    }
    Ok(())
}

fn some_length(dice: &mut Dice) -> usize {
    let around = (dice.pick(&AROUND) + dice.below(5)).saturating_sub(2).clamp(6, LONGEST_FRAME);
    let (short, any) = (dice.between(6, 60), dice.between(6, 600));
    dice.pick(&[around, around, around, short, short, any])
}

/// A run of at most 7,000 frame bytes; frames come one by one, in bursts or all at once. Now and then a frame is made to
/// begin in a packet's last bytes.
fn some_run(dice: &mut Dice) -> Run {
    let most = dice.pick(&[200, 700, 1_500, 7_000]);
    let mut frames = Vec::new();
    let mut bytes = 0;
    loop {
        let place_in_packet = bytes % 183;
        let aimed = 366 - place_in_packet - dice.between(1, 4);
        let length = if dice.percent(20) { aimed } else { some_length(dice) };
        bytes += length;
        if bytes > most && !frames.is_empty() || frames.len() == 1_000 {
            break;
        }
        frames.push(frame(dice, length));
    }
    let (share, largest) = (dice.pick(&[15, 40, 80]), dice.pick(&[1, 2, 5, 200]));
    let bursts: Vec<usize> = (0..dice.pick(&[1, 3, 10, 30]))
        .map(|_| if dice.percent(share) { dice.between(1, largest) } else { 0 })
        .collect();
    Run::new(frames, &bursts, dice.byte() % 16)
}

/// Room that is just enough for a run, a little more or less, or any.
fn some_room(dice: &mut Dice, run: &Run) -> (usize, usize) {
    let mut some = |enough: usize, capacity: usize| {
        let any = dice.below(capacity + 1);
        dice.pick(&[enough, enough, (enough + 1).min(capacity), enough.saturating_sub(1), capacity, any])
    };
    let bytes: usize = run.frames.iter().map(Vec::len).sum();
    (some(bytes.min(AMPLE.0), AMPLE.0), some(run.frames.len(), AMPLE.1))
}

/// One change to a stream, such as a channel may make or a wrong writer.
fn damage(dice: &mut Dice, packets: &mut Vec<Vec<u8>>) {
    if packets.is_empty() {
        packets.push(null_packet());
    }
    let place = dice.below(packets.len());
    let other = dice.below(packets.len());
    match dice.below(14) {
        0 => *dice_byte(dice, &mut packets[place], 0) = dice.byte(),
        1 => *dice_byte(dice, &mut packets[place], 4) = STUFFING,
        2 => {
            let byte = dice.below(5.min(packets[place].len()).max(1));
            if let Some(byte) = packets[place].get_mut(byte) {
                *byte ^= 1 << dice.below(8);
            }
        }
        3 => drop(packets.remove(place)),
        4 => packets.insert(place, packets[place].clone()),
        5 => packets.swap(place, other),
        6 => packets.insert(place, null_packet()),
        7 => packets.retain(|packet| packet.get(..3) != Some(&NULL_HEADER[..3])),
        8 => {
            let pointer = dice.pick(&[None, Some(0), Some(0), Some(1), Some(183)]);
            packets.insert(place, data_packet(dice.byte(), pointer, &[]));
        }
        9 => drop(packets.drain(..place)),
        10 => {
            let length = dice.below(MPEG_BYTES);
            packets.push(dice.bytes(length));
        }
        11 => {
            // A frame of its own, whole or begun, instead of what there was.
            let length = some_length(dice);
            let bytes = frame(dice, length);
            packets[place] = data_packet(dice.byte(), Some(0), &bytes[..length.min(183)]);
        }
        12 => {
            let end = packets[place].len();
            let start = end - dice.below(40).min(end);
            packets[place][start..].fill(STUFFING);
        }
        _ => {
            if let Some(pointer) = packets[place].get_mut(4) {
                *pointer = pointer.wrapping_add(dice.pick(&[1, 255, 2, 100]));
            }
        }
    }
}

/// A byte of a packet, from that place on; there may be a short packet at the end.
fn dice_byte<'a>(dice: &mut Dice, packet: &'a mut Vec<u8>, from: usize) -> &'a mut u8 {
    if packet.len() <= from {
        packet.resize(from + 1, 0);
    }
    let place = dice.between(from, packet.len() - 1);
    &mut packet[place]
}

/// A write from anywhere in the frames of a run, one in three spoilt.
fn some_writing(dice: &mut Dice, run: &Run) -> MpegWriting {
    let lengths = lengths_of(&run.frames);
    let bounds = bounds(&lengths);
    let (any, bound) = (dice.below(bounds[lengths.len()] + 3), dice.pick(&bounds));
    let mut writing = MpegWriting {
        frame_bytes: bounds[lengths.len()],
        place: dice.pick(&[any, any, bound, bound + 1, bound.saturating_sub(183), bound.saturating_sub(184)]) as u64,
        count: dice.byte(),
        output: MPEG_BYTES + dice.pick(&[0, 0, 1, 100]),
        lengths,
    };
    let place = dice.below(writing.lengths.len());
    match dice.below(24) {
        0 => writing.frame_bytes -= 1,
        1 => writing.frame_bytes += 1,
        2 => writing.lengths[place] = dice.pick(&[0, 6, 2_049, any as u16]),
        3 => writing.lengths.truncate(place),
        4 => writing.lengths.insert(place, 0),
        5 => writing.output = dice.below(MPEG_BYTES),
        6 => writing.place = dice.next(),
        7 => writing.lengths.swap(0, place),
        _ => {}
    }
    writing
}

#[cfg(test)]
mod tests {
    use super::*;

    #[test]
    fn each_case_but_those_of_the_dice_comes_up_and_answers_what_it_is_there_for() {
        let mut nowhere = std::io::sink();
        let mut recorder = Recorder::new(&mut nowhere, usize::MAX, Vec::new());
        recorder.begin(&CASES).unwrap();
        all(&mut recorder).unwrap();
        let seen = std::mem::take(&mut recorder.seen);
        for case in CASES.iter().filter(|case| !case.starts_with("random")) {
            assert!(seen.iter().any(|(known, _)| known == case), "{case}");
        }
        for (case, code) in seen {
            if case.ends_with(", written") || case.starts_with("two frames") || case.starts_with("streams of no") {
                assert_eq!(code, 0, "{case}");
            }
            if let Some(pair) = case.strip_prefix("refusals ") {
                assert!(code.to_string() == pair[..2] || pair == "52 and 51" && code == 51, "{case}");
            }
            if case == "stuffing between frames" {
                assert_eq!(code, 53);
            }
        }
    }

    #[test]
    fn runs_by_dice_are_read_back_whole() {
        for seed in 0..200 {
            let run = some_run(&mut Dice::new(seed));
            assert_eq!(crate::mpeg::read(&run.stream(), AMPLE.0, AMPLE.1, Faults::NONE), Ok(run.frames));
        }
    }
}

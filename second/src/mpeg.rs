//! Frames in MPEG packets: the writer, a packet to a call, and the reader that gives the frames back (W3).
//!
//! A packet has 188 bytes and PID 0x1FFE; where no frame byte waits it is the null packet. Where fewer than 184 bytes of
//! the frame in hand are left, and so at the start of each frame, a pointer byte says how many.
//!
//! The reader refuses with 53 what no run of the writer gives, and decides that literally: it picks the frames out of the
//! payloads, then runs the writer over them and compares. Each frame is added just before the packet in which it begins,
//! as late as a run can: a frame that waits earlier changes nothing where the packet is full, and leaves no room for
//! stuffing where it is not. So if any run gives these bytes, this one does.

use std::iter;

use crate::card::LONGEST_FRAME;
use crate::faults::{Fault, Faults};
use crate::packet::{Refusal, MPEG_BYTES, MPEG_SYNC};

/// What ends a packet after the last frame that waits, and so no frame begins with.
pub const STUFFING: u8 = 0xFF;
/// The bytes after the header.
pub const PAYLOAD: usize = MPEG_BYTES - 4;
/// Bytes of a frame that its length field, bytes 2 and 3, does not count.
pub const UNCOUNTED: usize = 6;
/// The payload-start flag, in byte 1.
pub const FLAG: u8 = 0x40;
/// What a packet with PID 0x1FFE and one with PID 0x1FFF begin with.
pub const DATA_HEADER: [u8; 4] = [MPEG_SYNC, 0x1F, 0xFE, 0x10];
pub const NULL_HEADER: [u8; 4] = [MPEG_SYNC, 0x1F, 0xFF, 0x10];

/// A packet, with the place and the count of the next call.
#[derive(Clone, Debug, PartialEq, Eq)]
pub struct Written {
    pub packet: Vec<u8>,
    pub place: usize,
    pub count: u8,
    pub null: bool,
}

/// What the writer is given besides the frames: how many of their bytes have been sent, the count, and how long the
/// output is.
#[derive(Clone, Copy, Debug)]
pub struct Going {
    pub place: usize,
    pub count: u8,
    pub output: usize,
}

/// The length that a frame's own field gives it; the frame has 4 bytes or more.
pub fn length_by_field(frame: &[u8]) -> usize {
    usize::from(u16::from_be_bytes([frame[2], frame[3]])) + UNCOUNTED
}

/// Whether the writer takes this frame.
pub fn is_good(frame: &[u8], faults: Faults) -> bool {
    let longest = if faults.has(Fault::MpegLongestFrameRefused) {
        LONGEST_FRAME - 1
    } else {
        LONGEST_FRAME + usize::from(faults.has(Fault::MpegLongerFrameTaken))
    };
    let counted = if faults.has(Fault::MpegFieldIsLength) { UNCOUNTED } else { 0 };
    (4..=longest).contains(&frame.len())
        && length_by_field(frame) == frame.len() + counted
        && (frame[0] != STUFFING || faults.has(Fault::MpegFirstByteUnjudged))
}

/// Where frames of these lengths begin, and where the last one ends.
pub fn bounds(lengths: &[u16]) -> Vec<usize> {
    let mut end = 0;
    iter::once(0)
        .chain(lengths.iter().map(|length| {
            end += usize::from(*length);
            end
        }))
        .collect()
}

/// Writes the next packet: refusals 52 and 51, in this order, or the packet.
pub fn write(bytes: &[u8], lengths: &[u16], going: Going, faults: Faults) -> Result<Written, Refusal> {
    if faults.has(Fault::MpegShortBeforeFrames) && going.output < MPEG_BYTES {
        return Err(Refusal(51));
    }
    let bounds = bounds(lengths);
    judge_frames(bytes, &bounds, going.place, faults)?;
    let room_unasked = faults.has(Fault::MpegNullNeedsNoRoom) && going.place >= bytes.len();
    if going.output < MPEG_BYTES && !room_unasked {
        return Err(Refusal(51));
    }
    Ok(next_packet(bytes, &bounds, going.place, going.count, faults))
}

/// All packets of frames that wait from the start, from count 0 on.
pub fn stream(frames: &[Vec<u8>]) -> Result<Vec<u8>, Refusal> {
    let (bytes, lengths) = (frames.concat(), frames.iter().map(|frame| frame.len() as u16).collect::<Vec<u16>>());
    let (mut packets, mut going) = (Vec::new(), Going { place: 0, count: 0, output: MPEG_BYTES });
    loop {
        let written = write(&bytes, &lengths, going, Faults::NONE)?;
        if written.null {
            return Ok(packets);
        }
        packets.extend(written.packet);
        going = Going { place: written.place, count: written.count, ..going };
    }
}

/// Refusal 52: lengths that do not add up to the bytes, or a frame that is not good.
fn judge_frames(bytes: &[u8], bounds: &[usize], place: usize, faults: Faults) -> Result<(), Refusal> {
    let end = bounds[bounds.len() - 1];
    let adds_up = end == bytes.len()
        || faults.has(Fault::MpegLeftoverBytesTaken) && end < bytes.len()
        || faults.has(Fault::MpegLengthsInSixteenBits) && end % 65_536 == bytes.len() % 65_536;
    let sent = |bound: &[usize]| faults.has(Fault::MpegSentFramesUnjudged) && bound[1] <= place;
    let good = |bound: &[usize]| bytes.get(bound[0]..bound[1]).is_some_and(|frame| is_good(frame, faults));
    let all_good = bounds.windows(2).all(|bound| sent(bound) || good(bound));
    if !adds_up || !all_good || faults.has(Fault::MpegPlacePastEndRefused) && place > bytes.len() {
        return Err(Refusal(52));
    }
    Ok(())
}

/// The packet at this place of frames that have been judged.
pub fn next_packet(bytes: &[u8], bounds: &[usize], place: usize, count: u8, faults: Faults) -> Written {
    if place >= bytes.len() && !faults.has(Fault::MpegStuffingAloneSent) {
        return null_packet(bytes, place, count, faults);
    }
    let rest = bytes.get(place..).unwrap_or_default();
    let mut left = bounds.iter().find(|bound| **bound >= place).map_or(0, |bound| bound - place);
    if left == 0 && faults.has(Fault::MpegStartWithoutPointer) {
        left = bounds.iter().map(|bound| bound.saturating_sub(place)).find(|left| *left > 0).unwrap_or(0);
        left = if left < PAYLOAD { 0 } else { left };
    }
    let least_without = if faults.has(Fault::Mpeg183WithoutPointer) {
        PAYLOAD - 1
    } else if faults.has(Fault::MpegPointerTo255) {
        256
    } else {
        PAYLOAD
    };
    let nothing_begins = left >= rest.len().min(PAYLOAD - 1);
    let pointed = left < least_without && !(faults.has(Fault::MpegFlagOnlyAtStarts) && nothing_begins);

    let mut packet = DATA_HEADER.to_vec();
    packet[3] = packet[3].wrapping_add(if faults.has(Fault::MpegCountOfEightBits) { count } else { count % 16 });
    if pointed {
        packet[1] |= FLAG;
        packet.push(left as u8 + u8::from(faults.has(Fault::MpegPointerOneOff)));
    }
    let mut taken = rest.len().min(MPEG_BYTES - packet.len());
    if faults.has(Fault::MpegFramesNotBegun) {
        let last = bounds.iter().rev().find(|bound| (place + 1..=place + taken).contains(bound));
        taken = last.map_or(taken, |bound| bound - place);
    }
    packet.extend(&rest[..taken]);
    packet.resize(MPEG_BYTES, if faults.has(Fault::MpegStuffingOfZeros) { 0 } else { STUFFING });
    let count = if faults.has(Fault::MpegCountNotWrapped) { count.wrapping_add(1) } else { (count % 16 + 1) % 16 };
    Written { packet, place: place + taken, count, null: false }
}

fn null_packet(bytes: &[u8], place: usize, count: u8, faults: Faults) -> Written {
    let mut packet = NULL_HEADER.to_vec();
    if faults.has(Fault::MpegNullFourthByteZero) {
        packet[3] = 0;
    }
    packet.resize(MPEG_BYTES, STUFFING);
    let place = if faults.has(Fault::MpegNullMovesPlace) { bytes.len() } else { place };
    let moved = u8::from(faults.has(Fault::MpegNullMovesCount));
    let reduced = moved == 1 || faults.has(Fault::MpegNullReducesCount);
    let count = if reduced { (count % 16 + moved) % 16 } else { count };
    Written { packet, place, count, null: true }
}

/// The packet that a channel sends next: the first of its queue, packets back to back, or the null packet where there is
/// none.
pub fn hand_out(queue: &[u8], faults: Faults) -> Vec<u8> {
    let asked = MPEG_BYTES + usize::from(faults.has(Fault::MpegLastOfQueueKept));
    if queue.len() >= asked && !faults.has(Fault::MpegQueuePassedOver) {
        let first = if faults.has(Fault::MpegQueueFromItsEnd) { queue.len() - MPEG_BYTES } else { 0 };
        return queue[first..first + MPEG_BYTES].to_vec();
    }
    let mut packet = null_packet(&[], 0, 0, faults).packet;
    if faults.has(Fault::MpegPartOfPacketHandedOut) && queue.len() < MPEG_BYTES {
        packet[..queue.len()].copy_from_slice(queue);
    }
    packet
}

/// A frame picked out of the payloads.
struct Found {
    /// The frame, or as much of it as there is.
    bytes: Vec<u8>,
    /// The packet that its first byte stands in.
    packet: usize,
    finished: bool,
    /// Whether a packet ends inside its length field.
    split: bool,
}

/// The frames of a stream of packets: refusals 53 and 51, in this order, or the finished frames. The output has room for
/// so many bytes, the lengths for so many frames.
pub fn read(stream: &[u8], output: usize, lengths: usize, faults: Faults) -> Result<Vec<Vec<u8>>, Refusal> {
    let read = frames_of(stream, faults);
    let frames = match (read, faults.has(Fault::MpegShortBeforeDamage)) {
        (Some(frames), _) => frames,
        (None, true) if output == 0 => return Err(Refusal(51)),
        (None, _) => return Err(Refusal(53)),
    };
    let bytes: usize = frames.iter().map(Vec::len).sum();
    if output < bytes || lengths < frames.len() && !faults.has(Fault::MpegShortLengthsTaken) {
        return Err(Refusal(51));
    }
    Ok(frames)
}

/// The finished frames, if some run of the writer gives this stream.
fn frames_of(stream: &[u8], faults: Faults) -> Option<Vec<Vec<u8>>> {
    let partial = !stream.len().is_multiple_of(MPEG_BYTES) && !faults.has(Fault::MpegPartialPacketIgnored);
    if partial || stream.is_empty() && faults.has(Fault::MpegEmptyRefused) {
        return None;
    }
    let mut packets: Vec<&[u8]> = stream.chunks_exact(MPEG_BYTES).collect();
    if faults.has(Fault::MpegInsideBeginningTaken) {
        let inside = |packet: &&&[u8]| !is_null(packet) && (packet[1] & FLAG == 0 || packet[4] != 0);
        packets.drain(..packets.iter().take_while(inside).count());
    }
    let found = pick_frames(&packets);
    let whole: Vec<Vec<u8>> = found.iter().map(|found| completed(found, faults)).collect::<Option<_>>()?;
    if found.iter().any(|found| found.split) && faults.has(Fault::MpegSplitFieldRefused) {
        return None;
    }
    gives(&packets, &found, &whole, faults).then(|| {
        let handed_out = |found: &Found| found.finished || faults.has(Fault::MpegTailHandedOut);
        found.into_iter().filter(handed_out).map(|found| found.bytes).collect()
    })
}

fn is_null(packet: &[u8]) -> bool {
    packet[..3] == NULL_HEADER[..3]
}

/// Picks frames out of the payloads of all packets but null packets, behind their pointers, by the frames' own length
/// fields; stuffing is what stands where a frame could begin and does not. Of a stream that the writer gives these are
/// its frames; of another one, any.
fn pick_frames(packets: &[&[u8]]) -> Vec<Found> {
    let payload = |packet: &[u8]| if packet[1] & FLAG != 0 { 5..MPEG_BYTES } else { 4..MPEG_BYTES };
    let carried: Vec<(usize, u8)> = (0..)
        .zip(packets)
        .filter(|(_, packet)| !is_null(packet))
        .flat_map(|(number, packet)| packet[payload(packet)].iter().map(move |byte| (number, *byte)))
        .collect();
    let mut found = Vec::new();
    let mut rest = &carried[..];
    while let Some(start) = rest.iter().position(|(_, byte)| *byte != STUFFING) {
        rest = &rest[start..];
        let first: Vec<u8> = rest.iter().take(4).map(|(_, byte)| *byte).collect();
        let length = if first.len() == 4 { length_by_field(&first) } else { usize::MAX };
        let (bytes, after) = rest.split_at(length.min(rest.len()));
        found.push(Found {
            bytes: bytes.iter().map(|(_, byte)| *byte).collect(),
            packet: rest[0].0,
            finished: bytes.len() == length,
            split: bytes.len() == 3 || bytes.len() > 3 && bytes[2].0 != bytes[3].0,
        });
        rest = after;
    }
    found
}

/// The frame itself, or a good one that begins with the bytes that there are; None where there is none. Bytes that have
/// not come yet are taken as zeros: the shortest frame of those that are possible.
fn completed(found: &Found, faults: Faults) -> Option<Vec<u8>> {
    let mut frame = found.bytes.clone();
    frame.resize(frame.len().max(4), 0);
    frame.resize(length_by_field(&frame), 0);
    let unjudged = match found.bytes.len() {
        3 => faults.has(Fault::MpegThreeByteTailUnjudged),
        _ => faults.has(Fault::MpegTailUnjudged) && !found.finished,
    };
    let refused_one = faults.has(Fault::MpegTailOfSevenRefused) && found.bytes.len() == 3 && frame[2] == 7;
    (unjudged || is_good(&frame, faults) && !refused_one).then_some(frame)
}

/// Whether the writer gives these packets, from the first frame's start on, with each frame added just before the packet
/// that it begins in.
fn gives(packets: &[&[u8]], found: &[Found], whole: &[Vec<u8>], faults: Faults) -> bool {
    let bytes = whole.concat();
    let lengths: Vec<u16> = whole.iter().map(|frame| frame.len() as u16).collect();
    let bounds = bounds(&lengths);
    let mut place = 0;
    let mut count = packets.iter().find(|packet| !is_null(packet)).map_or(0, |packet| packet[3] % 16);
    if faults.has(Fault::MpegFirstCountZero) {
        count = 0;
    }
    packets.iter().enumerate().all(|(number, packet)| {
        let added = found.partition_point(|found| found.packet <= number);
        let waiting = &bytes[..bounds[added]];
        if taken_by_fault(packet, place >= waiting.len(), &mut count, faults) {
            return true;
        }
        let written = next_packet(waiting, &bounds[..=added], place, count, faults);
        (place, count) = (written.place, written.count);
        if written.null && faults.has(Fault::MpegReadNullMovesCount) {
            count = (count + 1) % 16;
        }
        if faults.has(Fault::MpegCountUnjudged) && !written.null {
            count = (packet[3] % 16 + 1) % 16;
        }
        forgiven(packet, &written.packet, faults) == written.packet
    })
}

/// Packets that no run gives here and a fault lets pass.
fn taken_by_fault(packet: &[u8], nothing_waits: bool, count: &mut u8, faults: Faults) -> bool {
    if is_null(packet) && faults.has(Fault::MpegNullInsideTaken) {
        return true;
    }
    let alone = [&[MPEG_SYNC, DATA_HEADER[1] | FLAG, DATA_HEADER[2], DATA_HEADER[3] | *count, 0][..], &[STUFFING; 183]];
    if nothing_waits && packet == alone.concat() && faults.has(Fault::MpegStuffingAloneTaken) {
        *count = (*count + 1) % 16;
        return true;
    }
    false
}

/// The packet as it was given; where a fault passes over something in it, with what the writer has there.
fn forgiven(packet: &[u8], written: &[u8], faults: Faults) -> Vec<u8> {
    let mut seen = packet.to_vec();
    if faults.has(Fault::MpegNullPayloadUnjudged) && is_null(packet) && is_null(written) {
        seen[4..].copy_from_slice(&written[4..]);
    }
    if faults.has(Fault::MpegCountUnjudged) && !is_null(packet) {
        seen[3] = seen[3] & 0xF0 | written[3] & 0x0F;
    }
    if faults.has(Fault::MpegUpperBitsUnjudged) {
        seen[1] = seen[1] & !0xA0 | written[1] & 0xA0;
    }
    if faults.has(Fault::MpegControlBitsUnjudged) {
        seen[3] = seen[3] & 0x0F | written[3] & 0xF0;
    }
    if faults.has(Fault::MpegPointerUnjudged) && packet[1] & FLAG != 0 {
        seen[4] = written[4];
    }
    if faults.has(Fault::MpegStuffingBetweenTaken) && packet[..5] == written[..5] {
        let plain = |bytes: &[u8]| bytes.iter().filter(|byte| **byte != STUFFING).copied().collect::<Vec<u8>>();
        if plain(packet) == plain(written) {
            seen = written.to_vec();
        }
    }
    seen
}

#[cfg(test)]
mod tests {
    use super::*;

    /// A good frame of that length, of bytes that are neither 0 nor 0xFF but for its field.
    fn frame(length: usize) -> Vec<u8> {
        let mut frame: Vec<u8> = (0..length).map(|place| 1 + (place % 200) as u8).collect();
        frame[2..4].copy_from_slice(&((length - 6) as u16).to_be_bytes());
        frame
    }

    fn frames(lengths: &[usize]) -> Vec<Vec<u8>> {
        lengths.iter().map(|length| frame(*length)).collect()
    }

    fn lengths_of(frames: &[Vec<u8>]) -> Vec<u16> {
        frames.iter().map(|frame| frame.len() as u16).collect()
    }

    fn write_at(frames: &[Vec<u8>], place: usize, count: u8) -> Result<Written, Refusal> {
        write(&frames.concat(), &lengths_of(frames), Going { place, count, output: 188 }, Faults::NONE)
    }

    /// All packets of frames that wait together.
    fn stream(frames: &[Vec<u8>], first: u8) -> Vec<u8> {
        let (mut packets, mut place, mut count) = (Vec::new(), 0, first);
        while place < frames.concat().len() {
            let written = write_at(frames, place, count).unwrap();
            packets.extend(written.packet);
            (place, count) = (written.place, written.count);
        }
        packets
    }

    fn code(stream: &[u8]) -> u8 {
        read(stream, usize::MAX, usize::MAX, Faults::NONE).map_or_else(|Refusal(code)| code, |_| 0)
    }

    fn data(header: [u8; 4], payload: &[u8]) -> Vec<u8> {
        let mut packet = [&header[..], payload].concat();
        packet.resize(188, 0xFF);
        packet
    }

    fn null() -> Vec<u8> {
        data([0x47, 0x1F, 0xFF, 0x10], &[])
    }

    #[test]
    fn a_frame_begins_behind_pointer_0_and_stuffing_follows_the_last() {
        let two = frames(&[6, 9]);
        let written = write_at(&two, 0, 0x2E).unwrap();
        assert_eq!(written.packet, data([0x47, 0x5F, 0xFE, 0x1E], &[&[0][..], &two.concat()].concat()));
        assert_eq!((written.place, written.count, written.null), (15, 15, false));
        assert_eq!(write_at(&two, 3, 15).unwrap().packet[4], 3);
        assert_eq!(write_at(&two, 3, 15).unwrap().count, 0);
    }

    /// r of 182, 183, 184 and 185, by the place in one frame and in the first of two.
    #[test]
    fn a_pointer_stands_where_fewer_than_184_bytes_are_left() {
        for others in [&[][..], &[50]] {
            let all = frames(&[&[400][..], others].concat());
            let bytes = all.concat();
            for (place, pointer) in [(218, Some(182)), (217, Some(183)), (216, None), (215, None), (399, Some(1))] {
                let written = write_at(&all, place, 4).unwrap();
                let start = if pointer.is_some() { 5 } else { 4 };
                let sent = written.place - place;
                assert_eq!(written.packet[..4], [0x47, if pointer.is_some() { 0x5F } else { 0x1F }, 0xFE, 0x14]);
                assert_eq!(pointer.unwrap_or(written.packet[4]), written.packet[4]);
                assert_eq!(sent, (bytes.len() - place).min(188 - start));
                assert_eq!(written.packet[start..start + sent], bytes[place..written.place]);
                assert!(written.packet[start + sent..].iter().all(|byte| *byte == 0xFF));
            }
        }
        // The start of a long frame has a pointer, whatever came before.
        assert_eq!(write_at(&frames(&[2_048]), 0, 0).unwrap().packet[..5], [0x47, 0x5F, 0xFE, 0x10, 0]);
        assert_eq!(write_at(&frames(&[20, 2_048]), 20, 0).unwrap().packet[..5], [0x47, 0x5F, 0xFE, 0x10, 0]);
    }

    #[test]
    fn with_nothing_waiting_a_null_packet_gives_back_place_and_count() {
        for (frames, place) in [(vec![], 0), (vec![], 9), (frames(&[6]), 6), (frames(&[6]), usize::MAX)] {
            let written = write_at(&frames, place, 0xFF).unwrap();
            assert_eq!(written, Written { packet: null(), place, count: 0xFF, null: true });
        }
    }

    #[test]
    fn the_first_packet_of_a_queue_is_handed_out_or_the_null_packet() {
        let queue = [stream(&frames(&[300]), 3), null(), vec![7; 188]].concat();
        for length in (188..=queue.len()).step_by(47) {
            assert_eq!(hand_out(&queue[..length], Faults::NONE), queue[..188]);
        }
        assert_eq!(hand_out(&queue[564..], Faults::NONE), [7; 188]);
        for length in [0, 1, 187] {
            assert_eq!(hand_out(&queue[..length], Faults::NONE), null());
        }
    }

    #[test]
    fn frames_are_judged_before_the_output() {
        let refused = |bytes: &[u8], lengths: &[u16], output| {
            let going = Going { place: 0, count: 0, output };
            write(bytes, lengths, going, Faults::NONE).map_or_else(|Refusal(code)| code, |_| 0)
        };
        let one = frame(6);
        assert_eq!((refused(&one, &[6], 187), refused(&one, &[6], 188), refused(&[], &[], 187)), (51, 0, 51));
        assert_eq!((refused(&one, &[5], 0), refused(&one, &[7], 188), refused(&one, &[], 188)), (52, 52, 52));
        assert_eq!((refused(&one, &[6, 0], 188), refused(&[], &[0], 188), refused(&[], &[6], 188)), (52, 52, 52));
        for length in 1..6 {
            assert_eq!(refused(&[1, 1, 0, 0, 0][..length], &[length as u16], 188), 52);
        }
        assert_eq!(refused(&frame(2_048), &[2_048], 188), 0);
        assert_eq!(refused(&frame(2_049), &[2_049], 188), 52);
        let mut first = frame(6);
        first[0] = 0xFF;
        assert_eq!(refused(&first, &[6], 188), 52);
        let mut field = frame(300);
        field.swap(2, 3);
        assert_eq!(refused(&field, &[300], 188), 52);
        // A bad frame counts even where it has been sent.
        let bytes = [first, frame(6)].concat();
        assert_eq!(write(&bytes, &[6, 6], Going { place: 6, count: 0, output: 188 }, Faults::NONE), Err(Refusal(52)));
    }

    #[test]
    fn what_is_written_is_read_back() {
        for lengths in [
            &[6][..],
            &[183],
            &[184],
            &[183, 183],
            &[367, 6],
            &[2_048, 6],
            &[182, 20],
            &[181, 20],
            &[180, 20],
            &[179, 20],
            &[178, 200, 7],
            &[6; 61],
        ] {
            let frames = frames(lengths);
            for first in 0..16 {
                let stream = stream(&frames, first);
                assert_eq!(read(&stream, usize::MAX, usize::MAX, Faults::NONE), Ok(frames.clone()));
            }
        }
        assert_eq!(read(&[], 0, 0, Faults::NONE), Ok(vec![]));
        assert_eq!(read(&null().repeat(3), 0, 0, Faults::NONE), Ok(vec![]));
    }

    #[test]
    fn the_reader_asks_for_the_room_that_the_frames_need() {
        let stream = stream(&frames(&[6, 7]), 3);
        let code =
            |output, lengths| read(&stream, output, lengths, Faults::NONE).map_or_else(|refusal| refusal.0, |_| 0);
        assert_eq!((code(13, 2), code(12, 2), code(13, 1), code(0, 0)), (0, 51, 51, 51));
        assert_eq!(read(&stream[1..], 0, 0, Faults::NONE), Err(Refusal(53)));
    }

    #[test]
    fn null_packets_stand_only_between_frames_and_are_fixed() {
        let (one, long) = (stream(&frames(&[183]), 5), stream(&frames(&[200]), 6));
        assert_eq!(code(&[null(), one.clone(), null(), null(), long.clone(), null()].concat()), 0);
        assert_eq!(code(&[&long[..188], &null(), &long[188..]].concat()), 53);
        assert_eq!(code(&[&long[..188], &null()].concat()), 53);
        for place in 0..188 {
            let mut changed = null();
            changed[place] ^= 1;
            assert_eq!(code(&[one.clone(), changed].concat()), 53);
        }
        // A null packet does not count.
        assert_eq!(code(&[one.clone(), null(), stream(&frames(&[200]), 7)].concat()), 53);
        assert_eq!(code(&[one.clone(), one].concat()), 53);
    }

    #[test]
    fn no_header_byte_and_no_pointer_may_be_another() {
        let packets = stream(&frames(&[400, 20]), 9);
        assert_eq!(packets.len(), 3 * 188);
        for packet in 0..3 {
            for (byte, bit) in (0..4).flat_map(|byte| (0..8).map(move |bit| (byte, bit))) {
                let mut changed = packets.clone();
                changed[188 * packet + byte] ^= 1 << bit;
                assert_eq!(code(&changed), 53, "packet {packet}, byte {byte}, bit {bit}");
            }
        }
        for pointer in (0..=255).filter(|pointer| *pointer != packets[2 * 188 + 4]) {
            let mut changed = packets.clone();
            changed[2 * 188 + 4] = pointer;
            assert_eq!(code(&changed), 53);
        }
        for length in (0..packets.len()).filter(|length| length % 188 != 0) {
            assert_eq!(code(&packets[..length]), 53);
        }
        // Begun inside a frame; with a frame before that does not end there.
        assert_eq!((code(&packets[188..]), code(&packets[376..])), (53, 53));
        assert_eq!(code(&[&packets[..188], &packets[376..]].concat()), 53);
    }

    #[test]
    fn stuffing_ends_a_packet_and_is_never_alone() {
        let header = [0x47, 0x5F, 0xFE, 0x10];
        let (one, pointer) = (frame(6), [0]);
        assert_eq!(code(&data(header, &[&pointer[..], &one].concat())), 0);
        assert_eq!(code(&data(header, &pointer)), 53);
        assert_eq!(code(&data(header, &[&pointer[..], &one, &[0xFF], &one].concat())), 53);
        assert_eq!(code(&data(header, &[&pointer[..], &[0xFF], &one].concat())), 53);
        assert_eq!(code(&data(header, &[&[1, 0xFF][..], &one].concat())), 53);
        assert_eq!(code(&data([0x47, 0x1F, 0xFE, 0x10], &one)), 53);
    }

    /// An unfinished frame of each length and each field; it is not handed out.
    #[test]
    fn an_unfinished_tail_has_to_begin_a_good_frame() {
        let tail = |bytes: &[u8]| {
            let whole = frame(183 - bytes.len());
            let stream = data([0x47, 0x5F, 0xFE, 0x1C], &[&[0][..], &whole, bytes].concat());
            read(&stream, 183, 1, Faults::NONE).map(|frames| frames == [whole])
        };
        let (taken, refused) = (Ok(true), Err(Refusal(53)));
        for first in 0..=0xFE {
            assert_eq!((tail(&[first]), tail(&[first, 0xFF]), tail(&[first, 0, 7])), (taken, taken, taken));
            assert_eq!((tail(&[first, 0, 8]), tail(&[first, 0, 0xFF])), (refused, refused));
        }
        assert_eq!((tail(&[1, 2, 7, 0xFA]), tail(&[1, 2, 7, 0xFA, 0xFF])), (taken, taken));
        assert_eq!((tail(&[1, 2, 7, 0xFB]), tail(&[1, 2, 8, 0, 0])), (refused, refused));
        assert_eq!((tail(&[1, 2, 0, 0]), tail(&[1, 2, 0, 0, 0xFF])), (taken, taken));
        // A first byte 0xFF is stuffing, and something else behind it is not.
        assert_eq!((tail(&[0xFF]), tail(&[0xFF, 0xFF, 0xFF]), tail(&[0xFF, 1])), (taken, taken, refused));
        // Five bytes of a frame of six; then its last one, with the right pointer and with others.
        for (pointer, expected) in [(0, 53), (1, 0), (2, 53)] {
            let begun = data([0x47, 0x5F, 0xFE, 0x1F], &[&[0][..], &frame(178), &frame(6)[..5]].concat());
            let end = data([0x47, 0x5F, 0xFE, 0x10], &[&[pointer][..], &frame(6)[5..]].concat());
            assert_eq!(code(&[begun, end].concat()), expected);
        }
    }

    /// A frame that begins in the last bytes of a packet: its field, or a byte of it, comes with the next one.
    #[test]
    fn a_split_field_is_read() {
        for left in 1..=5 {
            for second in [6, 7, 183 + left, 184 + left, 185 + left, 2_048] {
                let frames = frames(&[183 - left, second]);
                let packets = stream(&frames, 15);
                assert_eq!(read(&packets, usize::MAX, 2, Faults::NONE), Ok(frames.clone()));
                assert_eq!(read(&packets[..188], usize::MAX, 2, Faults::NONE), Ok(frames[..1].to_vec()));
                let flag = if second - left < 184 { 0x5F } else { 0x1F };
                assert_eq!(packets[189], flag);
            }
        }
    }

    /// A frame of 2,049 bytes, as a writer would send it that did not judge it.
    #[test]
    fn a_frame_too_long_is_refused_as_soon_as_its_field_is_there() {
        for (length, expected) in [(2_048, 0), (2_049, 53)] {
            let (bytes, bounds) = (frame(length), [0, length]);
            let (mut packets, mut place) = (Vec::new(), 0);
            for count in 0..12 {
                let written = next_packet(&bytes, &bounds, place, count, Faults::NONE);
                packets.extend(written.packet);
                place = written.place;
                assert_eq!(code(&packets), expected);
            }
            assert_eq!(place, length);
        }
    }

    /// Two frames at once fill one packet; the same two with stuffing after the first come in two bursts.
    #[test]
    fn bursts_decide_where_stuffing_stands() {
        let (one, other) = (frame(100), frame(50));
        let apart = [stream(&[one.clone()], 0), stream(&[other.clone()], 1)].concat();
        let together = stream(&[one, other], 0);
        assert_eq!((apart.len(), together.len()), (376, 188));
        let frames = |stream: &[u8]| read(stream, usize::MAX, usize::MAX, Faults::NONE);
        assert_eq!(frames(&apart), frames(&together));
    }
}

//! Directed captures of PSP packets with S clear, which have no number.
//!
//! Document 02, W2: what the flow holds is dropped first; then segments with both B and E and at most 2,048 bytes are
//! delivered, all others are dropped, and nothing is held. The gap is 0, and what is expected stays, a fresh flow's freshness
//! included. What stands where the number does has no meaning, so 12 is not given; the other refusals stay. Here packets
//! come over IP; `transports` has these captures once more, over UDP and by both transports.

use crate::card::LONGEST_FRAME;
use crate::craft::{dmpt, header, psp, psp_with, unnumbered, BEGIN, END, MIDDLE, S, WHOLE};
use crate::directed::{Case, NamedCapture, MPT, PSP, STRANGER};
use crate::packet::{Kind, HEADER_BYTES, LONGEST_PACKET};

/// All captures of this file.
pub fn captures() -> Vec<NamedCapture> {
    let mut all = vec![first(), fields(), fresh(), repeated(), marks(), refused(), orders()];
    all.extend(in_the_midst());
    all.extend(long_segments());
    all.extend([between_flows(), between_sessions(), every_byte_4(), every_byte_5(), sizes()]);
    all
}

/// Marks and lengths of the segments of a packet.
pub type Shape = Vec<(u16, usize)>;

/// Shapes of short packets: one segment with any marks, and several, of which the first may lack B and the last E.
pub fn short_shapes() -> Vec<Shape> {
    let mut most = vec![(WHOLE, 1); 127];
    (most[0].0, most[126].0) = (END, BEGIN);
    vec![
        vec![(WHOLE, 5)],
        vec![(BEGIN, 5)],
        vec![(END, 5)],
        vec![(MIDDLE, 5)],
        vec![(WHOLE, 2), (WHOLE, 3)],
        vec![(END, 2), (WHOLE, 3)],
        vec![(WHOLE, 2), (BEGIN, 3)],
        vec![(END, 2), (BEGIN, 3)],
        vec![(END, 2), (WHOLE, 3), (WHOLE, 4), (BEGIN, 5)],
        most,
    ]
}

/// Shapes around the longest frame and of the longest packets.
pub fn long_shapes() -> Vec<Shape> {
    let mut all = Vec::new();
    for length in [LONGEST_FRAME - 1, LONGEST_FRAME, LONGEST_FRAME + 1, LONGEST_PACKET - HEADER_BYTES - 2] {
        all.extend([WHOLE, BEGIN, END, MIDDLE].map(|marks| vec![(marks, length)]));
    }
    all.push(vec![(WHOLE, 2_048), (WHOLE, 2_040)]);
    all.push(vec![(END, 2_048), (WHOLE, 2_040)]);
    all.push(vec![(WHOLE, 2_040), (BEGIN, 2_048)]);
    all.push(vec![(WHOLE, 2_049), (WHOLE, 3), (BEGIN, 1_900)]);
    all.push(vec![(END, 1), (WHOLE, 2_049), (WHOLE, 2_000)]);
    all
}

/// A frame begun, a packet without a number in its midst, and the rest of the frame, which has lost its beginning.
fn first() -> NamedCapture {
    let mut case = Case::new("unnumbered-first").open(Kind::Psp, PSP).data(psp(PSP, 1, 9, &[(BEGIN, 4)]));
    case = case.data(unnumbered(PSP, 1, 0, &[(WHOLE, 6)])).data(psp(PSP, 1, 10, &[(END, 3), (WHOLE, 2)]));
    case.close(PSP).done()
}

const EXPECTED: [u16; 5] = [0, 1, 32_767, 32_768, 65_535];
const AHEAD: [u16; 10] = [0, 1, 2, 32_766, 32_767, 32_768, 32_769, 40_000, 65_534, 65_535];

/// Number fields at every distance of interest from the expected number, with bytes held. The first segment lacks B, and
/// must not join them. After each, the expected number is still the one that comes.
fn fields() -> NamedCapture {
    let mut case = Case::new("unnumbered-fields").open(Kind::Psp, PSP);
    for expected in EXPECTED {
        for ahead in AHEAD {
            case = case.data(psp(PSP, 1, expected.wrapping_sub(1), &[(BEGIN, 3)]));
            case = case.data(unnumbered(PSP, 1, expected.wrapping_add(ahead), &[(END, 2), (WHOLE, 1)]));
            case = case.data(psp(PSP, 1, expected, &[(END, 1), (BEGIN, 2)])).afresh(Kind::Psp, PSP);
        }
    }
    case.done()
}

/// A fresh flow stays fresh, after one such packet and after several: the first number that comes is any, with gap 0.
fn fresh() -> NamedCapture {
    let mut case = Case::new("unnumbered-fresh").open(Kind::Psp, PSP);
    for field in [0, 1, 700, 32_768, 65_535] {
        for number in [0, 1, 2, 32_767, 32_768, 40_000, 65_535u16] {
            for packets in 1..=2 {
                for _ in 0..packets {
                    case = case.data(unnumbered(PSP, 2, field, &[(END, 2), (WHOLE, 3), (BEGIN, 4)]));
                }
                case = case.data(psp(PSP, 2, number, &[(END, 1), (BEGIN, 2)]));
                case = case.data(psp(PSP, 2, number.wrapping_add(1), &[(END, 1)])).afresh(Kind::Psp, PSP);
            }
        }
    }
    case.done()
}

/// Several in a row, and some packets with a number between them: late ones, the expected one, and one ahead.
fn repeated() -> NamedCapture {
    let mut case = Case::new("unnumbered-repeated").open(Kind::Psp, PSP);
    let mut expected = 65_530u16;
    for round in 0..40 {
        case = case.data(psp(PSP, 3, expected, &[(BEGIN, 1 + round % 7)]));
        expected = expected.wrapping_add(1);
        for again in 0..round % 4 {
            case = case.data(unnumbered(PSP, 3, expected, &[(END, 2), (WHOLE, 1 + again)]));
        }
        if round % 3 == 0 {
            case = case.data(psp(PSP, 3, expected.wrapping_sub(1), &[(WHOLE, 9)]));
        }
        let number = expected.wrapping_add([0, 1, 0, 32_767, 0][round % 5]);
        case = case.data(psp(PSP, 3, number, &[(MIDDLE, 2)])).data(unnumbered(PSP, 3, number, &[(BEGIN, 2)]));
        case = case.data(psp(PSP, 3, number.wrapping_add(1), &[(END, 3)]));
        expected = number.wrapping_add(2);
    }
    case.close(PSP).done()
}

/// Every combination of B and E on one, two and three segments, with bytes held and with none; after each, an ending
/// segment shows that nothing is held.
fn marks() -> NamedCapture {
    let choice = [MIDDLE, END, BEGIN, WHOLE];
    let mut number = 65_000u16;
    let mut case = Case::new("unnumbered-marks").open(Kind::Psp, PSP);
    for held in [WHOLE, BEGIN] {
        for combination in 0..4 + 16 + 64 {
            let (count, left) = match combination {
                0..=3 => (1, combination),
                4..=19 => (2, combination - 4),
                _ => (3, combination - 20),
            };
            let marks = [choice[left % 4], choice[left / 4 % 4], choice[left / 16]];
            let segments: Shape = marks[..count].iter().copied().zip([3, 2, 1]).collect();
            case = case.data(psp(PSP, 0, number, &[(held, 4)])).data(unnumbered(PSP, 0, number, &segments));
            case = case.data(psp(PSP, 0, number.wrapping_add(1), &[(END, 1)]));
            number = number.wrapping_add(2);
        }
    }
    case.done()
}

/// With so many bytes held, packets of each short shape; after each the expected number, the one before it, one ahead, or
/// one too far ahead.
fn in_the_midst() -> Vec<NamedCapture> {
    let mut all = Vec::new();
    for held in [0, 1, 9, 2_047, 2_048] {
        let mut case = Case::new(&format!("unnumbered-with-{held}-held")).open(Kind::Psp, PSP);
        for (turn, shape) in short_shapes().iter().enumerate() {
            let numbers = [100, 99, 101, 32_867, 32_868];
            // Long places fill the file: there each shape has one of these numbers.
            let chosen = if held < 10 { &numbers[..] } else { &numbers[turn % 5..][..1] };
            for number in chosen {
                let begun: Shape = if held == 0 { vec![(WHOLE, 2)] } else { vec![(BEGIN, held)] };
                case = case.data(psp(PSP, 0, 99, &begun)).data(unnumbered(PSP, 0, *number, shape));
                case = case.data(psp(PSP, 0, *number, &[(END, 3), (BEGIN, 1)])).data(psp(PSP, 0, 100, &[(END, 1)]));
                case = case.afresh(Kind::Psp, PSP);
            }
        }
        all.push(case.done());
    }
    all
}

/// Segments of 2,047, 2,048, 2,049 and 4,090 bytes with any marks, and several as long, with 2,048 bytes held and with
/// none. The most that one packet drops is 2,048 held and 4,090 of its own.
fn long_segments() -> Vec<NamedCapture> {
    let mut all = Vec::new();
    for (part, shapes) in long_shapes().chunks(7).enumerate() {
        for held in [0, LONGEST_FRAME] {
            let name = format!("unnumbered-long-{}-with-{held}-held", part + 1);
            let mut case = Case::new(&name).open(Kind::Psp, PSP);
            for (number, shape) in (65_530..=65_535).chain(0..).zip(shapes) {
                if held > 0 {
                    case = case.data(psp(PSP, 1, number, &[(BEGIN, held)]));
                }
                case = case.data(unnumbered(PSP, 1, number, shape));
            }
            all.push(case.data(psp(PSP, 1, 20, &[(END, 2), (WHOLE, 1)])).close(PSP).done());
        }
    }
    all
}

/// The four flows of a session, all in the midst of a frame: such a packet on one of them leaves the others alone.
fn between_flows() -> NamedCapture {
    let mut case = Case::new("unnumbered-between-flows").open(Kind::Psp, 7).open(Kind::Psp, PSP);
    for (round, flow) in (0..16u16).map(|round| (round, (round % 4) as u8)) {
        for other in 0..4u8 {
            let number = 16_380u16.wrapping_mul(u16::from(other)).wrapping_add(2 * round);
            case = case.data(psp(PSP, other, number, &[(BEGIN, 2 + usize::from(other))]));
        }
        case = case.data(unnumbered(PSP, flow, round, &[(END, 1), (WHOLE, 2), (BEGIN, 3)]));
        for other in 0..4u8 {
            let number = 16_380u16.wrapping_mul(u16::from(other)).wrapping_add(2 * round + 1);
            case = case.data(psp(PSP, other, number, &[(END, 5)]));
        }
    }
    case.close(PSP).done()
}

/// The same flow of five sessions, all in the midst of a frame, beside a D-MPT session whose packets have S set and clear.
fn between_sessions() -> NamedCapture {
    let mut case = Case::new("unnumbered-between-sessions").open(Kind::Dmpt, MPT);
    for id in 1..=5 {
        case = case.open(Kind::Psp, id);
    }
    for round in 0..10u16 {
        for id in 1..=5u32 {
            case = case.data(psp(id, 2, 1_000 * id as u16 + 2 * round, &[(BEGIN, 2 + id as usize)]));
        }
        let byte4 = if round % 2 == 0 { 0 } else { S };
        case = case.data(dmpt(MPT, byte4, round, &[(1, 1)]));
        case = case.data(unnumbered(1 + u32::from(round) % 5, 2, 9, &[(END, 1), (WHOLE, 2), (BEGIN, 3)]));
        case = case.data(unnumbered(1 + u32::from(round) % 5, 1, 9, &[(WHOLE, 2)]));
        for id in 1..=5u32 {
            case = case.data(psp(id, 2, 1_000 * id as u16 + 2 * round + 1, &[(END, 5)]));
        }
    }
    for id in 1..=5 {
        case = case.close(id);
    }
    case.done()
}

/// Packets with S clear that are refused for another cause: what is held stays, and goes on with the next packet.
fn refused() -> NamedCapture {
    let whole = [(WHOLE, 3)];
    let packets = [
        psp_with(PSP, 0x81, 1, 8, &whole),
        psp_with(PSP, 0x11, 1, 8, &whole),
        psp_with(PSP, 0x31, 1, 8, &whole),
        psp_with(PSP, 4, 1, 8, &whole),
        psp_with(PSP, 7, 1, 8, &whole),
        header(PSP, 1, 0, 8),
        psp_with(PSP, 1, 0x80, 8, &[]),
        psp_with(PSP, 1, 2, 8, &whole),
        unnumbered(PSP, 1, 8, &whole)[..HEADER_BYTES + 4].to_vec(),
        unnumbered(PSP, 1, 8, &whole)[..HEADER_BYTES + 1].to_vec(),
        unnumbered(PSP, 1, 8, &[(WHOLE, 0)]),
        unnumbered(PSP, 1, 8, &[(WHOLE, 3), (END, 3)]),
        unnumbered(PSP, 1, 8, &[(BEGIN, 3), (WHOLE, 3)]),
        unnumbered(PSP, 1, 8, &[(MIDDLE, 3), (WHOLE, 3)]),
        unnumbered(PSP, 1, 8, &whole)[..HEADER_BYTES - 1].to_vec(),
        unnumbered(PSP, 1, 8, &[(WHOLE, LONGEST_PACKET - HEADER_BYTES - 1)]),
        unnumbered(0, 1, 8, &whole),
        unnumbered(STRANGER, 1, 8, &whole),
    ];
    let mut case = Case::new("unnumbered-refused").open(Kind::Psp, PSP);
    for packet in packets.iter() {
        case = case.data(packet.clone());
    }
    case = case.data(psp(PSP, 1, 65_530, &[(BEGIN, 9)]));
    for (step, packet) in (0..).zip(packets) {
        case = case.data(packet).data(psp(PSP, 1, 65_531u16.wrapping_add(step), &[(MIDDLE, 2)]));
    }
    case.data(psp(PSP, 1, 13, &[(END, 2)])).done()
}

/// Every set of defects of a packet with S clear, each with bytes held: which refusal comes first.
fn orders() -> NamedCapture {
    let mut case = Case::new("unnumbered-orders").open(Kind::Psp, PSP);
    for defects in 0..64u32 {
        let has = |bit: u32| defects & (1 << bit) != 0;
        let session = if has(0) { [0, STRANGER][defects.count_ones() as usize % 2] } else { PSP };
        let byte4 = if has(1) { [0x80, 0x10, 0x20][defects as usize % 3] } else { 0 } | if has(2) { 5 } else { 1 };
        let count = if has(3) { 0 } else { 2 };
        let second = if has(4) { END } else { WHOLE };
        let mut packet = psp_with(session, byte4, count, 99, &[(END, 2), (second, 1)]);
        if has(5) {
            packet.push(0);
        }
        case = case.data(psp(PSP, 1, 99, &[(BEGIN, 2)])).data(packet).data(psp(PSP, 1, 100, &[(END, 1)]));
        case = case.afresh(Kind::Psp, PSP);
    }
    case.done()
}

/// Every value of byte 4 with S clear: V, H, X and the flow ID; with bytes held on all flows.
fn every_byte_4() -> NamedCapture {
    let mut case = Case::new("unnumbered-every-byte-4").open(Kind::Psp, PSP);
    let mut number = 65_500u16;
    for byte4 in (0..=255u8).filter(|byte4| byte4 & S == 0) {
        for flow in 0..4 {
            case = case.data(psp(PSP, flow, number, &[(BEGIN, 1 + usize::from(flow))]));
        }
        case = case.data(psp_with(PSP, byte4, 3, u16::from(byte4), &[(END, 3), (WHOLE, 2), (BEGIN, 1)]));
        number = number.wrapping_add(1);
    }
    case.close(PSP).done()
}

/// Every value of byte 5 with S clear and one segment in the packet, a whole one and a beginning in turn.
fn every_byte_5() -> NamedCapture {
    let mut case = Case::new("unnumbered-every-byte-5").open(Kind::Psp, PSP).data(psp(PSP, 2, 7, &[(BEGIN, 4)]));
    for byte5 in 0..=255u8 {
        let marks = if byte5 < 128 { WHOLE } else { BEGIN };
        case = case.data(psp_with(PSP, 2, byte5, u16::from(byte5), &[(marks, 3)]));
    }
    case.data(psp(PSP, 2, 8, &[(END, 4)])).done()
}

/// Packets with S clear of 0 to 14 bytes and of 4,099 to 4,102.
fn sizes() -> NamedCapture {
    let mut case = Case::new("unnumbered-sizes").open(Kind::Psp, PSP).data(psp(PSP, 0, 0, &[(BEGIN, 6)]));
    let sound = unnumbered(PSP, 0, 1, &[(WHOLE, 4)]);
    for length in 0..=sound.len() {
        case = case.data(sound[..length].to_vec());
    }
    for length in LONGEST_PACKET - 1..=LONGEST_PACKET + 2 {
        let bodies = length - HEADER_BYTES - 4;
        case = case.data(unnumbered(PSP, 0, 1, &[(WHOLE, 2_048), (WHOLE, bodies - 2_048)]));
    }
    case.data(psp(PSP, 0, 1, &[(END, 6)])).done()
}

#[cfg(test)]
mod tests {
    use super::*;
    use crate::faults::Faults;
    use crate::listing::{run, Detail};
    use std::collections::BTreeSet;

    fn text(capture: &NamedCapture, detail: Detail) -> String {
        run(&capture.file, detail, Faults::NONE).text
    }

    /// Code, frames, bytes, dropped and gap of each data entry.
    fn answers(capture: &NamedCapture) -> Vec<[u32; 5]> {
        let line = |line: &str| -> Vec<u32> { line.split(' ').skip(2).map(|word| word.parse().unwrap()).collect() };
        let text = text(capture, Detail::List);
        let data = text.lines().filter(|line| line.contains(" data "));
        data.map(|words| line(words).try_into().unwrap()).collect()
    }

    /// Worked out by hand from document 02, W2.
    #[test]
    fn a_packet_without_a_number_breaks_off_the_frame_in_hand() {
        let expected = [[0, 0, 0, 0, 0], [0, 1, 6, 4, 0], [0, 1, 2, 3, 0]];
        assert_eq!(answers(&first()), expected);
        let trace = text(&first(), Detail::Trace);
        assert_eq!(trace.lines().filter(|line| *line == " flow 0 1 10 0 -").count(), 1);
    }

    /// Whatever the field has: 3 held and 2 of the first segment dropped, the whole one delivered, no gap; then the
    /// expected number, also without one.
    #[test]
    fn the_number_field_has_no_meaning() {
        for three in answers(&fields()).chunks(3) {
            assert_eq!(three, [[0, 0, 0, 0, 0], [0, 1, 1, 5, 0], [0, 0, 0, 1, 0]]);
        }
    }

    #[test]
    fn a_fresh_flow_stays_fresh() {
        for answer in answers(&fresh()) {
            assert!([[0, 1, 3, 6, 0], [0, 0, 0, 1, 0], [0, 1, 3, 0, 0]].contains(&answer), "{answer:?}");
        }
    }

    /// 2,048 held and 4,090 dropped are the most; 2,048 bytes are delivered and 2,049 are not.
    #[test]
    fn long_segments_are_delivered_up_to_2048_bytes() {
        let all: Vec<[u32; 5]> = long_segments().iter().flat_map(answers).collect();
        let times = |answer: [u32; 5]| all.iter().filter(|seen| **seen == answer).count();
        assert_eq!((times([0, 1, 2_047, 0, 0]), times([0, 1, 2_047, 2_048, 0])), (1, 1));
        assert_eq!((times([0, 1, 2_048, 0, 0]), times([0, 1, 2_048, 2_048, 0])), (1, 1));
        assert_eq!((times([0, 0, 0, 2_049, 0]), times([0, 0, 0, 4_097, 0])), (4, 4));
        assert_eq!((times([0, 0, 0, 4_090, 0]), times([0, 0, 0, 6_138, 0])), (4, 4));
        assert_eq!(all.iter().map(|answer| answer[3]).max(), Some(6_138));
    }

    #[test]
    fn refused_packets_leave_what_is_held() {
        let seen: BTreeSet<u32> = answers(&refused()).iter().map(|answer| answer[0]).collect();
        assert_eq!(seen, [0, 2, 3, 4, 5, 6, 7, 9, 10, 11].into());
        assert_eq!(answers(&refused()).last(), Some(&[0, 1, 9 + 2 * 18 + 2, 0, 0]));
        let codes: BTreeSet<u32> = answers(&orders()).iter().map(|answer| answer[0]).collect();
        assert_eq!(codes, [0, 4, 5, 6, 7, 9, 10, 11].into());
    }
}

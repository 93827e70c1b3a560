//! Packets for the packet check without a table, each together with the kind and the transport that it is asked as.
//!
//! Document 01, 'Refusal numbers', and document 02, W1: the card's host program gives a kind, a transport and bytes, and
//! is answered by a number. `tests/calls` puts these questions to the proved check and to this program's. Directed packets
//! do not depend on a seed; they are those of the directed captures and, here, each place of the longest tables and
//! packets, by either transport. Then dice make sound packets of both kinds, and damage most of them.

use std::collections::BTreeSet;

use crate::calls::Arrival;
use crate::craft::{
    carried, dmpt, header, over_ip, over_udp, psp, psp_with, without_number, BEGIN, END, PLAIN_LEAD, S, WHOLE,
    WRONG_LEADS,
};
use crate::dice::Dice;
use crate::directed;
use crate::generate::{carry, damage_packet, flip_bits};
use crate::packet::{Kind, Packet, Transport, HEADER_BYTES, LONGEST_PACKET, MPEG_BYTES, MPEG_SYNC, UDP_BYTES};
use crate::raw::{DMPT, PSP};
use crate::transports;

const MOST_SEGMENTS: usize = 127;
const MOST_MPEG_PACKETS: usize = 21;
const SESSION: u32 = 0x0000_0101;

/// Kinds that there are not; 257, 65,537, 65,538 and 2^31 + 1 would be 1 or 2 to who reads only some of the bits.
pub const OTHER_KINDS: [u32; 9] = [0, 3, 255, 257, 65_537, 65_538, 1 << 31, (1 << 31) + 1, u32::MAX];
/// Transports that there are not: the same, and the kinds that packets have in a capture.
pub const OTHER_TRANSPORTS: [u32; 12] =
    [0, 3, 4, 5, 255, 257, 258, 65_537, 65_538, (1 << 31) + 1, (1 << 31) + 2, u32::MAX];
/// One packet in so many is asked as one of them.
const PACKETS_PER_OTHER: usize = 6;

/// A question to the packet check.
#[derive(Clone, Debug, PartialEq, Eq)]
pub struct Question {
    pub kind: u32,
    pub arrival: Arrival,
}

/// All directed questions; the first ones show every answer.
pub fn directed() -> impl Iterator<Item = Question> {
    let first = one_of_each().into_iter().flat_map(asked_in_every_way);
    first.chain(all().into_iter().enumerate().flat_map(|(place, packet)| asked_in_turn(place, packet)))
}

/// The questions of that index.
pub fn random(seed: u64, index: u64) -> Vec<Question> {
    asked_in_turn(index as usize, random_packet(seed, index))
}

/// As every kind and by every transport, those that there are not included, in every combination.
fn asked_in_every_way(packet: Packet) -> Vec<Question> {
    let mut all = Vec::new();
    for kind in [PSP, DMPT].iter().chain(&OTHER_KINDS) {
        for transport in Transport::ALL.map(Transport::number).iter().chain(&OTHER_TRANSPORTS) {
            let arrival = Arrival { transport: *transport, bytes: packet.bytes.clone() };
            all.push(Question { kind: *kind, arrival });
        }
    }
    all
}

/// As PSP and as D-MPT for every packet; for some also as another kind, by another transport, or both.
fn asked_in_turn(place: usize, packet: Packet) -> Vec<Question> {
    let arrival = Arrival::from(packet);
    let mut all: Vec<Question> = [PSP, DMPT].map(|kind| Question { kind, arrival: arrival.clone() }).into();
    if place.is_multiple_of(PACKETS_PER_OTHER) {
        let turn = place / PACKETS_PER_OTHER;
        let other_kind = OTHER_KINDS[turn % OTHER_KINDS.len()];
        let other_transport = OTHER_TRANSPORTS[turn % OTHER_TRANSPORTS.len()];
        let (kind, transport) = match turn % 3 {
            0 => (other_kind, arrival.transport),
            1 => ([PSP, DMPT][turn % 2], other_transport),
            _ => (other_kind, other_transport),
        };
        all.push(Question { kind, arrival: Arrival { transport, ..arrival } });
    }
    all
}

/// A packet for each answer but 24, which comes before all of them; by either transport.
pub fn one_of_each() -> Vec<Packet> {
    let from_session = one_of_each_from_session();
    let sound = &from_session[0];
    let mut all: Vec<Packet> = from_session.iter().cloned().map(over_ip).collect();
    all.extend(from_session.iter().map(|bytes| over_udp(PLAIN_LEAD, bytes)));
    all.extend(WRONG_LEADS[..4].iter().map(|lead| over_udp(*lead, sound)));
    all
}

fn one_of_each_from_session() -> Vec<Vec<u8>> {
    let sound = psp(SESSION, 1, 7, &[(END, 3), (BEGIN, 2)]);
    vec![
        sound.clone(),
        dmpt(SESSION, S, 7, &[(1, 1)]),
        Vec::new(),
        sound[..HEADER_BYTES - 1].to_vec(),
        psp(SESSION, 1, 7, &[(WHOLE, LONGEST_PACKET + 1 - HEADER_BYTES - 2)]),
        psp(0, 1, 7, &[(WHOLE, 3)]),
        psp_with(SESSION, 0x80 | S | 1, 1, 7, &[(WHOLE, 3)]),
        psp(SESSION, 7, 7, &[(WHOLE, 3)]),
        header(SESSION, S, 0, 7),
        sound[..sound.len() - 1].to_vec(),
        psp(SESSION, 0, 7, &[(WHOLE, 3), (END, 2)]),
    ]
}

/// The same with S clear, as far as a packet has it: a number is all that it lacks then.
fn one_of_each_without_number() -> Vec<Vec<u8>> {
    one_of_each_from_session().into_iter().filter(|packet| packet.len() >= HEADER_BYTES).map(without_number).collect()
}

/// All directed packets, each once.
pub fn all() -> Vec<Packet> {
    let mut all = one_of_each();
    all.extend(transports::packets());
    all.extend(lengths_over_udp());
    for (turn, bytes) in from_session().iter().enumerate() {
        all.extend(Transport::ALL.map(|transport| carried(transport, turn, bytes)));
    }
    let mut seen = BTreeSet::new();
    all.retain(|packet| seen.insert(packet.clone()));
    all
}

/// Directed packets from their session ID on.
fn from_session() -> Vec<Vec<u8>> {
    let mut all: Vec<Vec<u8>> = directed::packets().into_iter().map(|packet| packet.bytes).collect();
    all.extend(one_of_each_without_number());
    all.extend(sessions());
    all.extend(lengths());
    for family in [counts(), every_table_cut(), every_segment_emptied(), every_mark_missing()] {
        all.extend(family.iter().cloned().map(without_number));
        all.extend(family);
    }
    all.extend(every_length_off_by_one());
    all.extend(mpeg_lengths());
    all.extend(every_sync_byte());
    all
}

/// Session ID 0, and each ID that has a single bit set.
fn sessions() -> Vec<Vec<u8>> {
    let ids = [0].into_iter().chain((0..32).map(|bit| 1 << bit));
    ids.flat_map(|id| [psp(id, 0, 1, &[(WHOLE, 2)]), dmpt(id, 0, 1, &[(1, 1)])]).collect()
}

/// Lengths on either side of 8 and 4,100, and such as are small in 16 bits; at last with a table that agrees.
fn lengths() -> Vec<Vec<u8>> {
    let mut all = Vec::new();
    let around_longest = LONGEST_PACKET - 2..=LONGEST_PACKET + 2;
    for length in (0..=HEADER_BYTES + 3).chain(around_longest.clone()).chain([65_535, 65_536, 65_544, 65_556, 69_636]) {
        for filling in [0x00, MPEG_SYNC, 0xFF] {
            all.push(vec![filling; length]);
        }
        let mut padded = psp(SESSION, 1, 2, &[(WHOLE, 6), (BEGIN, 2)]);
        padded.resize(length, 0);
        all.push(padded);
    }
    for length in around_longest {
        for count in [1, 2, MOST_SEGMENTS] {
            all.push(psp(SESSION, 0, 3, &filling_segments(count, length)));
        }
    }
    all
}

/// Lengths on either side of 12 and 4,104, which are those over UDP, and such as are small in 16 bits.
fn lengths_over_udp() -> Vec<Packet> {
    let longest = LONGEST_PACKET + UDP_BYTES;
    let around = (0..=HEADER_BYTES + UDP_BYTES + 3).chain(LONGEST_PACKET - 2..=longest + 2);
    let mut all = Vec::new();
    for length in around.chain([65_535, 65_536, 65_548, 65_560, 69_640]) {
        for start in [[0x00; UDP_BYTES], [0x03; UDP_BYTES], PLAIN_LEAD, [0xFF; UDP_BYTES]] {
            let mut bytes = start.to_vec();
            bytes.resize(length, start[3]);
            all.push(Packet { transport: Transport::Udp, bytes });
        }
    }
    all
}

/// That many segments that make a packet of that length: all but the last have the same length.
fn filling_segments(count: usize, length: usize) -> Vec<(u16, usize)> {
    let room = length - HEADER_BYTES - 2 * count;
    let share = room / count;
    let mut segments = vec![(WHOLE, share); count];
    segments[count - 1].1 = room - share * (count - 1);
    segments
}

/// Every segment count, B missing on the first and E on the last, as they may be; a byte less, a byte more.
fn counts() -> Vec<Vec<u8>> {
    let mut all = Vec::new();
    for count in 1..=MOST_SEGMENTS {
        let mut segments = vec![(WHOLE, 1 + count % 3); count];
        segments[0].0 &= END;
        segments[count - 1].0 &= BEGIN;
        let sound = psp(SESSION, (count % 4) as u8, 4, &segments);
        let longer = [sound.as_slice(), &[0]].concat();
        all.extend([sound[..sound.len() - 1].to_vec(), longer, sound]);
    }
    all
}

/// The longest table, all of its segments whole.
fn longest_table() -> Vec<(u16, usize)> {
    vec![(WHOLE, 2); MOST_SEGMENTS]
}

/// A packet that ends in each place of the longest table, and just after it.
fn every_table_cut() -> Vec<Vec<u8>> {
    let sound = psp(SESSION, 0, 5, &longest_table());
    let table_end = HEADER_BYTES + 2 * MOST_SEGMENTS;
    (HEADER_BYTES..=table_end + 2).map(|length| sound[..length].to_vec()).collect()
}

/// A length of the longest table one too long or too short; after each, the same made up for by its neighbour.
fn every_length_off_by_one() -> Vec<Vec<u8>> {
    let sound = psp(SESSION, 0, 6, &longest_table());
    let low_byte = |place: usize| HEADER_BYTES + 2 * (place % MOST_SEGMENTS) + 1;
    let mut all = Vec::new();
    for place in 0..MOST_SEGMENTS {
        for (wrong, neighbour) in [(1, 3), (3, 1)] {
            let mut packet = sound.clone();
            packet[low_byte(place)] = wrong;
            all.push(packet.clone());
            packet[low_byte(place + 1)] = neighbour;
            all.push(packet);
        }
    }
    all
}

/// A segment of zero bytes in each place of the longest table.
fn every_segment_emptied() -> Vec<Vec<u8>> {
    let emptied = |place: usize| {
        let mut segments = longest_table();
        segments[place].1 = 0;
        psp(SESSION, 0, 7, &segments)
    };
    (0..MOST_SEGMENTS).map(emptied).collect()
}

/// B, then E, missing in each place of the longest table: the first segment may lack B, the last may lack E.
fn every_mark_missing() -> Vec<Vec<u8>> {
    let marked = |place: usize, marks: u16| {
        let mut segments = longest_table();
        segments[place].0 = marks;
        psp(SESSION, 0, 8, &segments)
    };
    (0..MOST_SEGMENTS).flat_map(|place| [marked(place, END), marked(place, BEGIN)]).collect()
}

/// D-MPT packets of 0 to 22 MPEG packets, a byte less and a byte more.
fn mpeg_lengths() -> Vec<Vec<u8>> {
    let mut all = Vec::new();
    for count in 0..=MOST_MPEG_PACKETS + 1 {
        let sound = dmpt(SESSION, S, 9, &vec![(1, 1); count]);
        let longer = [sound.as_slice(), &[MPEG_SYNC]].concat();
        all.extend([sound[..sound.len() - 1].to_vec(), longer, sound]);
    }
    all
}

/// Each bit of the first byte of the only MPEG packet flipped, then one bit in each place of the longest D-MPT packet.
fn every_sync_byte() -> Vec<Vec<u8>> {
    let flipped = |count: usize, place: usize, bit: usize| {
        let mut packet = dmpt(SESSION, 0, 10, &vec![(0x1F, 0xFF); count]);
        packet[HEADER_BYTES + MPEG_BYTES * place] ^= 1 << bit;
        packet
    };
    let only = (0..8).map(|bit| flipped(1, 0, bit));
    only.chain((0..MOST_MPEG_PACKETS).map(|place| flipped(MOST_MPEG_PACKETS, place, place % 8))).collect()
}

/// The packet of that index, by either transport: sound, damaged anywhere, or damaged where its kind has most to lose.
fn random_packet(seed: u64, index: u64) -> Packet {
    let mut dice = Dice::for_index(seed, index);
    let kind = if dice.percent(60) { Kind::Psp } else { Kind::Dmpt };
    let bytes = sound_packet(&mut dice, kind);
    let mut packet = carry(&mut dice, 50, &bytes);
    match dice.below(8) {
        0..=2 => {}
        3..=5 => damage_packet(&mut dice, &mut packet),
        _ => damage_layout(&mut dice, kind, &mut packet.bytes[packet.transport.lead()..]),
    }
    packet
}

/// A packet, from its session ID on, that passes the check as that kind. X and the reserved bit are set now and then.
fn sound_packet(dice: &mut Dice, kind: Kind) -> Vec<u8> {
    let mut packet = match kind {
        Kind::Psp => sound_psp(dice),
        Kind::Dmpt => sound_dmpt(dice),
    };
    if dice.percent(10) {
        packet[4] |= 0x08;
    }
    if dice.percent(10) {
        packet[5] |= 0x80;
    }
    packet
}

fn some_session(dice: &mut Dice) -> u32 {
    let any = (dice.next() as u32).max(1);
    let bit = 1 << dice.below(32);
    dice.pick(&[any, any, any, bit])
}

/// Up to 127 segments, short ones or such as share the room; now and then the last takes all that is left. S is set or
/// clear.
fn sound_psp(dice: &mut Dice) -> Vec<u8> {
    let most = dice.pick(&[1, 3, 8, MOST_SEGMENTS]);
    let count = dice.between(1, most);
    let room = LONGEST_PACKET - HEADER_BYTES - 2 * count;
    let longest = dice.pick(&[3, 3, 40, 40, room]).min(room / count);
    let mut segments: Vec<(u16, usize)> = (0..count).map(|_| (WHOLE, dice.between(1, longest))).collect();
    if dice.percent(4) {
        let before: usize = segments[..count - 1].iter().map(|(_, length)| length).sum();
        segments[count - 1].1 = room - before;
    }
    segments[0].0 &= dice.pick(&[WHOLE, END]);
    segments[count - 1].0 &= dice.pick(&[WHOLE, BEGIN]);
    let byte4 = dice.pick(&[0, 0, 0, 1, 2, 3]) | dice.pick(&[S, S, S, 0]);
    let number = dice.next() as u16;
    psp_with(some_session(dice), byte4, count as u8, number, &segments)
}

/// Up to 21 MPEG packets; any byte 5, S set or clear.
fn sound_dmpt(dice: &mut Dice) -> Vec<u8> {
    let most = dice.pick(&[1, 1, 3, MOST_MPEG_PACKETS]);
    let pids: Vec<(u8, u8)> = (0..dice.between(1, most)).map(|_| (dice.byte(), dice.byte())).collect();
    let number = dice.next() as u16;
    let mut packet = dmpt(some_session(dice), dice.pick(&[S, S, 0]), number, &pids);
    packet[5] = dice.byte();
    packet
}

/// Flips bits of the segment table, or of the first byte of some MPEG packet.
fn damage_layout(dice: &mut Dice, kind: Kind, packet: &mut [u8]) {
    let (low, high) = match kind {
        Kind::Psp => (HEADER_BYTES, HEADER_BYTES + 2 * usize::from(packet[5] & 0x7F)),
        Kind::Dmpt => {
            let start = HEADER_BYTES + MPEG_BYTES * dice.below((packet.len() - HEADER_BYTES) / MPEG_BYTES);
            (start, start + 1)
        }
    };
    flip_bits(dice, packet, low, high);
}

#[cfg(test)]
mod tests {
    use super::*;
    use crate::faults::Faults;
    use crate::packet;

    fn answer(kind: u32, arrival: &Arrival) -> u8 {
        packet::check(u64::from(kind), u64::from(arrival.transport), &arrival.bytes, Faults::NONE)
    }

    #[test]
    fn the_first_questions_show_every_answer() {
        let first = one_of_each().len() * (2 + OTHER_KINDS.len()) * (2 + OTHER_TRANSPORTS.len());
        let answers = directed().take(first).map(|question| answer(question.kind, &question.arrival));
        assert_eq!(answers.collect::<BTreeSet<_>>(), [0, 2, 3, 4, 6, 7, 9, 10, 11, 15, 24].into());
    }

    /// Document 02, W2: as PSP they have the answers of those with S set.
    #[test]
    fn packets_without_a_number_have_the_same_answers() {
        let with_number = one_of_each_from_session().into_iter().filter(|packet| packet.len() >= HEADER_BYTES);
        for (with, without) in with_number.zip(one_of_each_without_number()) {
            assert_eq!(answer(PSP, &over_ip(with).into()), answer(PSP, &over_ip(without).into()));
        }
    }

    #[test]
    fn packets_made_sound_pass_the_check() {
        let mut dice = Dice::new(5);
        for kind in [Kind::Psp, Kind::Dmpt].into_iter().cycle().take(2_000) {
            let bytes = sound_packet(&mut dice, kind);
            let packet = carry(&mut dice, 50, &bytes);
            assert_eq!(answer(u32::from(kind.number()), &packet.into()), 0);
        }
    }

    #[test]
    fn the_longest_tables_have_the_answers_that_they_are_there_for() {
        let answers = |packets: Vec<Vec<u8>>| -> Vec<u8> {
            packets.into_iter().map(|bytes| answer(PSP, &over_ip(bytes).into())).collect()
        };
        assert!(answers(every_table_cut()).iter().all(|answer| *answer == 10));
        assert!(answers(every_length_off_by_one()).chunks(2).all(|pair| pair == [10, 0]));
        assert!(answers(every_segment_emptied()).iter().all(|answer| *answer == 11));
        let marks = answers(every_mark_missing());
        assert_eq!((marks[0], marks[marks.len() - 1]), (0, 0));
        assert!(marks[1..marks.len() - 1].iter().all(|answer| *answer == 11));
    }

    #[test]
    fn a_seed_makes_the_same_packets_again() {
        assert_eq!(random_packet(3, 4), random_packet(3, 4));
        assert_ne!(random_packet(3, 4), random_packet(4, 4));
    }
}

//! Directed captures: every boundary of document 01, each approached from both sides.
//!
//! They do not depend on a seed. Cases that do not disturb one another share a capture, so that few programs have to be
//! started; each function below is one theme, and each capture's name tells what it is about. Here packets come over IP;
//! `unnumbered` has those of document 02, W2; `transports` has those of W1, and all of these once more, over UDP and by both
//! transports.

use crate::capture::{Capture, Entry, LONGEST_FILE, MOST_ENTRIES};
use crate::card::LONGEST_FRAME;
use crate::craft::{
    dmpt, header, over_ip, over_udp, pattern, psp, psp_with, Lead, BEGIN, END, MIDDLE, PLAIN_LEAD, S, WHOLE,
};
use crate::faults::Faults;
use crate::packet::{Kind, Packet, HEADER_BYTES, LONGEST_PACKET, MPEG_BYTES};
use crate::transports;
use crate::unnumbered;

/// A capture file with a name that tells its kind.
#[derive(Clone, Debug)]
pub struct NamedCapture {
    pub name: String,
    pub file: Vec<u8>,
}

/// The sessions that directed cases use.
pub const PSP: u32 = 0x0000_0101;
pub const MPT: u32 = 0xFFFF_FFFE;
pub const STRANGER: u32 = 0x0101_0000;

/// A capture under construction.
pub struct Case {
    name: String,
    entries: Vec<Entry>,
}

impl Case {
    pub fn new(name: &str) -> Case {
        Case { name: name.to_string(), entries: Vec::new() }
    }

    pub fn open(mut self, kind: Kind, session: u32) -> Case {
        self.entries.push(Entry::Open(kind, session));
        self
    }

    pub fn close(mut self, session: u32) -> Case {
        self.entries.push(Entry::Close(session));
        self
    }

    pub fn packet(mut self, packet: Packet) -> Case {
        self.entries.push(Entry::Data(packet));
        self
    }

    /// A packet over IP.
    pub fn data(self, packet: Vec<u8>) -> Case {
        self.packet(over_ip(packet))
    }

    /// The same packet over UDP, as a host sends it.
    pub fn udp(self, packet: Vec<u8>) -> Case {
        self.led(PLAIN_LEAD, packet)
    }

    /// The same packet over UDP, with any four bytes before it.
    pub fn led(self, lead: Lead, packet: Vec<u8>) -> Case {
        self.packet(over_udp(lead, &packet))
    }

    /// Closes the session and opens it again, for a fresh start.
    pub fn afresh(self, kind: Kind, session: u32) -> Case {
        self.close(session).open(kind, session)
    }

    pub fn done(self) -> NamedCapture {
        NamedCapture { name: format!("directed-{}", self.name), file: Capture { entries: self.entries }.write() }
    }
}

/// All directed captures.
pub fn captures() -> Vec<NamedCapture> {
    let mut all = traffic();
    all.extend(transports::captures());
    all.extend(files());
    all.extend(transports::once_more(traffic()));
    all
}

/// All that are about packets and sessions, and not about files.
fn traffic() -> Vec<NamedCapture> {
    let mut all = vec![paper()];
    all.extend(joined_lengths());
    all.extend([gaps_psp(), gaps_dmpt(), refused_numbers()]);
    all.extend(layouts());
    all.extend([rows(), same_flow_of_sessions(), flows_apart(), closes(), reopened(), strangers()]);
    all.extend(unnumbered::captures());
    all
}

/// Those that are about a packet's layout more than about tables, numbers and files.
fn layouts() -> Vec<NamedCapture> {
    let mut all = vec![sizes_psp(), sizes_dmpt()];
    all.extend([marks(), empty_segments(), segment_counts(), long_sums(), cut_tables()]);
    all.extend([every_byte_4_psp(), every_byte_4_dmpt(), byte_5_dmpt(), every_byte_5_psp()]);
    all.extend([null_pids(), sync_bytes(), unsequenced_dmpt()]);
    all.extend([orders_psp(), orders_dmpt(), orders_other()]);
    all
}

/// The packets of those captures, for the packet check without a table; all came over IP.
pub fn packets() -> Vec<Packet> {
    packets_of([vec![paper()], layouts()].concat())
}

/// The packets of captures that are sound files.
pub fn packets_of(captures: Vec<NamedCapture>) -> Vec<Packet> {
    let entries = captures.iter().flat_map(|NamedCapture { name, file }| {
        Capture::read(file, Faults::NONE).unwrap_or_else(|_| panic!("{name} is a sound file")).entries
    });
    let packet = |entry| match entry {
        Entry::Data(packet) => Some(packet),
        Entry::Open(..) | Entry::Close(_) => None,
    };
    entries.filter_map(packet).collect()
}

/// The capture of document 01, 'Capture file and listing', by its first packets A and B.
fn paper() -> NamedCapture {
    let a = [header(PSP, 0x41, 2, 0xFFFF), vec![0xC0, 6, 0x80, 2], (0x11..=0x16).collect(), vec![0x21, 0x22]].concat();
    let b = [header(PSP, 0x41, 1, 0), vec![0x40, 7], (0x23..=0x29).collect()].concat();
    Case::new("paper").open(Kind::Psp, PSP).data(a).data(b.clone()).data(b).close(PSP).done()
}

/// Joined lengths of 2,047, 2,048 and 2,049, by one segment and by joining, with and without E. After each, an ending
/// segment of 5 shows what was held.
fn joined_lengths() -> Vec<NamedCapture> {
    let around = [LONGEST_FRAME - 1, LONGEST_FRAME, LONGEST_FRAME + 1];
    let mut one = Case::new("joined-by-one-segment").open(Kind::Psp, PSP);
    let mut number = 65_530;
    let mut next = || {
        number = (number + 1) % 65_536;
        number as u16
    };
    for length in around {
        for marks in [WHOLE, BEGIN] {
            one = one.data(psp(PSP, 0, next(), &[(marks, length)])).data(psp(PSP, 0, next(), &[(END, 5)]));
        }
    }
    one = one.data(psp(PSP, 0, next(), &[(WHOLE, 4_090)])).data(psp(PSP, 0, next(), &[(BEGIN, 4_090)]));
    one = one.data(psp(PSP, 0, next(), &[(WHOLE, 2_049), (WHOLE, 3), (BEGIN, 1_900)]));
    one = one.data(psp(PSP, 0, next(), &[(END, 149), (BEGIN, 2_049)])).data(psp(PSP, 0, next(), &[(END, 4)]));
    let mut all = vec![one.done()];
    for (name, held) in [("1", 1), ("1024", 1_024), ("2046", 2_046)] {
        let mut case = Case::new(&format!("joined-to-{name}-held")).open(Kind::Psp, PSP);
        for length in around {
            for marks in [END, MIDDLE] {
                case = case.data(psp(PSP, 2, next(), &[(BEGIN, held)]));
                case = case.data(psp(PSP, 2, next(), &[(marks, length - held)]));
                case = case.data(psp(PSP, 2, next(), &[(END, 5), (WHOLE, 1)]));
            }
        }
        all.push(case.done());
    }
    let mut steps = Case::new("joined-byte-by-byte").open(Kind::Psp, PSP);
    steps = steps.data(psp(PSP, 3, next(), &[(BEGIN, 2_045)]));
    for _ in 0..6 {
        steps = steps.data(psp(PSP, 3, next(), &[(MIDDLE, 1)]));
    }
    steps = steps.data(psp(PSP, 3, next(), &[(BEGIN, 2_048)])).data(psp(PSP, 3, next(), &[(END, 1)]));
    steps = steps.data(psp(PSP, 3, next(), &[(BEGIN, 2_048)])).data(psp(PSP, 3, next(), &[(WHOLE, 1)]));
    steps = steps.data(psp(PSP, 3, next(), &[(BEGIN, 2_048)])).data(psp(PSP, 3, next(), &[(END, 4_000)]));
    steps = steps.data(psp(PSP, 3, next(), &[(BEGIN, 2_048)])).data(psp(PSP, 3, next(), &[(MIDDLE, 4_000)]));
    all.push(steps.data(psp(PSP, 3, next(), &[(END, 4)])).close(PSP).done());
    all
}

const EXPECTED: [u16; 7] = [0, 1, 2, 32_767, 32_768, 32_769, 65_535];
const AHEAD: [u16; 10] = [0, 1, 2, 32_766, 32_767, 32_768, 32_769, 40_000, 65_534, 65_535];

/// Every distance of interest from every expected number of interest, with bytes held.
fn gaps_psp() -> NamedCapture {
    let mut case = Case::new("gaps-psp").open(Kind::Psp, PSP);
    for expected in EXPECTED {
        for ahead in AHEAD {
            let number = expected.wrapping_add(ahead);
            case = case.data(psp(PSP, 1, expected.wrapping_sub(1), &[(BEGIN, 3)]));
            case = case.data(psp(PSP, 1, number, &[(END, 2)]));
            case = case.data(psp(PSP, 1, number.wrapping_add(1), &[(END, 1), (BEGIN, 2)]));
            case = case.afresh(Kind::Psp, PSP);
        }
    }
    case.done()
}

fn gaps_dmpt() -> NamedCapture {
    let mut case = Case::new("gaps-dmpt").open(Kind::Dmpt, MPT);
    for expected in EXPECTED {
        for ahead in AHEAD {
            let number = expected.wrapping_add(ahead);
            case = case.data(dmpt(MPT, S, expected.wrapping_sub(1), &[(0x01, 0x02)]));
            case = case.data(dmpt(MPT, S, number, &[(0x01, 0x03)])).afresh(Kind::Dmpt, MPT);
        }
    }
    case.done()
}

/// Refused packets with numbers far ahead: what is expected and held stays.
fn refused_numbers() -> NamedCapture {
    let far = 10_000;
    let mut case = Case::new("refused-numbers").open(Kind::Psp, PSP).open(Kind::Dmpt, MPT);
    let refused = [
        psp_with(PSP, S | 0x81, 1, far, &[(WHOLE, 3)]),
        psp_with(PSP, S | 0x11, 1, far, &[(WHOLE, 3)]),
        psp_with(PSP, S | 5, 1, far, &[(WHOLE, 3)]),
        psp_with(PSP, S | 1, 0, far, &[]),
        psp_with(PSP, S | 1, 2, far, &[(WHOLE, 3)]),
        psp(PSP, 1, far, &[(WHOLE, 3), (END, 3)]),
        psp(PSP, 1, 0u16.wrapping_sub(far), &[(WHOLE, 3)]),
        psp(STRANGER, 1, far, &[(WHOLE, 3)]),
    ];
    case = case.data(psp(PSP, 1, far, &[(WHOLE, 3), (END, 3)])).data(psp(PSP, 1, 65_534, &[(BEGIN, 9)]));
    for (step, packet) in (0..).zip(refused) {
        case = case.data(packet).data(psp(PSP, 1, 65_535u16.wrapping_add(step), &[(MIDDLE, 2)]));
    }
    case = case.data(psp(PSP, 1, 7, &[(END, 2)]));
    case = case.data(dmpt(MPT, S, 7, &[(1, 1)])).data(header(MPT, S, 0, far)).data(dmpt(MPT, S | 1, far, &[(1, 1)]));
    case.data(dmpt(MPT, S, 8, &[(1, 1)])).done()
}

/// Packets of 0 to 12 bytes and of 4,099 to 4,102, and far longer ones.
fn sizes_psp() -> NamedCapture {
    let mut case = Case::new("sizes-psp").open(Kind::Psp, PSP);
    let sound = psp(PSP, 0, 1, &[(WHOLE, 4)]);
    for length in 0..=sound.len() {
        case = case.data(sound[..length].to_vec());
    }
    for (number, length) in (2..).zip(LONGEST_PACKET - 1..=LONGEST_PACKET + 2) {
        let bodies = length - HEADER_BYTES - 4;
        case = case.data(psp(PSP, 0, number, &[(WHOLE, 2_048), (WHOLE, bodies - 2_048)]));
    }
    for (number, length) in (7..).zip([LONGEST_PACKET, LONGEST_PACKET + 1]) {
        let bodies = length - HEADER_BYTES - 6;
        case = case.data(psp(PSP, 0, number, &[(BEGIN | END, 2_048), (WHOLE, 2_000), (BEGIN, bodies - 4_048)]));
    }
    case.data(vec![0; LONGEST_PACKET + 1]).data(vec![0xFF; 5_000]).data(vec![0; 7]).data(vec![0; 8]).done()
}

/// D-MPT packets of 0 to 22 MPEG packets and around.
fn sizes_dmpt() -> NamedCapture {
    let mut case = Case::new("sizes-dmpt").open(Kind::Dmpt, MPT);
    let sound = dmpt(MPT, S, 1, &[(1, 1)]);
    for length in [0, 7, 8, 9, 8 + MPEG_BYTES - 1, 8 + MPEG_BYTES] {
        case = case.data(sound[..length].to_vec());
    }
    for (number, packets) in (2..).zip([2, 20, 21, 22]) {
        let pids: Vec<(u8, u8)> = (0..packets).map(|pid| (0x40, pid)).collect();
        let sound = dmpt(MPT, S, number, &pids);
        let longer = [sound.as_slice(), &[0x47]].concat();
        let shorter = sound[..sound.len() - 1].to_vec();
        case = case.data(shorter).data(longer).data(sound);
    }
    let full = dmpt(MPT, S, 9, &[(0x1F, 0xFF); 21]);
    let longest = [full.as_slice(), &vec![0x47; LONGEST_PACKET - full.len()]].concat();
    let too_long = [longest.as_slice(), &[0x47]].concat();
    case.data(full).data(longest).data(too_long).done()
}

/// Every combination of B and E on one, two and three segments, with nothing held and with bytes held.
fn marks() -> NamedCapture {
    let choice = [MIDDLE, END, BEGIN, WHOLE];
    let mut number = 0;
    let mut case = Case::new("marks").open(Kind::Psp, PSP);
    for held in [WHOLE, BEGIN] {
        for combination in 0..64 + 16 + 4 {
            let segments: Vec<(u16, usize)> = match combination {
                0..=3 => vec![(choice[combination], 3)],
                4..=19 => vec![(choice[(combination - 4) % 4], 3), (choice[(combination - 4) / 4], 2)],
                _ => {
                    let left = combination - 20;
                    vec![(choice[left % 4], 3), (choice[left / 4 % 4], 2), (choice[left / 16], 1)]
                }
            };
            case = case.data(psp(PSP, 0, number, &[(held, 4)])).data(psp(PSP, 0, number + 1, &segments));
            number += 2;
        }
    }
    case.done()
}

/// Segments of zero bytes, alone, first, in the middle and last.
fn empty_segments() -> NamedCapture {
    let lists: [&[(u16, usize)]; 9] = [
        &[(WHOLE, 0)],
        &[(BEGIN, 0)],
        &[(MIDDLE, 0)],
        &[(END, 0)],
        &[(WHOLE, 0), (WHOLE, 4)],
        &[(END, 0), (WHOLE, 4)],
        &[(WHOLE, 4), (WHOLE, 0), (WHOLE, 4)],
        &[(WHOLE, 4), (BEGIN, 0)],
        &[(WHOLE, 0), (WHOLE, 0)],
    ];
    let mut case = Case::new("empty-segments").open(Kind::Psp, PSP).data(psp(PSP, 0, 0, &[(BEGIN, 6)]));
    for list in lists {
        case = case.data(psp(PSP, 0, 1, list));
    }
    case.data(psp(PSP, 0, 1, &[(END, 1)])).done()
}

/// Segment counts of 1, 2, 126 and 127, the reserved bit set and clear.
fn segment_counts() -> NamedCapture {
    let mut case = Case::new("segment-counts").open(Kind::Psp, PSP);
    let mut number = 65_532;
    for count in [1, 2, 126, 127] {
        for length in [1, 9] {
            let mut segments = vec![(WHOLE, length); count];
            for byte5 in [count as u8, count as u8 | 0x80] {
                segments[count - 1].0 = if byte5 & 0x80 == 0 { WHOLE } else { BEGIN };
                segments[0].0 &= if length == 1 { WHOLE } else { END };
                case = case.data(psp_with(PSP, S | 3, byte5, number, &segments));
                number = number.wrapping_add(1);
            }
        }
    }
    let thirty = vec![(WHOLE, 30); 127];
    case = case.data(psp(PSP, 3, number, &thirty)).data(psp_with(PSP, S | 3, 0x80, number, &[]));
    case = case.data(psp_with(PSP, S | 3, 0, number, &[])).data(psp_with(PSP, S | 3, 0, number, &[(WHOLE, 2)]));
    case = case.data(psp_with(PSP, S | 3, 126, number, &thirty)).data(psp_with(PSP, S | 3, 127, number, &thirty[1..]));
    case.close(PSP).done()
}

/// Segment lengths whose sum passes 65,535, among them sums that fit modulo 65,536, 16,384 or 256.
fn long_sums() -> NamedCapture {
    let claims = |lengths: &[u16], present: usize| {
        let mut packet = header(PSP, S, lengths.len() as u8, 5);
        packet.extend(lengths.iter().flat_map(|length| (WHOLE | length).to_be_bytes()));
        packet.extend(pattern(0, present));
        packet
    };
    let mut case = Case::new("long-sums").open(Kind::Psp, PSP).data(psp(PSP, 0, 4, &[(BEGIN, 1)]));
    let full = 16_383;
    for present in [0, 1, 100, 2_048] {
        case = case.data(claims(&[full, full, full, full, 4 + present], usize::from(present)));
        case = case.data(claims(&[4 + present, full, full, full, full], usize::from(present)));
        case = case.data(claims(&[full, 1 + present], usize::from(present)));
    }
    case = case.data(claims(&[full; 127], 3_800)).data(claims(&[full; 4], 4_000)).data(claims(&[256 + 9], 9));
    case = case.data(claims(&[9, 8], 16)).data(claims(&[9, 8], 18)).data(claims(&[9, 8], 17));
    case.done()
}

/// Packets that end inside the segment table or just after it.
fn cut_tables() -> NamedCapture {
    let mut case = Case::new("cut-tables").open(Kind::Psp, PSP);
    let sound = psp(PSP, 0, 1, &[(WHOLE, 2), (WHOLE, 1), (WHOLE, 3)]);
    for length in HEADER_BYTES..=sound.len() {
        case = case.data(sound[..length].to_vec());
    }
    for length in HEADER_BYTES..HEADER_BYTES + 8 {
        let mut packet = header(PSP, S, 127, 2);
        packet.resize(length, 0);
        case = case.data(packet);
    }
    case.done()
}

/// Every value of byte 4 on a PSP session: V, S, H, X and the flow ID.
fn every_byte_4_psp() -> NamedCapture {
    let mut case = Case::new("every-byte-4-psp").open(Kind::Psp, PSP);
    for byte4 in 0..=255u8 {
        case = case.data(psp_with(PSP, byte4, 1, u16::from(byte4), &[(BEGIN, 3)]));
    }
    case.close(PSP).done()
}

fn every_byte_4_dmpt() -> NamedCapture {
    let mut case = Case::new("every-byte-4-dmpt").open(Kind::Dmpt, MPT);
    for byte4 in 0..=255u8 {
        case = case.data(dmpt(MPT, byte4, u16::from(byte4), &[(0x1F, byte4)]));
    }
    case.done()
}

/// Every value of byte 5 on a PSP session, with one segment in the packet.
fn every_byte_5_psp() -> NamedCapture {
    let mut case = Case::new("every-byte-5-psp").open(Kind::Psp, PSP);
    for byte5 in 0..=255u8 {
        case = case.data(psp_with(PSP, S | 2, byte5, u16::from(byte5), &[(WHOLE, 3)]));
    }
    case.done()
}

/// Byte 5 has no meaning for D-MPT.
fn byte_5_dmpt() -> NamedCapture {
    let mut case = Case::new("byte-5-dmpt").open(Kind::Dmpt, MPT);
    for (number, byte5) in (65_530..=65_535).chain(0..).zip([0, 1, 2, 3, 63, 64, 126, 127, 128, 129, 200, 255]) {
        let mut packet = dmpt(MPT, S, number, &[(2, 3), (4, 5)]);
        packet[5] = byte5;
        case = case.data(packet);
    }
    case.done()
}

/// The null PID and its neighbours, with every value of the upper bits of byte 1.
fn null_pids() -> NamedCapture {
    let mut case = Case::new("null-pids").open(Kind::Dmpt, MPT);
    let mut number = 65_534u16;
    for upper in (0..8).map(|bits| bits << 5) {
        let pids = [(0x1F, 0xFF), (0x1F, 0xFE), (0x1E, 0xFF), (0x0F, 0xFF), (0x00, 0x00), (0x1F, 0xFF)];
        let pids = pids.map(|(byte1, byte2)| (byte1 | upper, byte2));
        case = case.data(dmpt(MPT, S, number, &pids)).data(dmpt(MPT, S, number.wrapping_add(1), &pids[..1]));
        number = number.wrapping_add(2);
    }
    case.data(dmpt(MPT, S, number, &[(0xFF, 0xFF); 3])).close(MPT).done()
}

/// A wrong sync byte in the first, a middle and the last MPEG packet; D-MPT bytes sent to a PSP session and the reverse.
fn sync_bytes() -> NamedCapture {
    let mut case = Case::new("sync-bytes").open(Kind::Dmpt, MPT).open(Kind::Psp, PSP);
    let sound = dmpt(MPT, S, 9, &[(1, 1), (0x1F, 0xFF), (2, 2)]);
    for place in 0..3 {
        for wrong in [0x46, 0x00, 0x57, 0xC7] {
            let mut packet = sound.clone();
            packet[HEADER_BYTES + place * MPEG_BYTES] = wrong;
            case = case.data(packet);
        }
    }
    let to_psp = [PSP.to_be_bytes().as_slice(), &sound[4..]].concat();
    let mut to_mpt = psp(PSP, 0, 9, &[(WHOLE, MPEG_BYTES - 2)]);
    to_mpt[..4].copy_from_slice(&MPT.to_be_bytes());
    case.data(sound).data(to_psp).data(to_mpt).done()
}

/// D-MPT with S clear: no number is judged and none is set, on a fresh flow and on another.
fn unsequenced_dmpt() -> NamedCapture {
    let mut case = Case::new("unsequenced-dmpt").open(Kind::Dmpt, MPT);
    let pid = [(3, 3)];
    case = case.data(dmpt(MPT, 0, 500, &pid)).data(dmpt(MPT, 0, 400, &pid)).data(dmpt(MPT, S, 100, &pid));
    for number in [0, 99, 100, 102, 50_000] {
        case = case.data(dmpt(MPT, 0, number, &pid));
    }
    case = case.data(dmpt(MPT, S, 101, &pid)).data(dmpt(MPT, S, 101, &pid)).data(dmpt(MPT, 0, 101, &[(0x1F, 0xFF)]));
    case.data(dmpt(MPT, S, 104, &pid)).afresh(Kind::Dmpt, MPT).data(dmpt(MPT, S, 3, &pid)).done()
}

/// Every set of defects that a small PSP packet can have, with S set and clear: which refusal comes first.
fn orders_psp() -> NamedCapture {
    let mut case = Case::new("orders-psp").open(Kind::Psp, PSP).data(psp(PSP, 1, 99, &[(BEGIN, 2)]));
    for defects in 0..256u32 {
        let has = |bit: u32| defects & (1 << bit) != 0;
        let session = if has(0) {
            0
        } else if has(1) {
            STRANGER
        } else {
            PSP
        };
        let version = if has(2) { 0x80 | (0x30 * (defects as u8 & 1)) } else { 0 };
        let flow = if has(3) { 5 } else { 1 };
        let byte4 = version | flow | if has(4) { 0 } else { S };
        let count = if has(5) { 0 } else { 2 };
        let second = if has(6) { END } else { WHOLE };
        let number = if has(7) { 99 } else { 100 };
        let mut packet = psp_with(session, byte4, count, number, &[(END, 2), (second, 1)]);
        if defects % 3 == 1 {
            packet.push(0);
        }
        case = case.data(packet);
    }
    case.done()
}

fn orders_dmpt() -> NamedCapture {
    let mut case = Case::new("orders-dmpt").open(Kind::Dmpt, MPT).data(dmpt(MPT, S, 99, &[(1, 1)]));
    for defects in 0..128u32 {
        let has = |bit: u32| defects & (1 << bit) != 0;
        let session = if has(0) {
            0
        } else if has(1) {
            STRANGER
        } else {
            MPT
        };
        let byte4 = S | if has(2) { 0x20 } else { 0 } | if has(3) { 1 } else { 0 };
        let mut packet = dmpt(session, byte4, if has(6) { 99 } else { 100 }, &[(1, 1)]);
        if has(5) {
            packet[HEADER_BYTES] = 0x48;
        }
        match (has(4), defects % 5) {
            (true, 0) => packet.truncate(HEADER_BYTES),
            (true, 1) => packet.truncate(HEADER_BYTES + 1),
            (true, _) => packet.push(0x47),
            (false, _) => {}
        }
        case = case.data(packet);
    }
    case.done()
}

/// Sizes against the other refusals, and late packets against sound ones.
fn orders_other() -> NamedCapture {
    let mut case = Case::new("orders-other").open(Kind::Psp, PSP);
    for session in [0, STRANGER, PSP] {
        for length in [4, 7, 8, LONGEST_PACKET, LONGEST_PACKET + 1] {
            for byte4 in [0xF7, S] {
                let mut packet = header(session, byte4, 0, 0);
                packet.resize(length, 0);
                case = case.data(packet);
            }
        }
    }
    case.done()
}

/// Six sessions and a seventh; rows freed and taken again; IDs 0, open and unknown.
fn rows() -> NamedCapture {
    let mut case = Case::new("rows").open(Kind::Psp, 0).open(Kind::Dmpt, 0).close(0).close(1);
    let kind = |id: u32| if id.is_multiple_of(2) { Kind::Dmpt } else { Kind::Psp };
    for id in 1..=8 {
        case = case.open(kind(id), id).open(kind(id + 1), id);
    }
    case = case.open(Kind::Psp, 0).open(Kind::Psp, 3).open(Kind::Dmpt, 9).close(0).close(9);
    case = case.close(3).close(3).open(Kind::Psp, 9).open(Kind::Psp, 10);
    case = case.close(1).close(5).open(Kind::Dmpt, 5).open(Kind::Psp, 11).open(Kind::Psp, 12);
    for id in [6, 2, 4, 9] {
        case = case.close(id);
    }
    for id in [0x0100_0000, 0x0001_0000, 0x0000_0100, 0xFFFF_FFFF, 0x8000_0000] {
        case = case.open(Kind::Psp, id).data(psp(id, 0, 1, &[(WHOLE, 1)]));
    }
    for id in 0..13 {
        case = case.data(psp(id, 0, 1, &[(WHOLE, 1)])).close(id);
    }
    case.done()
}

/// The same flow of six sessions, each holding bytes of its own.
fn same_flow_of_sessions() -> NamedCapture {
    let mut case = Case::new("same-flow-of-sessions");
    for id in 1..=6 {
        case = case.open(Kind::Psp, id);
    }
    for (round, marks) in [(0, BEGIN), (1, MIDDLE), (2, MIDDLE), (3, END)] {
        for id in 1..=6u32 {
            let number = (1_000 * id) as u16 + round;
            case = case.data(psp(id, 2, number, &[(marks, 3 + id as usize)]));
        }
    }
    case.done()
}

/// The four flows of a session, each with a number of its own and bytes of its own.
fn flows_apart() -> NamedCapture {
    let mut case = Case::new("flows-apart").open(Kind::Psp, 7).open(Kind::Psp, PSP);
    for (round, marks) in [(0, BEGIN), (1, MIDDLE), (3, MIDDLE), (4, END), (5, BEGIN)] {
        for flow in 0..4u8 {
            let number = (16_384 * u16::from(flow)).wrapping_sub(2).wrapping_add(round);
            case = case.data(psp(PSP, flow, number, &[(marks, 2 + usize::from(flow))]));
        }
    }
    case.close(PSP).done()
}

/// Closing with bytes held in several flows, in one, in none, and a D-MPT session.
fn closes() -> NamedCapture {
    let mut case = Case::new("closes").open(Kind::Psp, PSP);
    for (flow, length) in [(0, 1), (1, 2_048), (2, 300), (3, 2_047)] {
        case = case.data(psp(PSP, flow, 9, &[(BEGIN, length)]));
    }
    case = case.close(PSP).close(PSP).open(Kind::Psp, PSP).close(PSP).open(Kind::Psp, PSP);
    case = case.data(psp(PSP, 3, 9, &[(BEGIN, 77)])).data(psp(PSP, 2, 9, &[(WHOLE, 77)])).close(PSP);
    case.open(Kind::Dmpt, MPT).data(dmpt(MPT, S, 1, &[(1, 1)])).close(MPT).close(MPT).done()
}

/// A session closed with bytes held and opened again: fresh, whether as the same kind or the other.
fn reopened() -> NamedCapture {
    let mut case = Case::new("reopened").open(Kind::Psp, PSP).data(psp(PSP, 0, 40, &[(BEGIN, 6)]));
    case = case.afresh(Kind::Psp, PSP).data(psp(PSP, 0, 41, &[(END, 6)])).data(psp(PSP, 0, 42, &[(BEGIN, 6)]));
    case = case.afresh(Kind::Psp, PSP).data(psp(PSP, 0, 3, &[(WHOLE, 2), (BEGIN, 5)]));
    case = case.close(PSP).data(psp(PSP, 0, 4, &[(END, 2)])).open(Kind::Dmpt, PSP).data(dmpt(PSP, S, 3, &[(1, 1)]));
    case = case.data(psp(PSP, 0, 4, &[(END, 2)])).afresh(Kind::Psp, PSP).data(psp(PSP, 0, 4, &[(END, 2)]));
    case.open(Kind::Psp, 5).close(PSP).open(Kind::Psp, 6).open(Kind::Psp, PSP).data(psp(6, 0, 4, &[(END, 2)])).done()
}

/// Packets of sessions that are not open, and session 0 while others are open.
fn strangers() -> NamedCapture {
    let mut case = Case::new("strangers").data(psp(PSP, 0, 1, &[(WHOLE, 2)])).data(psp(0, 0, 1, &[(WHOLE, 2)]));
    case = case.open(Kind::Psp, PSP).data(psp(0, 0, 1, &[(WHOLE, 2)])).data(psp(STRANGER, 0, 1, &[(WHOLE, 2)]));
    for bit in 0..32 {
        case = case.data(psp(PSP ^ (1 << bit), 0, 1, &[(WHOLE, 2)]));
    }
    case.data(Vec::new()).data(psp(PSP, 0, 1, &[(WHOLE, 2)])).done()
}

/// A file with contents as given, each entry 4 bytes, and bodies as given.
fn file(name: &str, number: usize, contents: &[[u8; 4]], bodies: &[u8]) -> NamedCapture {
    let mut file = (number as u16).to_be_bytes().to_vec();
    file.extend(contents.concat());
    file.extend(bodies);
    NamedCapture { name: format!("directed-file-{name}"), file }
}

/// An entry of the contents with a length of two bytes.
fn line(kind: u8, second: u8, length: usize) -> [u8; 4] {
    [kind, second, (length >> 8) as u8, length as u8]
}

/// Files refused with each of 41 to 45, their neighbours that are not, and which refusal comes first.
fn files() -> Vec<NamedCapture> {
    let mut all = file_numbers();
    all.extend(file_sizes());
    all.extend(file_lines());
    all.extend(file_fills());
    all
}

/// N and the contents: 42 and 43.
fn file_numbers() -> Vec<NamedCapture> {
    let data = line(4, 0, 0);
    let one = [line(1, 0, 4)];
    let cut = |name: &str, number: usize, length: usize| {
        let mut whole = file(name, number, &vec![data; number], &[]);
        whole.file.truncate(length);
        whole
    };
    vec![
        file("n-0", 0, &[], &[]),
        file("n-0-and-a-byte", 0, &[], &[0]),
        NamedCapture { name: "directed-file-empty".into(), file: vec![] },
        NamedCapture { name: "directed-file-one-byte-0".into(), file: vec![0] },
        NamedCapture { name: "directed-file-one-byte-ff".into(), file: vec![0xFF] },
        cut("n-1-and-nothing", 1, 2),
        cut("n-1-and-3-bytes", 1, 5),
        file("n-1", 1, &one, &[0, 0, 1, 1]),
        file("n-256-and-one-entry", 256, &one, &[0, 0, 1, 1]),
        most_entries(),
        cut("n-1000-cut", MOST_ENTRIES, 2 + 4 * MOST_ENTRIES - 1),
        cut("n-1000-and-nothing", MOST_ENTRIES, 2),
        file("n-1001", MOST_ENTRIES + 1, &[data; MOST_ENTRIES + 1], &[]),
        cut("n-1001-cut", MOST_ENTRIES + 1, 2 + 4 * MOST_ENTRIES),
        cut("n-1001-and-nothing", MOST_ENTRIES + 1, 2),
        file("n-1000-of-kind-5", MOST_ENTRIES, &[line(5, 0, 0); MOST_ENTRIES], &[]),
        file("n-1001-of-kind-8", MOST_ENTRIES + 1, &[line(8, 0, 0); MOST_ENTRIES + 1], &[]),
        file("n-65535", 65_535, &[], &[]),
        file("n-3-of-kind-9-cut", 3, &[line(9, 9, 9); 2], &[]),
    ]
}

/// A file of 1,000 entries: an open and 999 packets of 13 bytes, whose frames end every third packet.
fn most_entries() -> NamedCapture {
    let mut case = Case::new("file-n-1000").open(Kind::Psp, PSP);
    for place in 1..MOST_ENTRIES {
        let number = 65_000u16.wrapping_add(place as u16);
        case = case.data(psp(PSP, 3, number, &[([END, BEGIN, MIDDLE][place % 3], 3)]));
    }
    case.done()
}

/// Files of 60,000 and 60,001 bytes: 41.
fn file_sizes() -> Vec<NamedCapture> {
    let sized = |name: &str, size: usize, number: usize| {
        let mut sized = file(name, number, &[line(1, 0, 4)], &PSP.to_be_bytes());
        sized.file.resize(size, 0);
        sized
    };
    // An open entry and data entries of 4,100 bytes at most, the last of the length that is left.
    let full = |size: usize| {
        let mut case = Case::new("x").open(Kind::Psp, PSP);
        let mut left = size - 2 - 8;
        for number in 0.. {
            let length = left.min(LONGEST_PACKET + 4) - 4;
            case = case.data(psp(PSP, 1, number, &[(WHOLE, 2_000), (BEGIN, length - 2_000 - 12)]));
            left -= length + 4;
            if left == 0 {
                break;
            }
        }
        NamedCapture { name: format!("directed-file-full-{size}"), file: case.done().file }
    };
    let one_long_body = |name: &str, length: usize| file(name, 1, &[line(4, 0, length)], &vec![0; length]);
    vec![
        full(LONGEST_FILE - 1),
        full(LONGEST_FILE),
        full(LONGEST_FILE + 1),
        full(68_000),
        one_long_body("body-of-59994", LONGEST_FILE - 6),
        one_long_body("body-of-59995", LONGEST_FILE - 5),
        sized("60000-and-n-1001", LONGEST_FILE, MOST_ENTRIES + 1),
        sized("60001-and-n-1001", LONGEST_FILE + 1, MOST_ENTRIES + 1),
        sized("60001-and-n-1", LONGEST_FILE + 1, 1),
        sized("60000-and-n-1", LONGEST_FILE, 1),
        sized("70000", 70_000, 1),
        sized("200000", 200_000, 1),
    ]
}

/// Entries of the contents: 44.
fn file_lines() -> Vec<NamedCapture> {
    let id = PSP.to_be_bytes();
    let mut all = kinds_that_later_requests_name();
    for kind in [0, 5, 8, 9, 127, 128, 132, 133, 255] {
        all.push(file(&format!("kind-{kind}"), 2, &[line(1, 0, 4), line(kind, 0, 4)], &[id, id].concat()));
    }
    for kind in 1..=5 {
        for second in [1, 255] {
            all.push(file(&format!("second-byte-{second}-of-kind-{kind}"), 1, &[line(kind, second, 4)], &id));
        }
    }
    for kind in 1..=3 {
        for length in [0, 3, 5, 260] {
            all.push(file(&format!("length-{length}-of-kind-{kind}"), 1, &[line(kind, 0, length)], &vec![1; length]));
        }
    }
    all.push(file("kind-8-before-a-cut", 1, &[line(8, 0, 9)], &[]));
    all.push(file("second-byte-before-leftover", 1, &[line(4, 7, 0)], &[0; 9]));
    all.push(file("second-byte-of-kind-5-before-a-cut", 1, &[line(5, 7, 9)], &[]));
    let mut long = vec![line(4, 0, 0); 500];
    long[499] = line(0, 0, 0);
    all.push(file("kind-0-at-the-end", 500, &long, &[]));
    all
}

/// Kinds 6 and 7 are other kinds, and refused, until later requests of document 02 give them a meaning. So only this
/// theme has them; where another kind is wanted for any other reason it is 8 or above.
fn kinds_that_later_requests_name() -> Vec<NamedCapture> {
    let id = PSP.to_be_bytes();
    let of_kind = |kind: u8| file(&format!("kind-{kind}"), 2, &[line(1, 0, 4), line(kind, 0, 4)], &[id, id].concat());
    vec![of_kind(6), of_kind(7)]
}

/// Lengths that do not fill the file: 45.
fn file_fills() -> Vec<NamedCapture> {
    let id = PSP.to_be_bytes();
    let sound = psp(PSP, 0, 1, &[(WHOLE, 4)]);
    let contents = [line(1, 0, 4), line(4, 0, sound.len())];
    let bodies = [id.as_slice(), &sound].concat();
    let short = &bodies[..bodies.len() - 1];
    let over = [bodies.as_slice(), &[0]].concat();
    let wraps = [line(4, 0, 40_000), line(4, 0, 25_536 + 17)];
    vec![
        file("filled", 2, &contents, &bodies),
        file("one-byte-short", 2, &contents, short),
        file("one-byte-over", 2, &contents, &over),
        file("many-over", 2, &contents, &[bodies.as_slice(), &vec![7; 5_000]].concat()),
        file("bodies-missing", 2, &contents, &[]),
        file("open-cut", 1, &[line(1, 0, 4)], &id[..3]),
        file("sum-wraps", 2, &wraps, &pattern(0, 17)),
        file("sum-wraps-to-0", 2, &[line(4, 0, 65_535), line(4, 0, 1)], &[]),
        file("long-lengths", 1_000, &[line(4, 0, 65_535); 1_000], &[]),
        file("empty-bodies", 3, &[line(4, 0, 0); 3], &[]),
        file("empty-bodies-over-udp", 3, &[line(5, 0, 0); 3], &[]),
        file("empty-bodies-by-both", 4, &[line(5, 0, 0), line(4, 0, 0), line(5, 0, 0), line(5, 0, 0)], &[]),
        file("one-byte-short-over-udp", 2, &[line(5, 0, 0), line(5, 0, 9)], &[1; 8]),
        file("one-byte-over-over-udp", 2, &[line(5, 0, 9), line(5, 0, 0)], &[1; 10]),
        file("long-lengths-over-udp", 1_000, &[line(5, 0, 65_535); 1_000], &[]),
    ]
}

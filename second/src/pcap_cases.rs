//! Directed pcap files for the import: each limit of document 02, W5, from both sides.
//!
//! They do not depend on a seed. A frame of interest mostly has a file of its own, so that the four counts tell what became
//! of it; the byte order changes from case to case.

use crate::capture::{LONGEST_FILE, MOST_ENTRIES};
use crate::craft::{pattern, psp, WHOLE};
use crate::pcap::{
    ByteOrder, DONT_FRAGMENT, FILE_HEADER_BYTES, IPV4, L2TP, LONGEST_IMPORT, MAGIC, MORE_FRAGMENTS, NANOSECONDS_MAGIC,
    PORT, RECORD_HEADER_BYTES, RESERVED_BIT, UDP, VLAN,
};
use crate::pcap_craft::{
    arp, ethernet, ipv6, padded, tagged, File, FileHeader, Ip, Udp, OVER_IP, OVER_UDP, SOUND_HEADER, TO_PORT,
};

/// What `pspimport` is asked for, with a name that tells why.
#[derive(Clone, Debug)]
pub struct ImportCase {
    pub name: String,
    pub sessions: Vec<u32>,
    pub file: Vec<u8>,
}

/// Cases under construction.
#[derive(Default)]
struct Cases(Vec<ImportCase>);

const ORDERS: [ByteOrder; 2] = [ByteOrder::Little, ByteOrder::Big];

impl Cases {
    fn add(&mut self, name: String, sessions: Vec<u32>, file: Vec<u8>) {
        self.0.push(ImportCase { name: format!("directed-{name}"), sessions, file });
    }

    fn file(&mut self, name: String, file: Vec<u8>) {
        self.add(name, Vec::new(), file);
    }

    /// A frame alone, in a file of either order in turn.
    fn frame(&mut self, name: String, frame: Vec<u8>) {
        let order = ORDERS[self.0.len() % 2];
        self.file(name, File::new(order).record(&frame).bytes);
    }
}

/// All directed cases.
pub fn directed() -> Vec<ImportCase> {
    let mut cases = Cases::default();
    file_headers(&mut cases);
    cut_files(&mut cases);
    record_lengths(&mut cases);
    short_frames(&mut cases);
    ether_types(&mut cases);
    header_lengths(&mut cases);
    total_lengths(&mut cases);
    fragments(&mut cases);
    udp_lengths(&mut cases);
    ports_and_protocols(&mut cases);
    orders_of_causes(&mut cases);
    bodies(&mut cases);
    sessions(&mut cases);
    entry_counts(&mut cases);
    capture_sizes(&mut cases);
    orders_of_refusals(&mut cases);
    long_files(&mut cases);
    cases.0
}

/// A packet as the card gets it.
fn body() -> Vec<u8> {
    psp(0x101, 1, 7, &[(WHOLE, 6)])
}

/// A frame of each sort: taken over IP and over UDP, padded or not, and one for each cause.
fn one_of_each() -> Vec<Vec<u8>> {
    vec![
        OVER_IP.frame(&body()),
        padded(TO_PORT.frame(&[1, 2, 3]), 60),
        arp(),
        Ip { total: Some(200), ..OVER_IP }.frame(&body()),
        Ip { fragment: MORE_FRAGMENTS, ..OVER_IP }.frame(&body()),
        Ip { protocol: 6, ..OVER_IP }.frame(&body()),
        Udp { destination: 53, ..TO_PORT }.frame(&body()),
        Ip { options: 2, ..OVER_IP }.frame(&[]),
        tagged(VLAN, &OVER_IP.frame(&body())),
    ]
}

/// Refusal 61: each bit of a header, and headers as other tools write them. Zone, accuracy and snap length are ignored.
fn file_headers(cases: &mut Cases) {
    for order in ORDERS {
        let sound = File::new(order).record(&OVER_IP.frame(&body())).bytes;
        for bit in 0..8 * FILE_HEADER_BYTES {
            let mut file = sound.clone();
            file[bit / 8] ^= 1 << (bit % 8);
            cases.file(format!("header-bit-{bit}"), file);
        }
        let swapped = MAGIC.swap_bytes();
        let magics =
            [NANOSECONDS_MAGIC, NANOSECONDS_MAGIC.swap_bytes(), swapped, 0x0A0D_0D0A, 0xA1B2_CD34, 0xA1B2_C3D5];
        for magic in magics.into_iter().chain([0, u32::MAX, 0xC3D4_A1B2, 0xB2A1_D4C3]) {
            headed(cases, order, FileHeader { magic, ..SOUND_HEADER });
        }
        for version in
            [(2, 3), (2, 5), (2, 0), (4, 2), (1, 4), (3, 4), (0, 0), (0x0200, 0x0400), (2, 0x0104), (0x0102, 4)]
        {
            headed(cases, order, FileHeader { version, ..SOUND_HEADER });
        }
        let link_types = [0, 2, 9, 101, 113, 127, 0x0100, 0x0101, 0x0001_0000, 0x0001_0001, 0x0100_0000, 0x0100_0001];
        for link_type in link_types.into_iter().chain([0x1000_0001, 0x2000_0001, 0xF000_0001, 0x8000_0001, u32::MAX]) {
            headed(cases, order, FileHeader { link_type, ..SOUND_HEADER });
        }
        for snap_length in [0, 1, 33, 64, 96, 262_144, u32::MAX] {
            headed(cases, order, FileHeader { snap_length, zone: 3_600, accuracy: 6, ..SOUND_HEADER });
        }
    }
}

fn headed(cases: &mut Cases, order: ByteOrder, header: FileHeader) {
    let FileHeader { magic, version, snap_length, link_type, .. } = header;
    let name = format!("header-{magic:08x}-{}-{}-{snap_length}-{link_type:08x}", version.0, version.1);
    cases.file(name, File::headed(order, header).records(&one_of_each()).bytes);
}

/// Refusals 61 and 62: a file cut after each of its bytes, and with bytes behind its last record.
fn cut_files(cases: &mut Cases) {
    for order in ORDERS {
        let frames = [OVER_IP.frame(&[1, 2, 3]), TO_PORT.frame(&[4]), Vec::new(), padded(OVER_IP.frame(&[5]), 40)];
        let file = File::new(order).records(&frames).bytes;
        for length in 0..=file.len() {
            cases.file(format!("cut-to-{length}"), file[..length].to_vec());
        }
        for more in 1..=RECORD_HEADER_BYTES + 1 {
            cases.file(format!("{more}-zeros-behind"), [file.as_slice(), &vec![0; more]].concat());
        }
    }
}

/// Refusal 62: the captured length of the first, a middle and the last record changed, while the original one stays; then
/// the original one, which has no say.
fn record_lengths(cases: &mut Cases) {
    let frames = [OVER_IP.frame(&body()), TO_PORT.frame(&body()), arp(), OVER_IP.frame(&[9; 300])];
    for order in ORDERS {
        for place in [0, 2, 3] {
            let before = File::new(order).records(&frames[..place]);
            let start = (before.bytes.len() + RECORD_HEADER_BYTES) as u32;
            let length = frames[place].len() as u32;
            let whole = before.clone().records(&frames[place..]).bytes.len() as u32;
            let rest = whole - start;
            let near =
                [length - 1, length + 1, length + 15, length + 16, length + 17, length.swap_bytes(), 0, 1, 13, 34];
            let end = [rest - 17, rest - 16, rest - 15, rest - 1, rest, rest + 1, rest + 16, 0x0001_0000 + length];
            let high = [1 << 31, (1 << 31) - 1, (1 << 31) + length, u32::MAX, u32::MAX - 15, u32::MAX - start, 1 << 24];
            // Ends that are inside the file where they are counted modulo 2^32.
            let wrapped = [0, 1, 24, start - 16, start, whole - 1, whole].map(|end| end.wrapping_sub(start));
            for captured in near.into_iter().chain(end).chain(high).chain(wrapped) {
                let file = before.clone().claiming(captured, length, &frames[place]).records(&frames[place + 1..]);
                cases.file(format!("record-{place}-captured-{captured}"), file.bytes);
            }
            for original in [0, 1, length - 1, length + 1, 2_000, 65_535, 1 << 31, u32::MAX, rest + 1] {
                let file = before.clone().claiming(length, original, &frames[place]).records(&frames[place + 1..]);
                cases.file(format!("record-{place}-original-{original}"), file.bytes);
            }
        }
    }
    // A snapped packet: the record has fewer bytes than there were.
    for frame in [OVER_IP.frame(&[7; 80]), TO_PORT.frame(&[7; 80]), arp()] {
        for kept in [14, 20, 33, 34, 42, 60, 64, 68, 96, frame.len() - 1] {
            let kept = kept.min(frame.len());
            let file = File::new(ORDERS[kept % 2]).claiming(kept as u32, frame.len() as u32, &frame[..kept]);
            cases.file(format!("snapped-to-{kept}"), file.bytes);
        }
    }
}

/// Frames of 0 to 62 bytes, of every sort: what is cut off them, and what is there.
fn short_frames(cases: &mut Cases) {
    let other_version = Ip { version: 6, ..OVER_IP };
    let sorts = [
        ("ip", OVER_IP.frame(&[3; 30])),
        ("udp", TO_PORT.frame(&[3; 30])),
        ("options", Ip { options: 4, ..OVER_IP }.frame(&[3; 30])),
        ("version-6", other_version.frame(&[3; 30])),
        ("ipv6", ipv6(&[3; 30])),
        ("arp", arp()),
        ("vlan", tagged(VLAN, &OVER_IP.frame(&[3; 30]))),
    ];
    for (name, frame) in sorts {
        for length in 0..=62.min(frame.len()) {
            cases.frame(format!("short-{name}-{length}"), frame[..length].to_vec());
        }
    }
    for length in 0..=62 {
        cases.frame(format!("zeros-{length}"), vec![0; length]);
        // The total length says what there is.
        let total = length.saturating_sub(14) as u16;
        let frame = Ip { total: Some(total), ..OVER_IP }.frame(&[3; 30]);
        cases.frame(format!("short-and-told-{length}"), frame[..length].to_vec());
    }
}

/// Types of frames, each bit of IPv4's among them, and tags of VLANs; then versions of datagrams.
fn ether_types(cases: &mut Cases) {
    let types = [0x0000, 0x002E, 0x0806, 0x0008, 0x0801, 0x86DD, VLAN, 0x88A8, 0x9100, 0x8847, 0x8864, 0x05DC, 0xFFFF];
    for ether_type in types.into_iter().chain((0..16).map(|bit| IPV4 ^ 1 << bit)) {
        cases.frame(format!("type-{ether_type:04x}"), ethernet(ether_type, &OVER_IP.datagram(&body())));
        cases.frame(
            format!("type-{ether_type:04x}-udp"),
            ethernet(ether_type, &OVER_UDP.datagram(&TO_PORT.payload(&[1]))),
        );
    }
    for frame in [OVER_IP.frame(&body()), TO_PORT.frame(&body()), arp()] {
        cases.frame("tagged".to_string(), tagged(VLAN, &frame));
        cases.frame("tagged-twice".to_string(), tagged(0x88A8, &tagged(VLAN, &frame)));
        cases.frame("tagged-as-provider".to_string(), tagged(0x88A8, &frame));
    }
    for version in 0..16 {
        let ip = Ip { version, ..OVER_IP };
        cases.frame(format!("version-{version}"), ip.frame(&body()));
        cases.frame(format!("version-{version}-udp"), Ip { version, ..OVER_UDP }.frame(&TO_PORT.payload(&[1, 2])));
        for length in [14, 15, 20, 33, 34] {
            cases.frame(format!("version-{version}-in-{length}"), ip.frame(&[])[..length].to_vec());
        }
        cases.frame(format!("version-{version}-total-0"), Ip { total: Some(0), ..ip }.frame(&body()));
    }
}

/// Header lengths of every number of words, with as many options as they tell and with others; and totals around them.
fn header_lengths(cases: &mut Cases) {
    for words in 0..16_u8 {
        let told = usize::from(words).saturating_sub(5);
        for options in [0, 1, told, 10] {
            for (name, ip) in [("ip", OVER_IP), ("udp", OVER_UDP)] {
                let ip = Ip { words: Some(words), options, ..ip };
                cases.frame(format!("{words}-words-{options}-{name}"), ip.frame(&TO_PORT.payload(&[8; 50])));
            }
        }
        let header = u16::from(words) * 4;
        for total in [header.saturating_sub(1), header, header + 1, header + 7, header + 8, header + 9, 19, 20, 21] {
            let ip = Ip { words: Some(words), options: told, total: Some(total), ..OVER_IP };
            cases.frame(format!("{words}-words-total-{total}"), ip.frame(&[]));
            cases.frame(format!("{words}-words-total-{total}-padded"), padded(ip.frame(&[]), 60));
            let udp = Ip { protocol: UDP, ..ip };
            cases.frame(format!("{words}-words-total-{total}-udp"), padded(udp.frame(&TO_PORT.payload(&[])), 76));
        }
    }
}

/// Total lengths from 0 on and around the record's end, with and without padding.
fn total_lengths(cases: &mut Cases) {
    let payload = TO_PORT.payload(&[5; 18]);
    for (name, ip) in [("ip", OVER_IP), ("udp", OVER_UDP)] {
        for total in (0..=50).chain([255, 256, 1_500, 0x2E00, 32_768, 65_515, 65_534, 65_535]) {
            cases.frame(format!("total-{total}-{name}"), Ip { total: Some(total), ..ip }.frame(&payload));
        }
        for length in (0..=27).chain([40, 100, 1_400]) {
            let payload = if ip.protocol == UDP { TO_PORT.payload(&pattern(1, length)) } else { pattern(1, length) };
            let frame = ip.frame(&payload);
            let longer = frame.len() + 1;
            cases.frame(format!("body-{length}-{name}-padded"), padded(frame.clone(), 60));
            cases.frame(format!("body-{length}-{name}-one-byte"), padded(frame, longer));
        }
    }
}

/// Each bit of the flags and the offset, and several, on packets of every protocol, sound and with bad lengths.
fn fragments(cases: &mut Cases) {
    let several = [
        MORE_FRAGMENTS | DONT_FRAGMENT,
        MORE_FRAGMENTS | 185,
        DONT_FRAGMENT | RESERVED_BIT,
        DONT_FRAGMENT | 1,
        MORE_FRAGMENTS | RESERVED_BIT,
        0x1FFF,
        0x3FFF,
        0xFFFF,
        0,
    ];
    for fragment in (0..16).map(|bit| 1 << bit).chain(several) {
        let sorts = [
            ("ip", L2TP, body()),
            ("ip-empty", L2TP, Vec::new()),
            ("udp", UDP, TO_PORT.payload(&body())),
            ("udp-other", UDP, Udp { destination: 53, ..TO_PORT }.payload(&body())),
            ("udp-short", UDP, vec![6; 7]),
            ("udp-too-long", UDP, Udp { length: Some(500), ..TO_PORT }.payload(&body())),
            ("tcp", 6, body()),
        ];
        for (name, protocol, payload) in sorts {
            let ip = Ip { fragment, protocol, ..OVER_IP };
            cases.frame(format!("fragment-{fragment:04x}-{name}"), ip.frame(&payload));
            let total = 21 + payload.len() as u16;
            let long = Ip { total: Some(total), ..ip };
            cases.frame(format!("fragment-{fragment:04x}-{name}-beyond"), long.frame(&payload));
        }
    }
}

/// UDP lengths of every number up to beyond payloads of 0 to 12 bytes, to port 1701 and to another.
fn udp_lengths(cases: &mut Cases) {
    for payload in 0..=12_usize {
        for length in (0..=14).chain([255, 256, 2_048, 0x0B00, 32_776, 65_535]) {
            for destination in [PORT, 1_702] {
                let bytes = Udp { destination, length: Some(length), ..TO_PORT }.payload(&[1, 2, 3, 4]);
                let name = format!("udp-length-{length}-of-{payload}-to-{destination}");
                let frame = OVER_UDP.frame(&bytes[..payload]);
                // Half of them are padded, so that the record has more bytes than the datagram.
                let padding = if length % 2 == 0 { 60 } else { 0 };
                cases.frame(name, padded(frame, padding));
            }
        }
    }
}

/// Ports, with 1701 in either byte order, and every protocol.
fn ports_and_protocols(cases: &mut Cases) {
    let ports = [0, 53, PORT - 1, PORT, PORT + 1, PORT.swap_bytes(), PORT ^ 0x8000, PORT & 0xFF, PORT & 0xFF00, 65_535];
    for source in ports {
        for destination in ports {
            let udp = Udp { source, destination, length: None };
            cases.frame(format!("ports-{source}-{destination}"), udp.frame(&[1, 2, 3]));
        }
    }
    for protocol in 0..=255 {
        cases.frame(format!("protocol-{protocol}"), Ip { protocol, ..OVER_IP }.frame(&TO_PORT.payload(&[1, 2, 3])));
    }
    for summed in [false, true] {
        cases.frame(format!("summed-{summed}"), Ip { summed, ..OVER_IP }.frame(&body()));
        cases.frame(format!("summed-{summed}-udp"), Ip { summed, ..OVER_UDP }.frame(&TO_PORT.payload(&body())));
    }
}

/// Every set of causes, on one frame.
fn orders_of_causes(cases: &mut Cases) {
    for set in 0..256_u16 {
        let has = |place: u16| set >> place & 1 == 1;
        let udp = Udp {
            source: PORT,
            destination: if has(0) { 1_700 } else { PORT },
            length: has(1).then_some(if has(0) { 100 } else { 7 }),
        };
        let ip = Ip {
            version: if has(6) { 5 } else { 4 },
            words: has(4).then_some(4),
            total: has(3).then_some(if has(2) { 1_000 } else { 0 }),
            fragment: if has(2) { MORE_FRAGMENTS | 8 } else { 0 },
            protocol: if has(5) { 1 } else { UDP },
            ..OVER_IP
        };
        let ether_type = if has(7) { 0x86DD } else { IPV4 };
        cases.frame(format!("causes-{set:02x}"), ethernet(ether_type, &ip.datagram(&udp.payload(&body()))));
    }
    for order in ORDERS {
        let mut frames = one_of_each();
        for turn in 0..frames.len() {
            cases.file(format!("one-of-each-{turn}"), File::new(order).records(&frames).bytes);
            frames.rotate_left(1);
        }
    }
}

/// Bodies of no byte, of the card's limits, of the most that a capture holds, and of the most that IP carries.
fn bodies(cases: &mut Cases) {
    let fits = LONGEST_FILE - 6;
    let lengths = [0, 1, 2, 7, 8, 4_099, 4_100, 4_101, 4_104, 4_105, 32_768, fits - 1, fits, fits + 1, 65_506, 65_507];
    for length in lengths {
        cases.frame(format!("body-of-{length}"), OVER_IP.frame(&pattern(3, length)));
        cases.frame(format!("udp-body-of-{length}"), TO_PORT.frame(&pattern(3, length)));
    }
    for length in [65_508, 65_514, 65_515] {
        cases.frame(format!("body-of-{length}"), OVER_IP.frame(&pattern(3, length)));
    }
    // Long records, of which the body is a small part, or no part.
    for length in [61_000, 65_535, 65_536, 70_000, 131_072 + 40] {
        cases.frame(format!("padded-to-{length}"), padded(OVER_IP.frame(&body()), length));
        cases.frame(format!("padded-to-{length}-udp"), padded(TO_PORT.frame(&body()), length));
        cases.frame(format!("skipped-of-{length}"), padded(arp(), length));
    }
}

/// Sessions that are named: none, 0, doubles, more than there are rows, and as many as a capture has entries.
fn sessions(cases: &mut Cases) {
    let file = File::new(ByteOrder::Little).records(&one_of_each()).bytes;
    let empty = File::new(ByteOrder::Big).bytes;
    let high = [u32::MAX, 1 << 31, (1 << 31) - 1, 0xFFFF, 0x0102_0304, 10, 9];
    let lists =
        [vec![], vec![1], vec![0], vec![5, 5], vec![0, 0, 0], (1..=6).collect(), (1..=7).collect(), high.to_vec()];
    for sessions in lists {
        let name = format!("sessions-{}", sessions.len());
        cases.add(name.clone(), sessions.clone(), file.clone());
        cases.add(format!("{name}-alone"), sessions.clone(), empty.clone());
        cases.add(format!("{name}-refused"), sessions, file[..file.len() - 1].to_vec());
    }
    let most = MOST_ENTRIES as u32;
    for count in [most - 5, most - 4, most - 3, most - 1, most, most + 1] {
        cases.add(format!("sessions-{count}"), (1..=count).collect(), file.clone());
        cases.add(format!("sessions-{count}-alone"), (1..=count).collect(), empty.clone());
    }
}

/// A file with so many packets that are taken, without bodies, and between them records that are passed over.
fn sparse(kept: usize, skipped: usize) -> Vec<u8> {
    let mut file = File::new(ORDERS[kept % 2]);
    for place in 0..kept.max(skipped) {
        if place < kept {
            file = file.record(&if place % 3 == 0 { TO_PORT.frame(&[]) } else { OVER_IP.frame(&[]) });
        }
        if place < skipped {
            file = file.record(&[]);
        }
    }
    file.bytes
}

/// Refusal 63: captures of 999 to 1,003 entries, with and without sessions and records that are passed over.
fn entry_counts(cases: &mut Cases) {
    for kept in [MOST_ENTRIES - 1, MOST_ENTRIES, MOST_ENTRIES + 1] {
        for named in [0, 1, 2] {
            cases.add(format!("{kept}-kept-{named}-named"), vec![77; named], sparse(kept, 0));
        }
        cases.file(format!("{kept}-kept-and-skipped"), sparse(kept, 3_000));
    }
    cases.file("1001-skipped".to_string(), sparse(0, MOST_ENTRIES + 1));
    cases.file("1000-kept-and-1-skipped".to_string(), sparse(MOST_ENTRIES, 1));
}

/// Refusal 63: captures of 59,999 to 60,008 bytes, sessions among them.
fn capture_sizes(cases: &mut Cases) {
    for named in [0, 1, 6] {
        for size in [LONGEST_FILE - 1, LONGEST_FILE, LONGEST_FILE + 1, LONGEST_FILE + 8] {
            let rest = size - 2 - 8 * named;
            let (whole, last) = (rest / 10_000, rest % 10_000 - 4);
            let mut file = File::new(ORDERS[size % 2]);
            for place in 0..whole {
                let body = pattern(place, 10_000 - 4);
                file = file.record(&if place % 2 == 0 { OVER_IP.frame(&body) } else { TO_PORT.frame(&body) });
                file = file.record(&Ip { protocol: 6, ..OVER_IP }.frame(&body));
            }
            file = file.record(&padded(OVER_IP.frame(&pattern(9, last)), 60));
            cases.add(format!("capture-of-{size}-{named}-named"), vec![3; named], file.bytes);
        }
    }
    // Too many and too long at once; and the lengths of bodies that are added have more than 16 bits.
    let many = vec![OVER_IP.frame(&[1; 70]); MOST_ENTRIES + 1];
    cases.file("too-many-and-too-long".to_string(), File::new(ByteOrder::Little).records(&many).bytes);
    for count in [2, 3, 5] {
        let frames = vec![OVER_IP.frame(&pattern(1, 32_768)); count];
        cases.file(format!("{count}-long-bodies"), File::new(ByteOrder::Big).records(&frames).bytes);
    }
}

/// 61 before 62, and both before 63.
fn orders_of_refusals(cases: &mut Cases) {
    let frames = vec![OVER_IP.frame(&[]); MOST_ENTRIES + 1];
    for order in ORDERS {
        let many = File::new(order).records(&frames).bytes;
        let long = File::new(order).record(&OVER_IP.frame(&[4; 60_010])).bytes;
        for (name, file) in [("many", many), ("long", long)] {
            let wrong = [&file[..22], &[7, 7], &file[24..]].concat();
            cases.file(format!("{name}-wrong-header"), wrong.clone());
            cases.file(format!("{name}-wrong-header-cut"), wrong[..wrong.len() - 1].to_vec());
            cases.file(format!("{name}-cut"), file[..file.len() - 1].to_vec());
            cases.file(format!("{name}-and-a-byte"), [file.as_slice(), &[0]].concat());
            cases.file(format!("{name}-and-a-cut-header"), [file.as_slice(), &[0; 15]].concat());
        }
        let sessions: Vec<u32> = (0..=MOST_ENTRIES as u32).collect();
        let file = File::new(order).record(&OVER_IP.frame(&[])).bytes;
        cases.add("sessions-and-cut".to_string(), sessions.clone(), file[..50].to_vec());
        cases.add("sessions-and-no-header".to_string(), sessions.clone(), file[..20].to_vec());
        cases.add("sessions-and-empty".to_string(), sessions, Vec::new());
    }
}

/// Files of the longest length that the program takes: skipped records alone, one record alone, a last record too long.
fn long_files(cases: &mut Cases) {
    let room = LONGEST_IMPORT - FILE_HEADER_BYTES;
    let one = File::new(ByteOrder::Big).record(&padded(OVER_IP.frame(&body()), room - RECORD_HEADER_BYTES)).bytes;
    cases.file("one-record-of-4-mib".to_string(), one.clone());
    cases.file("one-record-of-4-mib-cut".to_string(), one[..one.len() - 1].to_vec());
    let mut many = File::new(ByteOrder::Little);
    while many.bytes.len() + 2_016 + RECORD_HEADER_BYTES <= LONGEST_IMPORT {
        many = many.record(&padded(ipv6(&[]), 2_000));
    }
    let rest = LONGEST_IMPORT - many.bytes.len() - RECORD_HEADER_BYTES;
    cases.file("many-records-of-4-mib".to_string(), many.clone().record(&padded(OVER_IP.frame(&body()), rest)).bytes);
    let past = many.claiming(rest as u32 + 1, rest as u32, &padded(OVER_IP.frame(&body()), rest)).bytes;
    cases.file("many-records-of-4-mib-past".to_string(), past);
}

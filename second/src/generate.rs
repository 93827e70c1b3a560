//! Captures made by dice: traffic of several sessions, damaged packets, random packets, damaged files.
//!
//! A capture depends on the seed and its index only. The families come up in rotation; each tells in its `Style` how
//! long frames and packets are and how much goes wrong on the way. Traffic keeps a sender for each flow of each session
//! and cuts its frames with document 01's sender, so that what arrives is mostly sound and frames are really joined
//! across packets; then packets get lost, repeated, delayed and renumbered, and sessions close and open in the middle.
//! A session has its packets mostly by one transport, or by both mixed.

use std::collections::BTreeMap;

use crate::capture::{Capture, Entry, LONGEST_FILE, MOST_ENTRIES, NUMBER_BYTES};
use crate::card::{FLOWS, LONGEST_FRAME, ROWS};
use crate::craft::{header, over_ip, over_udp, BEGIN, END, MIDDLE, PLAIN_LEAD, S, WHOLE};
use crate::dice::Dice;
use crate::directed::NamedCapture;
use crate::faults::Faults;
use crate::packet::{big_endian, Kind, Packet, Transport, HEADER_BYTES, LONGEST_PACKET, MPEG_BYTES, MPEG_SYNC};
use crate::sender::{send, Order, Position};

/// How the traffic of a family looks. Shares are out of 100.
#[derive(Clone, Copy)]
struct Style {
    name: &'static str,
    most_entries: (usize, usize),
    frames: (usize, usize),
    limits: (usize, usize),
    mpeg_packets: (usize, usize),
    /// D-MPT among the sessions opened.
    dmpt_sessions: usize,
    /// Data entries that pick a D-MPT session where both kinds are open.
    dmpt_share: usize,
    /// Packets damaged on the way.
    damaged: usize,
    /// Packets made by dice under a plausible header.
    random: usize,
    /// Packets whose joined length is close to the longest frame.
    near_longest: usize,
    /// PSP packets with S clear.
    unnumbered: usize,
}

const SMALL: Style = Style {
    name: "small",
    most_entries: (700, MOST_ENTRIES),
    frames: (1, 30),
    limits: (16, 40),
    mpeg_packets: (1, 1),
    dmpt_sessions: 30,
    dmpt_share: 6,
    damaged: 0,
    random: 0,
    near_longest: 0,
    unnumbered: 8,
};
const DAMAGED: Style = Style { name: "damaged-packets", damaged: 30, ..SMALL };
const RANDOM: Style = Style { name: "random-packets", random: 60, dmpt_share: 4, ..SMALL };
const MEDIUM: Style = Style { name: "medium", frames: (1, 300), limits: (16, 300), mpeg_packets: (1, 2), ..SMALL };
const MPEG: Style =
    Style { name: "mpeg", mpeg_packets: (1, 4), dmpt_sessions: 70, dmpt_share: 60, damaged: 10, ..SMALL };
const LARGE: Style = Style {
    name: "large",
    frames: (1, LONGEST_FRAME),
    limits: (300, 4_096),
    mpeg_packets: (1, 21),
    near_longest: 35,
    damaged: 5,
    ..SMALL
};
/// The sound captures that damaged files are made of.
const SHORT: Style = Style { name: "damaged-file", most_entries: (1, 60), ..SMALL };

/// The families, in rotation.
const ROTATION: [Style; 15] =
    [SMALL, DAMAGED, SHORT, MEDIUM, SMALL, SHORT, RANDOM, SMALL, SHORT, MPEG, DAMAGED, SHORT, LARGE, SMALL, SHORT];

/// The capture of that index.
pub fn capture(seed: u64, index: usize) -> NamedCapture {
    let mut dice = Dice::for_index(seed, index as u64);
    let style = ROTATION[index % ROTATION.len()];
    let mut file = Traffic::new(&mut dice, style).run().write();
    if style.name == SHORT.name {
        damage_file(&mut dice, &mut file);
    }
    NamedCapture { name: style.name.to_string(), file }
}

/// The sender of one flow.
#[derive(Clone, Default)]
struct Outlet {
    number: u16,
    frames: Vec<Vec<u8>>,
    position: Position,
}

/// Traffic under construction.
struct Traffic<'a> {
    dice: &'a mut Dice,
    style: Style,
    entries: Vec<Entry>,
    size: usize,
    most_entries: usize,
    /// The IDs in use, more than there are rows.
    ids: Vec<u32>,
    /// How many of 100 packets of an ID come over UDP.
    udp_shares: BTreeMap<u32, usize>,
    open: BTreeMap<u32, Kind>,
    outlets: BTreeMap<(u32, u8), Outlet>,
    /// Packets on their way, each with the number of entries after which it arrives.
    delayed: Vec<(usize, Packet)>,
}

impl<'a> Traffic<'a> {
    fn new(dice: &'a mut Dice, style: Style) -> Traffic<'a> {
        let most_entries = dice.between(style.most_entries.0, style.most_entries.1);
        let ids = some_ids(dice);
        let udp_shares = ids.iter().map(|id| (*id, dice.pick(&[0, 0, 100, 100, 50, 50, 10]))).collect();
        Traffic {
            dice,
            style,
            entries: Vec::new(),
            size: NUMBER_BYTES,
            most_entries,
            ids,
            udp_shares,
            open: BTreeMap::new(),
            outlets: BTreeMap::new(),
            delayed: Vec::new(),
        }
    }

    /// Steps until an entry has no room any more.
    fn run(mut self) -> Capture {
        for _ in 0..self.dice.between(1, ROWS) {
            let entry = self.open_some();
            self.push(entry);
        }
        while self.step() {}
        Capture { entries: self.entries }
    }

    /// Adds an entry if there is room for it.
    fn push(&mut self, entry: Entry) -> bool {
        let fits = self.entries.len() < self.most_entries && self.size + entry.size() <= LONGEST_FILE;
        if fits {
            self.size += entry.size();
            self.entries.push(entry);
        }
        fits
    }

    fn step(&mut self) -> bool {
        let now = self.entries.len();
        if let Some(place) = self.delayed.iter().position(|(due, _)| *due <= now) {
            let (_, packet) = self.delayed.swap_remove(place);
            return self.push(Entry::Data(packet));
        }
        match self.dice.below(1_000) {
            0..=24 => {
                let entry = self.open_some();
                self.push(entry)
            }
            25..=39 => {
                let entry = self.close_some();
                self.push(entry)
            }
            _ => self.data_step(),
        }
    }

    /// Opens an ID: mostly one that is not open, now and then one that is, or 0.
    fn open_some(&mut self) -> Entry {
        let kind = if self.dice.percent(self.style.dmpt_sessions) { Kind::Dmpt } else { Kind::Psp };
        let closed: Vec<u32> = self.ids.iter().copied().filter(|id| !self.open.contains_key(id)).collect();
        let id = match self.dice.below(20) {
            0 => 0,
            1..=3 => self.dice.pick(&self.ids),
            _ => self.dice.pick(&closed),
        };
        if id != 0 && !self.open.contains_key(&id) && self.open.len() < ROWS {
            self.open.insert(id, kind);
            self.restart(id);
        }
        Entry::Open(kind, id)
    }

    /// A session opened anew mostly starts with other numbers and other frames; sometimes its senders just go on.
    fn restart(&mut self, id: u32) {
        if self.dice.percent(30) {
            return;
        }
        for flow in 0..FLOWS as u8 {
            let number = some_number(self.dice);
            self.outlets.insert((id, flow), Outlet { number, ..Outlet::default() });
        }
    }

    /// Closes an ID, mostly an open one.
    fn close_some(&mut self) -> Entry {
        let open: Vec<u32> = self.open.keys().copied().collect();
        let id = match self.dice.below(10) {
            0 => 0,
            1 | 2 => self.dice.pick(&self.ids),
            _ if open.is_empty() => self.dice.pick(&self.ids),
            _ => self.dice.pick(&open),
        };
        self.open.remove(&id);
        Entry::Close(id)
    }

    /// Makes a packet and lets it meet its fate.
    fn data_step(&mut self) -> bool {
        let (id, kind) = self.some_session();
        let mut bytes = self.some_packet(id, kind);
        match self.dice.below(100) {
            0..=4 => true,
            5..=8 => {
                // The copy may come by the other transport.
                let copy = self.carry(id, &bytes);
                self.delay(copy);
                self.arrive(id, &bytes)
            }
            9..=12 => {
                let packet = self.carry(id, &bytes);
                self.delay(packet);
                true
            }
            13..=14 => {
                renumber(self.dice, &mut bytes);
                self.go_on_after(&bytes);
                self.arrive(id, &bytes)
            }
            _ => self.arrive(id, &bytes),
        }
    }

    fn arrive(&mut self, id: u32, bytes: &[u8]) -> bool {
        let packet = self.carry(id, bytes);
        self.push(Entry::Data(packet))
    }

    /// A packet from its session ID on, as the style asks for it.
    fn some_packet(&mut self, id: u32, kind: Kind) -> Vec<u8> {
        if self.dice.percent(self.style.random) {
            self.random_packet(id, kind)
        } else if kind == Kind::Psp && self.dice.percent(self.style.near_longest) {
            self.near_longest_packet(id)
        } else {
            self.sound_packet(id, kind)
        }
    }

    /// Puts a packet on one of the transports, and damages it as the style asks for it.
    fn carry(&mut self, id: u32, bytes: &[u8]) -> Packet {
        let udp_share = self.udp_shares.get(&id).copied().unwrap_or(50);
        let mut packet = carry(self.dice, udp_share, bytes);
        if self.dice.percent(2) {
            damage_transport(self.dice, &mut packet);
        }
        if self.dice.percent(self.style.damaged) {
            damage_packet(self.dice, &mut packet);
        }
        packet
    }

    /// A flow whose packet got another number mostly goes on from there; otherwise it may be late for long.
    fn go_on_after(&mut self, packet: &[u8]) {
        if packet.len() >= HEADER_BYTES && self.dice.percent(80) {
            let number = u16::from_be_bytes([packet[6], packet[7]]);
            self.outlet(big_endian(&packet[..4]), packet[4] & 0x03).number = number.wrapping_add(1);
        }
    }

    fn delay(&mut self, packet: Packet) {
        let due = self.entries.len() + self.dice.between(1, 12);
        self.delayed.push((due, packet));
    }

    /// A session to send for: mostly an open one, of the kind that the style asks for.
    fn some_session(&mut self) -> (u32, Kind) {
        let wanted = if self.dice.percent(self.style.dmpt_share) { Kind::Dmpt } else { Kind::Psp };
        let fitting: Vec<u32> = self.open.iter().filter(|(_, kind)| **kind == wanted).map(|(id, _)| *id).collect();
        if !fitting.is_empty() && !self.dice.percent(3) {
            return (self.dice.pick(&fitting), wanted);
        }
        let id = if self.dice.percent(10) { 0 } else { self.dice.pick(&self.ids) };
        (id, self.open.get(&id).copied().unwrap_or(Kind::Psp))
    }

    fn outlet(&mut self, id: u32, flow: u8) -> &mut Outlet {
        self.outlets.entry((id, flow)).or_default()
    }

    /// The number that comes next on a flow, which after that is one further; now and then some are left out.
    fn take_number(&mut self, id: u32, flow: u8) -> u16 {
        let left_out = match self.dice.below(500) {
            0 => self.dice.pick(&[32_765, 32_766, 32_767]),
            1..=9 => self.dice.pick(&[1, 1, 2, 3, 255]),
            _ => 0,
        };
        let outlet = self.outlet(id, flow);
        let number = outlet.number.wrapping_add(left_out);
        outlet.number = number.wrapping_add(1);
        number
    }

    fn sound_packet(&mut self, id: u32, kind: Kind) -> Vec<u8> {
        let mut packet = match kind {
            Kind::Psp => self.psp_packet(id),
            Kind::Dmpt => self.dmpt_packet(id),
        };
        if self.dice.percent(10) {
            packet[4] |= 0x08;
        }
        if self.dice.percent(10) {
            packet[5] |= 0x80;
        }
        packet
    }

    /// A packet with S clear, in the midst of what the sender of its flow sends; where a number would stand, one around the
    /// next one or any. Most of its segments are whole.
    fn unnumbered_packet(&mut self, id: u32) -> Vec<u8> {
        let flow = self.some_flow();
        let (next, any) = (self.outlet(id, flow).number, self.dice.next() as u16);
        let field = self.dice.pick(&[next, next.wrapping_sub(1), next.wrapping_add(1), 0, any]);
        let (shortest, longest) = self.style.frames;
        let longest = longest.min(self.dice.pick(&[12, 300, LONGEST_FRAME]));
        let mut segments: Vec<(u16, usize)> =
            (0..self.dice.between(1, 3)).map(|_| (WHOLE, self.dice.between(shortest, longest))).collect();
        if longest == LONGEST_FRAME {
            segments.truncate(1);
            segments[0].1 = LONGEST_FRAME - 2 + self.dice.below(5);
        }
        let last = segments.len() - 1;
        segments[0].0 &= self.dice.pick(&[WHOLE, WHOLE, END]);
        segments[last].0 &= self.dice.pick(&[WHOLE, WHOLE, BEGIN]);
        self.packet_of(id, flow, field, &segments)
    }

    /// The next packet of a flow, cut by the sender. Now and then it loses its S on the way: its number is then missing.
    fn psp_packet(&mut self, id: u32) -> Vec<u8> {
        if self.dice.percent(self.style.unnumbered) {
            return self.unnumbered_packet(id);
        }
        let flow = self.some_flow();
        let number = self.take_number(id, flow);
        let limit = self.dice.between(self.style.limits.0, self.style.limits.1);
        let mut outlet = self.outlets.remove(&(id, flow)).unwrap_or_default();
        if outlet.position.frame == outlet.frames.len() {
            outlet.frames = self.some_frames();
            outlet.position = Position::default();
        }
        // Packets of a session that the sender would refuse, ID 0, are made for another and get their ID afterwards.
        let order = Order { session: id.max(1), flow, number, limit };
        let sent = send(order, &outlet.frames, outlet.position, Faults::NONE).expect("a sound order");
        outlet.position = sent.position;
        self.outlets.insert((id, flow), outlet);
        let mut packet = sent.packet;
        packet[..4].copy_from_slice(&id.to_be_bytes());
        if self.dice.percent(1) {
            packet[4] &= !S;
        }
        packet
    }

    /// Flows 0 and 1 more often than 2 and 3.
    fn some_flow(&mut self) -> u8 {
        self.dice.pick(&[0, 0, 0, 1, 1, 1, 2, 3])
    }

    fn some_frames(&mut self) -> Vec<Vec<u8>> {
        let (shortest, longest) = self.style.frames;
        (0..self.dice.between(1, 6))
            .map(|_| {
                let length = if self.dice.percent(30) { shortest } else { self.dice.between(shortest, longest) };
                self.dice.bytes(length)
            })
            .collect()
    }

    fn dmpt_packet(&mut self, id: u32) -> Vec<u8> {
        let number = self.take_number(id, 0);
        let byte4 = if self.dice.percent(75) { S } else { 0 };
        let mut packet = header(id, byte4, self.dice.byte(), number);
        for _ in 0..self.dice.between(self.style.mpeg_packets.0, self.style.mpeg_packets.1) {
            let mut mpeg = self.dice.bytes(MPEG_BYTES);
            mpeg[0] = MPEG_SYNC;
            if self.dice.percent(25) {
                mpeg[1] |= 0x1F;
                mpeg[2] = 0xFF;
            }
            packet.extend(mpeg);
        }
        packet
    }

    /// Segments that bring what is held close to 2,048 bytes, from either side.
    fn near_longest_packet(&mut self, id: u32) -> Vec<u8> {
        let flow = self.some_flow();
        let number = self.take_number(id, flow);
        let close = LONGEST_FRAME + self.dice.below(5) - 2;
        let long = self.dice.pick(&[1, 2, 1_000, 1_023, 1_024, 1_025, close / 2, close - 1, close]);
        let first = self.dice.pick(&[BEGIN, BEGIN, MIDDLE, END, WHOLE]);
        let mut segments = vec![(first, long)];
        if first & END != 0 && self.dice.percent(50) {
            let marks = self.dice.pick(&[BEGIN, WHOLE]);
            segments.push((marks, self.dice.between(1, 1_300)));
        }
        let byte4 = flow | if self.dice.percent(self.style.unnumbered) { 0 } else { S };
        self.packet_of(id, byte4, number, &segments)
    }

    /// A PSP packet with the marks and lengths given and random bytes.
    fn packet_of(&mut self, id: u32, byte4: u8, number: u16, segments: &[(u16, usize)]) -> Vec<u8> {
        let mut packet = header(id, byte4, segments.len() as u8, number);
        packet.extend(segments.iter().flat_map(|(marks, length)| (marks | *length as u16).to_be_bytes()));
        let bytes = segments.iter().map(|(_, length)| length).sum();
        packet.extend(self.dice.bytes(bytes));
        packet
    }

    /// Random bytes under a header that is mostly sound: any marks, lengths that mostly add up.
    fn random_packet(&mut self, id: u32, kind: Kind) -> Vec<u8> {
        let flow = if self.dice.percent(3) { self.dice.below(8) as u8 } else { self.some_flow() };
        let number = self.take_number(id, flow & 3);
        let mut byte4 = if kind == Kind::Psp { flow } else { 0 };
        byte4 |= if self.dice.percent(15) { 0 } else { S };
        byte4 |= if self.dice.percent(3) { self.dice.byte() & 0xB8 } else { 0 };
        if kind == Kind::Dmpt {
            let length = self.dice.pick(&[0, 1, 187, 188, 188, 188, 189]);
            let mut packet = header(id, byte4, self.dice.byte(), number);
            packet.extend(self.dice.bytes(length));
            if length > 0 && self.dice.percent(70) {
                packet[HEADER_BYTES] = MPEG_SYNC;
            }
            return packet;
        }
        let segments = self.random_segments();
        let mut packet = self.packet_of(id, byte4, number, &segments);
        if self.dice.percent(5) {
            packet.push(self.dice.byte());
        }
        if self.dice.percent(5) {
            packet.truncate(self.dice.between(HEADER_BYTES, packet.len()));
        }
        packet
    }

    /// Up to five segments with any marks, three times out of four as the layout demands them.
    fn random_segments(&mut self) -> Vec<(u16, usize)> {
        let count = self.dice.pick(&[0, 1, 1, 1, 2, 2, 3, 4, 5]);
        let sound = self.dice.percent(75);
        (0..count)
            .map(|place| {
                let mut marks = self.dice.pick(&[MIDDLE, END, BEGIN, WHOLE]);
                if sound {
                    marks |= if place > 0 { BEGIN } else { 0 };
                    marks |= if place + 1 < count { END } else { 0 };
                }
                let length = if self.dice.percent(2) { 0 } else { self.dice.between(1, 12) };
                (marks, length)
            })
            .collect()
    }
}

/// Nine IDs, most of them close to one another.
fn some_ids(dice: &mut Dice) -> Vec<u32> {
    let base = (dice.next() as u32) | 0x0001_0100;
    let mut ids = vec![base];
    while ids.len() < ROWS + 3 {
        let id = match dice.below(3) {
            0 => base ^ (1 << dice.below(32)),
            1 => dice.between(1, 9) as u32,
            _ => dice.next() as u32,
        };
        if id != 0 && !ids.contains(&id) {
            ids.push(id);
        }
    }
    ids
}

/// A number to start with: often one that soon wraps around.
fn some_number(dice: &mut Dice) -> u16 {
    let wraps_soon = 65_535 - dice.below(20) as u16;
    let halfway = 32_768 - dice.below(20) as u16;
    let any = dice.next() as u16;
    dice.pick(&[wraps_soon, wraps_soon, halfway, any, 0])
}

/// Moves a packet's sequence number, mostly by a distance of interest.
fn renumber(dice: &mut Dice, packet: &mut [u8]) {
    if packet.len() < HEADER_BYTES {
        return;
    }
    let any = dice.next() as u16;
    let distance = dice.pick(&[1, 2, 32_766, 32_767, 32_768, 32_769, 65_535, 65_534, any]);
    let number = u16::from_be_bytes([packet[6], packet[7]]).wrapping_add(distance);
    packet[6..8].copy_from_slice(&number.to_be_bytes());
}

/// Puts a packet, from its session ID on, on UDP in so many of 100 throws, and else on IP. Over UDP the bits that are
/// ignored are mostly set by dice.
pub fn carry(dice: &mut Dice, udp_share: usize, bytes: &[u8]) -> Packet {
    if !dice.percent(udp_share) {
        return over_ip(bytes.to_vec());
    }
    let thrown = [dice.byte() & 0x7F, dice.byte() & 0xF0 | 0x03, dice.byte(), dice.byte()];
    over_udp(dice.pick(&[PLAIN_LEAD, thrown, thrown]), bytes)
}

/// Sets T, throws another version, or gives a packet as one that came by the other transport.
fn damage_transport(dice: &mut Dice, packet: &mut Packet) {
    match (packet.transport, dice.below(3)) {
        (Transport::Ip, _) => packet.transport = Transport::Udp,
        (Transport::Udp, 0) => packet.bytes[0] |= 0x80,
        (Transport::Udp, 1) => packet.bytes[1] ^= dice.between(1, 15) as u8,
        (Transport::Udp, _) => packet.transport = Transport::Ip,
    }
}

/// Damages a packet, which has at least the bytes of session ID and header, in one of several ways.
pub fn damage_packet(dice: &mut Dice, packet: &mut Packet) {
    let Packet { transport, bytes } = packet;
    let (lead, length) = (transport.lead(), bytes.len());
    match dice.below(10) {
        0 => bytes.truncate(dice.below(length)),
        1 => bytes.truncate(length.saturating_sub(dice.between(1, 3))),
        2 => {
            let more = dice.between(1, 4);
            bytes.extend(dice.bytes(more));
        }
        3 => flip_bits(dice, bytes, 0, length),
        4 => flip_bits(dice, bytes, lead + 4, lead + 6),
        5 => flip_bits(dice, bytes, lead + 6, lead + 8),
        6 => flip_bits(dice, bytes, lead + HEADER_BYTES, lead + 14),
        7 => {
            let place = dice.below(length.min(lead + 12));
            bytes[place] = dice.byte();
        }
        8 => damage_transport(dice, packet),
        _ if dice.percent(5) => bytes.resize(lead + LONGEST_PACKET + dice.below(3), 0),
        _ => shift_length(dice, &mut bytes[lead..]),
    }
}

/// Flips one to three bits of the bytes from `low` to below `high`, as far as there are any.
pub fn flip_bits(dice: &mut Dice, bytes: &mut [u8], low: usize, high: usize) {
    let high = high.min(bytes.len());
    if low >= high {
        return;
    }
    for _ in 0..dice.between(1, 3) {
        bytes[dice.between(low, high - 1)] ^= 1 << dice.below(8);
    }
}

/// Takes some bytes from one segment of a PSP packet and gives them to the next: the sum stays right.
fn shift_length(dice: &mut Dice, packet: &mut [u8]) {
    if packet.len() < HEADER_BYTES + 4 {
        return;
    }
    let moved = dice.between(1, 6) as u8;
    packet[9] = packet[9].wrapping_sub(moved);
    packet[11] = packet[11].wrapping_add(moved);
}

/// Damages a capture file in one of several ways.
fn damage_file(dice: &mut Dice, file: &mut Vec<u8>) {
    let length = file.len();
    let entries = usize::from(u16::from_be_bytes([file[0], file[1]]));
    let contents_end = 2 + 4 * entries;
    let entry = 2 + 4 * dice.below(entries);
    match dice.below(14) {
        0 => flip_bits(dice, file, 2, contents_end),
        1 => flip_bits(dice, file, 0, 2),
        2 => file.truncate(dice.below(length)),
        3 => file.truncate(dice.below(contents_end)),
        4 => file.truncate(length - 1),
        5 => {
            let more = dice.between(1, 50);
            file.extend(dice.bytes(more));
        }
        6 | 7 => file.resize(LONGEST_FILE + dice.between(1, 9_000), 0),
        8 => file[0] |= dice.between(4, 255) as u8,
        9 => file[entry] = dice.pick(&[0, 1, 2, 3, 4, 5, 8, 9, 255]),
        10 => file[entry + 3] = file[entry + 3].wrapping_add(dice.pick(&[1, 255])),
        11 => shift_boundary(file, entries),
        12 => {
            let length = dice.below(200);
            *file = dice.bytes(length);
            if file.len() > 1 {
                file[0] = 0;
                file[1] &= 0x0F;
            }
        }
        _ => flip_bits(dice, file, contents_end, length),
    }
}

/// Moves the boundary between two data entries that follow one another: the file stays sound.
fn shift_boundary(file: &mut [u8], entries: usize) {
    let line = |entry: usize| 2 + 4 * entry;
    let is_data = |entry: usize| [4, 5].contains(&file[line(entry)]);
    let both_data = |entry: &usize| is_data(*entry) && is_data(*entry + 1);
    let Some(first) = (0..entries.saturating_sub(1)).rfind(both_data) else {
        return;
    };
    let (from, to) = (line(first) + 2, line(first + 1) + 2);
    let length = |place: usize| u16::from_be_bytes([file[place], file[place + 1]]);
    let (shorter, longer) = (length(from).saturating_sub(3), length(to) + length(from).min(3));
    file[from..from + 2].copy_from_slice(&shorter.to_be_bytes());
    file[to..to + 2].copy_from_slice(&longer.to_be_bytes());
}

#[cfg(test)]
mod tests {
    use super::*;
    use crate::card::Card;
    use crate::packet::Body;

    /// The body bytes of a packet: what its segments or MPEG packets hold.
    fn body_bytes(kind: Kind, packet: &Packet) -> usize {
        let Packet { transport, bytes } = packet;
        let header = crate::packet::read_header(*transport, bytes, Faults::NONE).unwrap();
        match crate::packet::read_body(kind, *transport, &header, bytes, Faults::NONE).unwrap() {
            Body::Segments(segments) => segments.iter().map(|segment| segment.bytes.len()).sum(),
            Body::Mpeg(packets) => packets.iter().map(|packet| packet.len()).sum(),
        }
    }

    /// Document 01, 'Opening, closing, listening': body bytes accepted are delivered, dropped or held.
    #[test]
    fn the_byte_account_balances_over_generated_traffic() {
        for index in 0..2 * ROTATION.len() {
            let Ok(capture) = Capture::read(&super::capture(7, index).file, Faults::NONE) else {
                continue;
            };
            let mut card = Card::new(Faults::NONE);
            let (mut taken, mut settled) = (0, 0);
            for entry in &capture.entries {
                let answer = match entry {
                    Entry::Open(kind, id) => card.open(*id, *kind),
                    Entry::Close(id) => card.close(*id),
                    Entry::Data(packet) => card.data(packet.transport, &packet.bytes),
                };
                let Ok(answer) = answer else {
                    continue;
                };
                settled += answer.bytes() + answer.dropped;
                if let Entry::Data(packet) = entry {
                    let id = big_endian(&packet.after_lead()[..4]);
                    let kind = card.rows().into_iter().find(|(open, _)| *open == id).unwrap().1.kind;
                    taken += body_bytes(kind, packet);
                }
                let held: usize =
                    card.rows().iter().flat_map(|(_, session)| &session.flows).map(|flow| flow.held.len()).sum();
                assert_eq!(taken, settled + held, "capture {index}");
            }
        }
    }

    /// Document 02, W2: such packets are taken, and often in the midst of a frame, whose beginning they drop.
    #[test]
    fn packets_without_a_number_are_common_and_matter() {
        let (mut taken, mut breaking) = (0, 0);
        for index in 0..2 * ROTATION.len() {
            let Ok(capture) = Capture::read(&super::capture(7, index).file, Faults::NONE) else {
                continue;
            };
            let mut card = Card::new(Faults::NONE);
            for entry in &capture.entries {
                let held = |card: &Card| -> usize {
                    let flows = card.rows().into_iter().flat_map(|(_, session)| &session.flows);
                    flows.map(|flow| flow.held.len()).sum()
                };
                let before = held(&card);
                let answer = match entry {
                    Entry::Open(kind, id) => card.open(*id, *kind),
                    Entry::Close(id) => card.close(*id),
                    Entry::Data(packet) => card.data(packet.transport, &packet.bytes),
                };
                let clear = matches!(entry, Entry::Data(packet) if packet.after_lead().get(4).is_some_and(|byte| byte & S == 0));
                taken += usize::from(clear && answer.is_ok());
                breaking += usize::from(clear && answer.is_ok() && held(&card) < before);
            }
        }
        assert!(taken > 500 && breaking > 100, "{taken} taken, {breaking} of them in the midst of a frame");
    }

    #[test]
    fn a_seed_makes_the_same_capture_again() {
        assert_eq!(super::capture(3, 4).file, super::capture(3, 4).file);
        assert_ne!(super::capture(3, 4).file, super::capture(4, 4).file);
    }

    #[test]
    fn all_captures_but_the_damaged_ones_are_sound_files() {
        for (index, style) in ROTATION.iter().enumerate().filter(|(_, style)| style.name != SHORT.name) {
            assert!(Capture::read(&super::capture(5, index).file, Faults::NONE).is_ok(), "{}", style.name);
        }
    }
}

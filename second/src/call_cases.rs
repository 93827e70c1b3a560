//! Directed calls: what no capture can ask for, each limit from both sides, and the orders of refusals. They do not
//! depend on a seed. Each function is one theme; the cases are named in `records`.

use crate::aimed;
use crate::calls::{Array, Arrival, Lent, Sending, HOLDING_BYTES, MOST_BYTES};
use crate::capture::{Capture, Entry};
use crate::card::{FLOWS, LONGEST_FRAME, ROWS};
use crate::craft::{
    carried, dmpt, header, over_udp, psp, without_number, BEGIN, END, MIDDLE, S, SOUND_LEADS, WHOLE, WRONG_LEADS,
};
use crate::dice::Dice;
use crate::directed;
use crate::faults::Faults;
use crate::generate::carry;
use crate::packet::{Transport, HEADER_BYTES, LONGEST_PACKET, MPEG_BYTES};
use crate::packets::{self, Question, OTHER_KINDS, OTHER_TRANSPORTS};
use crate::raw::{RawFlow, RawRow, RawTable, CLOSED, DMPT, PSP};
use crate::records::{Recorded, Recorder};
use crate::sender::MOST_FRAMES;
use crate::tables::{self, new_id, FOREIGN_KINDS};
use crate::transport_cases;
use crate::unnumbered_cases;

const MOST_SEGMENTS: usize = 127;
pub const PSP_ID: u32 = 0x0000_0101;
pub const DMPT_ID: u32 = 0xFFFF_FFFE;
pub const STRANGER: u32 = 0x0101_0000;
/// Places of segments that are beyond any count, some of them 0 or 1 to who reads only some of the bits.
const FAR: [u64; 8] = [128, 255, 256, 65_536, 1 << 32, (1 << 32) + 1, 1 << 63, u64::MAX];

/// All directed calls; short themes come first, so that a fault is soon found.
pub fn all(recorder: &mut Recorder) -> Recorded<()> {
    first(recorder)?;
    transport_cases::all(recorder)?;
    slices(recorder)?;
    opens(recorder)?;
    closes(recorder)?;
    copies(recorder)?;
    sends(recorder)?;
    null_packets(recorder)?;
    numbers(recorder)?;
    joined_lengths(recorder)?;
    fullest_packets(recorder)?;
    unnumbered_cases::all(recorder)?;
    checks(recorder)?;
    broken_tables(recorder)?;
    for transport in Transport::ALL {
        for traits in [Traits { kind: PSP, clear: false, transport }, Traits { kind: PSP, clear: true, transport }] {
            refusals(recorder, traits)?;
        }
        refusals(recorder, Traits { kind: DMPT, clear: false, transport })?;
    }
    segments(recorder)?;
    packets_received(recorder)?;
    for capture in directed::captures() {
        replay(recorder, &capture.file)?;
    }
    sends_to_the_end(recorder)
}

/// Each call a few times: packets A and B of document 01 received, by both transports, and sent.
fn first(recorder: &mut Recorder) -> Recorded<()> {
    let case = "first calls";
    let a = [header(PSP_ID, 0x41, 2, 0xFFFF), vec![0xC0, 6, 0x80, 2, 1, 2, 3, 4, 5, 6, 7, 8]].concat();
    let b = [header(PSP_ID, 0x41, 1, 0), vec![0x40, 7, 9, 10, 11, 12, 13, 14, 15]].concat();
    recorder.open(case, &RawTable::default(), 7, DMPT)?;
    recorder.open(case, &recorder.table(), PSP_ID, PSP)?;
    for (transport, packet) in [(Transport::Ip, &a), (Transport::Udp, &b), (Transport::Ip, &b)] {
        recorder.receive(case, &recorder.table(), &carried(transport, 0, packet).into())?;
    }
    recorder.close(case, &recorder.table(), PSP_ID)?;
    for transport in Transport::ALL {
        let arrival = carried(transport, 0, &a).into();
        recorder.check(case, PSP, &arrival)?;
        recorder.segment(case, PSP, &arrival, 1)?;
        recorder.segment(case, PSP, &arrival, 2)?;
        recorder.segment_copy(case, PSP, &arrival, 0, 6)?;
        recorder.segment_copy(case, PSP, &arrival, 0, 5)?;
        recorder.segment_copy(case, PSP, &arrival, 1, 20)?;
        recorder.segment_copy(case, PSP, &arrival, 2, 20)?;
    }
    let sending = sending(&[6, 9]);
    recorder.send(case, &sending)?;
    recorder.send(case, &Sending { number: 0, frame: 1, offset: 2, ..sending })?;
    Ok(())
}

/// The packet check, on the directed packets of `packets`.
fn checks(recorder: &mut Recorder) -> Recorded<()> {
    for question in packets::directed() {
        recorder.check(check_case(&question), question.kind, &question.arrival)?;
    }
    Ok(())
}

pub fn check_case(question: &Question) -> &'static str {
    let kind = [PSP, DMPT].contains(&question.kind);
    let transport = Transport::ALL.iter().any(|transport| transport.number() == question.arrival.transport);
    match (kind, transport) {
        (true, true) => "packets checked",
        (false, true) => "packets checked as kinds that there are not",
        (true, false) => "packets checked by transports that there are not",
        (false, false) => "packets checked as kinds and by transports that there are not",
    }
}

/// The segment count that a packet announces, 0 where it ends before that.
pub fn count_of(arrival: &Arrival) -> u64 {
    let lead = if arrival.transport == Transport::Udp.number() { Transport::Udp.lead() } else { 0 };
    arrival.bytes.get(lead + 5).map_or(0, |byte| u64::from(byte & 0x7F))
}

/// Segments of the same packets: the first, the last, the one after it, and others in turn; and each of 127.
fn segments(recorder: &mut Recorder) -> Recorded<()> {
    for (turn, packet) in packets::all().into_iter().enumerate() {
        if packet.after_lead().len() > LONGEST_PACKET + 1 {
            continue;
        }
        let arrival = Arrival::from(packet);
        let count = count_of(&arrival);
        if crate::calls::check(PSP, &arrival, Faults::NONE).code() == 0 {
            recorder.segment("segments of packets", PSP, &arrival, count - 1)?;
            recorder.segment("segments of packets", PSP, &arrival, turn as u64 % count)?;
            recorder.segment("segments beyond the count", PSP, &arrival, count)?;
        } else {
            let k = [0, count, 5, u64::MAX][turn % 4];
            recorder.segment("segments of packets that are refused", PSP, &arrival, k)?;
        }
    }
    let segments: Vec<(u16, usize)> = (1..=MOST_SEGMENTS).map(|place| (WHOLE, 1 + place % 5)).collect();
    for transport in Transport::ALL {
        let most = carried(transport, 1, &psp(PSP_ID, 3, 9, &segments)).into();
        for k in 0..MOST_SEGMENTS as u64 {
            recorder.segment("each of 127 segments", PSP, &most, k)?;
        }
        let one = carried(transport, 1, &psp(PSP_ID, 0, 9, &[(WHOLE, 2)])).into();
        for k in [MOST_SEGMENTS as u64].iter().chain(&FAR) {
            recorder.segment("segments beyond the count", PSP, &most, *k)?;
            recorder.segment("segments beyond the count", PSP, &one, *k)?;
        }
    }
    Ok(())
}

/// Segments copied: each of some packets and the one behind the last, S set and clear, into outputs of no byte, of one,
/// around the segment's length, and of all that there is.
fn copies(recorder: &mut Recorder) -> Recorded<()> {
    let sorts: [&[(u16, usize)]; 5] = [
        &[(END, 4), (WHOLE, 300), (BEGIN, 1)],
        &[(WHOLE, 2_048), (WHOLE, 2_000)],
        &[(MIDDLE, 4_000)],
        &[(END, 63), (WHOLE, 64), (WHOLE, 65)],
        &[(WHOLE, 1), (WHOLE, 127), (WHOLE, 128), (BEGIN, 129)],
    ];
    for (turn, segments) in sorts.into_iter().enumerate() {
        let bytes = psp(PSP_ID, 1, 100, segments);
        for (transport, bytes) in Transport::ALL
            .into_iter()
            .flat_map(|transport| [(transport, bytes.clone()), (transport, without_number(bytes.clone()))])
        {
            let arrival = carried(transport, turn, &bytes).into();
            for k in 0..=segments.len() {
                let length = segments.get(k).map_or(0, |(_, length)| *length);
                let around = [length / 2, length.saturating_sub(1), length, length + 1];
                for room in [0, 1, Array::Output.capacity()].into_iter().chain(around) {
                    recorder.segment_copy("segments copied into each room", PSP, &arrival, k as u64, room)?;
                }
            }
            for (k, room) in FAR.into_iter().flat_map(|k| [(k, 0), (k, 1), (k, 5_000)]) {
                recorder.segment_copy("segments copied into each room", PSP, &arrival, k, room)?;
            }
        }
    }
    copies_refused(recorder)
}

/// The same as every kind and by every transport, and of packets that the check refuses.
fn copies_refused(recorder: &mut Recorder) -> Recorded<()> {
    let sound = psp(PSP_ID, 1, 100, &[(END, 4), (BEGIN, 5)]);
    let over_udp = carried(Transport::Udp, 1, &sound).bytes;
    let mpeg = dmpt(DMPT_ID, S, 100, &[(1, 1)]);
    let transports = Transport::ALL.map(Transport::number);
    for bytes in [sound, over_udp, mpeg, Vec::new()] {
        for kind in [PSP, DMPT].iter().chain(&OTHER_KINDS) {
            for transport in transports.iter().chain(&OTHER_TRANSPORTS) {
                let arrival = Arrival { transport: *transport, bytes: bytes.clone() };
                for (k, room) in [(0, 4), (0, 3), (1, 9), (2, 9)] {
                    let case = "segments copied as each kind and by each transport";
                    recorder.segment_copy(case, *kind, &arrival, k, room)?;
                }
            }
        }
    }
    for (turn, packet) in packets::all().into_iter().enumerate() {
        let arrival = Arrival::from(packet);
        if turn % 7 == 0 && crate::calls::check(PSP, &arrival, Faults::NONE).code() != 0 {
            let case = "segments copied of packets that are refused";
            recorder.segment_copy(case, PSP, &arrival, [0, 1, u64::MAX][turn % 3], [40, 0, 4_096][turn / 7 % 3])?;
        }
    }
    Ok(())
}

/// Opening with each set of rows open: as either kind, with ID 0, with a new ID, and with each ID that is open.
fn opens(recorder: &mut Recorder) -> Recorded<()> {
    let case = "open with each set of rows open";
    let mut dice = Dice::new(0x21);
    for set in 0..1 << ROWS {
        let mut table = tables::sound_open(&mut dice);
        for row in (0..ROWS).filter(|row| set & (1 << row) == 0) {
            table.rows[row] = RawRow::default();
        }
        let mut ids = table.open_ids();
        ids.extend([0, 1, u32::MAX, new_id(&mut dice, &table)]);
        for id in ids {
            recorder.open(case, &table, id, PSP)?;
            recorder.open(case, &table, id, DMPT)?;
        }
    }
    foreign_opens(recorder)
}

/// 24 comes first: before a broken table, ID 0, an open ID and six open rows.
fn foreign_opens(recorder: &mut Recorder) -> Recorded<()> {
    let case = "open as a kind that there is not";
    let mut dice = Dice::new(0x24);
    let full = tables::sound_open(&mut dice);
    let mut broken = full;
    broken.rows[3].id = 0;
    for kind in [CLOSED].iter().chain(&FOREIGN_KINDS) {
        for table in [RawTable::default(), full, broken] {
            for id in [0, 1, full.rows[2].id, new_id(&mut dice, &full)] {
                recorder.open(case, &table, id, *kind)?;
            }
        }
    }
    Ok(())
}

/// Closing each row of tables with anything held, then what is not open: 0, and IDs one bit from an open one.
fn closes(recorder: &mut Recorder) -> Recorded<()> {
    let mut dice = Dice::new(0x25);
    for _ in 0..40 {
        let table = tables::sound(&mut dice);
        for id in table.open_ids() {
            recorder.close("close each row", &table, id)?;
        }
        recorder.close("close what is not open", &table, 0)?;
        let id = new_id(&mut dice, &table);
        recorder.close("close what is not open", &table, id)?;
    }
    let mut full = tables::sound_open(&mut dice);
    for row in &mut full.rows {
        *row = RawRow { kind: PSP, flows: [RawFlow { heard: 1, expected: 5, held: 2_048 }; FLOWS], ..*row };
    }
    for row in full.rows {
        recorder.close("close each row", &full, row.id)?;
        for bit in 0..32 {
            recorder.close("close what is not open", &full, row.id ^ (1 << bit))?;
        }
    }
    recorder.close("close what is not open", &RawTable::default(), 0)?;
    Ok(())
}

/// Each way to be broken, for the three calls that take a table, beside the table that just is not broken.
fn broken_tables(recorder: &mut Recorder) -> Recorded<()> {
    let mut dice = Dice::new(0x13);
    for breach in tables::breaches() {
        calls_of_each_sort(recorder, &mut dice, breach.case, &breach, &breach.broken)?;
        calls_of_each_sort(recorder, &mut dice, "just not broken", &breach, &breach.neighbour)?;
    }
    Ok(())
}

/// A packet for the flow in question and a close of its row; both for the next row too, which is open, since a broken table
/// is refused as a whole; and an open of a new ID. On a sound table all would succeed that find the row open, or room.
fn calls_of_each_sort(
    recorder: &mut Recorder,
    dice: &mut Dice,
    case: &'static str,
    breach: &tables::Breach,
    table: &RawTable,
) -> Recorded<()> {
    // A packet is of the kind that the row has where nothing is wrong with it.
    let in_question = RawRow { kind: breach.neighbour.rows[breach.row].kind, ..table.rows[breach.row] };
    for addressed in [in_question, table.rows[(breach.row + 1) % ROWS]] {
        let bytes = aimed::for_flow(dice, &addressed, breach.flow, 0);
        recorder.receive(case, table, &carry(dice, 50, &bytes).into())?;
        recorder.close(case, table, addressed.id)?;
    }
    let id = new_id(dice, table);
    recorder.open(case, table, id, dice.pick(&[PSP, DMPT]))?;
    Ok(())
}

/// A table with PSP and D-MPT sessions open, each row with something in it.
pub fn busy_table() -> RawTable {
    let mut table = tables::sound_open(&mut Dice::new(0xB5));
    let flow = |expected: u16, held: u16| RawFlow { heard: 1, expected, held };
    table.rows[2] = RawRow { id: PSP_ID, kind: PSP, flows: [flow(100, 3), flow(100, 2), flow(0, 0), flow(7, 9)] };
    table.rows[4] = RawRow { id: DMPT_ID, kind: DMPT, flows: [RawFlow::default(); FLOWS] };
    table.rows[4].flows[0] = flow(100, 0);
    table
}

/// Slices of no element, one short, just enough and longer, in every combination; then each one short beside the other
/// refusals.
fn slices(recorder: &mut Recorder) -> Recorded<()> {
    let table = busy_table();
    let mut dice = Dice::new(1);
    for holding in [0, 1, HOLDING_BYTES - 1, HOLDING_BYTES, HOLDING_BYTES + 1, Array::Holding.capacity()] {
        for output in [0, 1, MOST_BYTES - 1, MOST_BYTES, MOST_BYTES + 1, Array::Output.capacity()] {
            for lengths in [0, 1, MOST_FRAMES - 1, MOST_FRAMES, MOST_FRAMES + 1, Array::Lengths.capacity()] {
                let bytes = aimed::psp(&mut dice, PSP_ID, S | 1, 100, &[(END, 4), (WHOLE, 5), (BEGIN, 6)]);
                let arrival = carry(&mut dice, 50, &bytes).into();
                recorder.receive_with("slices of each length", &table, Lent { holding, output, lengths }, &arrival)?;
            }
        }
    }
    for transport in Transport::ALL {
        short_slices(recorder, transport)?;
    }
    Ok(())
}

/// Each set of slices one short, beside each other refusal.
fn short_slices(recorder: &mut Recorder, transport: Transport) -> Recorded<()> {
    let traits = Traits { kind: PSP, clear: false, transport };
    let names = traits.refusals();
    for set in 0..8 {
        let lent = Lent {
            holding: HOLDING_BYTES - (set & 1),
            output: MOST_BYTES - (set >> 1 & 1),
            lengths: MOST_FRAMES - (set >> 2 & 1),
        };
        for defect in 1..names.len() {
            let defects = Defects { set: 1 << defect, names: &names, traits };
            let case = "slices of each length, together with other refusals";
            recorder.receive_with(case, &defects.table(), lent, &defects.arrival())?;
        }
    }
    Ok(())
}

/// What a packet is beside its defects: its kind, whether S is clear, and how it came.
#[derive(Clone, Copy)]
struct Traits {
    kind: u32,
    clear: bool,
    transport: Transport,
}

impl Traits {
    /// The refusals of the data call that such a packet can earn, in their order.
    fn refusals(self) -> Vec<u32> {
        let mut all = vec![1, 13, 24, 2, 3, 15, 4, 5, 6, 7, 9, 10, 11, 12];
        all.retain(|refusal| match refusal {
            12 => !self.clear,
            15 => self.transport == Transport::Udp,
            _ => true,
        });
        all
    }
}

/// A set of refusals that are to apply at once, as bits in the order of `names`.
struct Defects<'a> {
    set: usize,
    names: &'a [u32],
    traits: Traits,
}

impl Defects<'_> {
    fn has(&self, refusal: u32) -> bool {
        let place = self.names.iter().position(|name| *name == refusal);
        place.is_some_and(|place| self.set & (1 << place) != 0)
    }

    /// The first of the set, and the second where there is no third.
    fn case(&self) -> &'static str {
        let has: Vec<u32> = self.names.iter().copied().filter(|name| self.has(*name)).collect();
        if self.traits.clear {
            return if has.is_empty() { "S clear and no refusal" } else { "S clear: sets of refusals" };
        }
        match has.as_slice() {
            [1, 13] => "refusals 1 and 13",
            [1, 24] => "refusals 1 and 24",
            [13, 24] => "refusals 13 and 24",
            [13, 2] => "refusals 13 and 2",
            [13, 3] => "refusals 13 and 3",
            [24, 2] => "refusals 24 and 2",
            [24, 3] => "refusals 24 and 3",
            [24, 15] => "refusals 24 and 15",
            [2, 15] => "refusals 2 and 15",
            [3, 15] => "refusals 3 and 15",
            [15, 4] => "refusals 15 and 4",
            [15, 5] => "refusals 15 and 5",
            [15, 12] => "refusals 15 and 12",
            [2, 4] => "refusals 2 and 4",
            [3, 4] => "refusals 3 and 4",
            [4, 5] => "refusals 4 and 5",
            [5, 6] => "refusals 5 and 6",
            [6, 7] => "refusals 6 and 7",
            [7, 9] => "refusals 7 and 9",
            [9, 10] => "refusals 9 and 10",
            [9, 12] => "refusals 9 and 12",
            [10, 11] => "refusals 10 and 11",
            [11, 12] => "refusals 11 and 12",
            _ => "other sets of refusals",
        }
    }

    /// For refusal 1 another slice is short from set to set.
    fn lent(&self) -> Lent {
        let short = usize::from(self.has(1));
        match self.set / 2 % 3 {
            0 => Lent { holding: HOLDING_BYTES - short, ..Lent::ENOUGH },
            1 => Lent { output: MOST_BYTES - short, ..Lent::ENOUGH },
            _ => Lent { lengths: MOST_FRAMES - short, ..Lent::ENOUGH },
        }
    }

    /// For refusal 13 the table is broken in a row that the packet is not about.
    fn table(&self) -> RawTable {
        let mut table = busy_table();
        if self.has(13) {
            table.rows[5].flows[3].heard = 2;
        }
        table
    }

    /// ID 0 for refusal 4; it is not open either.
    fn session(&self, open: u32) -> u32 {
        if self.has(4) {
            0
        } else if self.has(5) {
            STRANGER
        } else {
            open
        }
    }

    /// The number that is expected is 100. With S clear what stands there is now that, now the number before it.
    fn number(&self) -> u16 {
        if self.has(12) || (self.traits.clear && self.set.count_ones() % 2 == 0) {
            99
        } else {
            100
        }
    }

    /// Whether the refusals can apply at once. D-MPT: where there are no MPEG packets, they are whole and none starts
    /// wrongly.
    fn can_be(&self) -> bool {
        let short_and_long = self.has(2) && self.has(3);
        let empty_and_spoilt = self.traits.kind == DMPT && self.has(9) && (self.has(10) || self.has(11));
        !short_and_long && !empty_and_spoilt
    }

    /// The packet, by another transport for refusal 24. Leads and transports differ from set to set.
    fn arrival(&self) -> Arrival {
        let mut bytes = if self.traits.kind == PSP { self.psp_packet() } else { self.dmpt_packet() };
        if self.has(2) {
            bytes.truncate(HEADER_BYTES - 1);
        }
        if self.has(3) {
            bytes.resize(LONGEST_PACKET + 1, 0);
        }
        let packet = if self.has(15) {
            over_udp(WRONG_LEADS[self.set % WRONG_LEADS.len()], &bytes)
        } else {
            carried(self.traits.transport, self.set % SOUND_LEADS.len(), &bytes)
        };
        let other = OTHER_TRANSPORTS[self.set % OTHER_TRANSPORTS.len()];
        let arrival = Arrival::from(packet);
        Arrival { transport: if self.has(24) { other } else { arrival.transport }, ..arrival }
    }

    /// Where nothing is wrong: the end of what is held, a whole frame and a beginning. The bytes differ from set to set,
    /// so that writing them shows wherever others were written before.
    fn psp_packet(&self) -> Vec<u8> {
        let version = if self.has(6) { [0x80, 0x10, 0x20][self.set % 3] } else { 0 };
        let flow = if self.has(7) { 5 } else { 1 };
        let byte4 = version | flow | if self.traits.clear { 0 } else { S };
        let second = if self.has(11) { END } else { WHOLE };
        let mut packet = match (self.has(9), self.has(10)) {
            (true, false) => header(self.session(PSP_ID), byte4, 0, self.number()),
            (none, _) => {
                let segments = [(END, 4), (second, 3), (BEGIN, 5)];
                let mut dice = Dice::new(self.set as u64);
                let mut packet = aimed::psp(&mut dice, self.session(PSP_ID), byte4, self.number(), &segments);
                packet[5] = if none { 0 } else { 3 };
                packet
            }
        };
        if self.has(10) {
            packet.push(0);
        }
        packet
    }

    fn dmpt_packet(&self) -> Vec<u8> {
        let byte4 = S | if self.has(6) { [0x80, 0x10, 0x20][self.set % 3] } else { 0 } | u8::from(self.has(7));
        let pids: &[(u8, u8)] = if self.has(9) { &[] } else { &[(1, 1), (2, 2)] };
        let mut packet = dmpt(self.session(DMPT_ID), byte4, self.number(), pids);
        if self.has(11) {
            packet[HEADER_BYTES + MPEG_BYTES] = 0x48;
        }
        if self.has(10) {
            packet.push(0x47);
        }
        packet
    }
}

/// Every set of refusals that can apply at once to one such packet.
fn refusals(recorder: &mut Recorder, traits: Traits) -> Recorded<()> {
    let names = traits.refusals();
    for set in 0..1 << names.len() {
        let defects = Defects { set, names: &names, traits };
        if defects.can_be() {
            recorder.receive_with(defects.case(), &defects.table(), defects.lent(), &defects.arrival())?;
        }
    }
    Ok(())
}

/// The directed packets of `packets`, sent to a PSP session and to a D-MPT session, in each row in turn.
fn packets_received(recorder: &mut Recorder) -> Recorded<()> {
    let case = "packets received";
    for (turn, mut packet) in packets::all().into_iter().enumerate() {
        if packet.after_lead().len() > LONGEST_PACKET + 2 {
            continue;
        }
        let mut table = busy_table();
        table.rows.rotate_left(turn % ROWS);
        recorder.receive(case, &table, &packet.clone().into())?;
        let session = packet.transport.lead()..packet.transport.lead() + 4;
        if let Some(id) = packet.bytes.get_mut(session).filter(|id| **id != [0; 4]) {
            id.copy_from_slice(&DMPT_ID.to_be_bytes());
            recorder.receive(case, &table, &packet.into())?;
        }
    }
    Ok(())
}

/// A sound table in which that flow of that row, a PSP one, is as given.
pub fn table_with_flow(dice: &mut Dice, row: usize, flow: usize, state: RawFlow) -> RawTable {
    let mut table = tables::sound_open(dice);
    table.rows[row].kind = PSP;
    table.rows[row].flows[flow] = state;
    table
}

/// In every row and flow: what is held joined to 2,047, 2,048 and 2,049 bytes, ended and not; and as long by itself.
fn joined_lengths(recorder: &mut Recorder) -> Recorded<()> {
    let case = "joined to 2,047, 2,048 and 2,049";
    let mut dice = Dice::new(0x2048);
    for place in 0..ROWS * FLOWS {
        let (row, flow) = (place / FLOWS, place % FLOWS);
        for joined in LONGEST_FRAME - 1..=LONGEST_FRAME + 1 {
            for held in [0, 1, 1_024, 2_046, 2_047, 2_048] {
                let state = RawFlow { heard: 1, expected: 65_535, held: held as u16 };
                let table = table_with_flow(&mut dice, row, flow, state);
                let id = table.rows[row].id;
                let mut receive = |marks: u16, length: usize| -> Recorded<()> {
                    for transport in Transport::ALL {
                        let bytes = aimed::psp(&mut dice, id, S | flow as u8, 65_535, &[(marks, length)]);
                        recorder.receive(case, &table, &carried(transport, held, &bytes).into())?;
                    }
                    Ok(())
                };
                if held < joined {
                    receive(END, joined - held)?;
                    receive(MIDDLE, joined - held)?;
                }
                receive(WHOLE, joined)?;
                receive(BEGIN, joined)?;
            }
        }
    }
    Ok(())
}

/// In every row and flow: numbers at every distance of interest from every expected one of interest; fresh flows too.
fn numbers(recorder: &mut Recorder) -> Recorded<()> {
    let case = "numbers around the expected one";
    let mut dice = Dice::new(0x12);
    for place in 0..ROWS * FLOWS {
        let (row, flow) = (place / FLOWS, place % FLOWS);
        for expected in [0, 1, 32_767, 32_768, 65_535] {
            for ahead in [0, 1, 2, 32_766, 32_767, 32_768, 32_769, 65_534, 65_535] {
                let number = 0u16.wrapping_add(expected).wrapping_add(ahead);
                for transport in Transport::ALL {
                    let table = table_with_flow(&mut dice, row, flow, RawFlow { heard: 1, expected, held: 3 });
                    let id = table.rows[row].id;
                    let bytes = aimed::psp(&mut dice, id, S | flow as u8, number, &[(END, 2), (BEGIN, 1)]);
                    recorder.receive(case, &table, &carried(transport, place, &bytes).into())?;
                }
            }
            let table = table_with_flow(&mut dice, row, flow, RawFlow::default());
            let bytes = aimed::psp(&mut dice, table.rows[row].id, S | flow as u8, expected, &[(END, 2), (BEGIN, 1)]);
            recorder.receive(case, &table, &carry(&mut dice, 50, &bytes).into())?;
        }
    }
    dmpt_numbers(recorder, &mut dice)
}

/// The same for D-MPT, with S set and clear.
fn dmpt_numbers(recorder: &mut Recorder, dice: &mut Dice) -> Recorded<()> {
    for row in 0..ROWS {
        for expected in [0u16, 32_768, 65_535] {
            for ahead in [0, 1, 32_767, 32_768, 65_535] {
                for (byte4, heard) in [(S, 1), (0, 1), (S, 0), (0, 0)] {
                    let mut table = tables::sound_open(dice);
                    table.rows[row].kind = DMPT;
                    table.rows[row].flows = [RawFlow::default(); FLOWS];
                    table.rows[row].flows[0] = RawFlow { heard, expected: heard * expected, held: 0 };
                    let bytes = dmpt(table.rows[row].id, byte4, expected.wrapping_add(ahead), &[(1, 1)]);
                    let arrival = carry(dice, 50, &bytes).into();
                    recorder.receive("numbers around the expected one", &table, &arrival)?;
                }
            }
        }
    }
    Ok(())
}

/// 127 segments, and the most bytes that a packet can complete: 2,047 held, and frames of 2,048, 2,048 and 2,037.
fn fullest_packets(recorder: &mut Recorder) -> Recorded<()> {
    let mut dice = Dice::new(0x7F);
    for place in 0..ROWS * FLOWS {
        let (row, flow) = (place / FLOWS, place % FLOWS);
        for length in [1, 2, 30] {
            let table = table_with_flow(&mut dice, row, flow, RawFlow { heard: 1, expected: 4, held: 2_018 });
            for (first, last) in [(WHOLE, WHOLE), (END, BEGIN), (END, WHOLE)] {
                let mut segments = vec![(WHOLE, length); MOST_SEGMENTS];
                segments[0].0 = first;
                segments[MOST_SEGMENTS - 1].0 = last;
                for transport in Transport::ALL {
                    let bytes = aimed::psp(&mut dice, table.rows[row].id, S | flow as u8, 4, &segments);
                    recorder.receive("127 segments received", &table, &carried(transport, place, &bytes).into())?;
                }
            }
        }
        let table = table_with_flow(&mut dice, row, flow, RawFlow { heard: 1, expected: 4, held: 2_047 });
        for last in [WHOLE, BEGIN] {
            let segments = [(END, 1), (WHOLE, 2_048), (last, 2_037)];
            for transport in Transport::ALL {
                let bytes = aimed::psp(&mut dice, table.rows[row].id, S | flow as u8, 4, &segments);
                let arrival = carried(transport, place, &bytes).into();
                recorder.receive("most bytes that a call delivers", &table, &arrival)?;
            }
        }
    }
    Ok(())
}

/// Every pattern of null packets among up to five, in each row in turn; and 21 of them, or none among 21.
fn null_packets(recorder: &mut Recorder) -> Recorded<()> {
    let mut turn = 0;
    let mut receive = |pids: &[(u8, u8)]| {
        turn += 1;
        let mut table = busy_table();
        table.rows.rotate_left(turn % ROWS);
        let byte4 = if turn % 3 == 0 { 0 } else { S };
        let packet = carried(Transport::ALL[turn % 2], turn, &dmpt(DMPT_ID, byte4, 100, pids));
        recorder.receive("null packets received", &table, &packet.into()).map(drop)
    };
    for count in 1..=5 {
        for pattern in 0..1 << count {
            let pid = |place: u32| if pattern & (1 << place) == 0 { (0x1F, 0xFE) } else { (0x5F, 0xFF) };
            receive(&(0..count).map(pid).collect::<Vec<_>>())?;
        }
    }
    receive(&[(0x1F, 0xFF); 21])?;
    receive(&[(0x1E, 0xFF); 21])
}

/// The calls of a capture, one after the other from an empty table, each with what the one before gave back.
pub fn replay(recorder: &mut Recorder, file: &[u8]) -> Recorded<()> {
    let Ok(capture) = Capture::read(file, Faults::NONE) else {
        return Ok(());
    };
    let mut table = RawTable::default();
    for entry in &capture.entries {
        match entry {
            Entry::Open(kind, id) => recorder.open("captures", &table, *id, u32::from(kind.number()))?,
            Entry::Close(id) => recorder.close("captures", &table, *id)?,
            Entry::Data(packet) => recorder.receive("captures", &table, &packet.clone().into())?,
        };
        table = recorder.table();
    }
    Ok(())
}

/// A send of frames of these lengths from the beginning: the order of M12, and an output just long enough.
fn sending(lengths: &[u16]) -> Sending {
    Sending {
        session: PSP_ID,
        flow: 1,
        number: 0xFFFF,
        limit: 16,
        frame_bytes: sum(lengths),
        lengths: lengths.to_vec(),
        frame: 0,
        offset: 0,
        output: 20,
    }
}

fn sum(lengths: &[u16]) -> usize {
    lengths.iter().map(|length| usize::from(*length)).sum()
}

/// A send with that limit, and an output just long enough.
fn limited(lengths: &[u16], limit: u64) -> Sending {
    Sending { limit, output: (limit.min(4_096) + 4) as usize, ..sending(lengths) }
}

/// Sends by themselves.
fn sends(recorder: &mut Recorder) -> Recorded<()> {
    sends_orders(recorder)?;
    sends_frames(recorder)?;
    sends_positions(recorder)?;
    sends_outputs(recorder)?;
    sends_refusals(recorder)
}

/// All packets of frames of several sorts, by several limits.
fn sends_to_the_end(recorder: &mut Recorder) -> Recorded<()> {
    for limit in [16, 17, 18, 19, 20, 21, 64, 300, 2_054, 2_055, 4_095, 4_096] {
        for lengths in [vec![1; MOST_FRAMES], (5..=30).collect(), vec![2_048, 1, 2_047, 3, 2_048], vec![600; 4]] {
            send_to_the_end(recorder, "sends: to the end", limited(&lengths, limit))?;
        }
    }
    Ok(())
}

/// Sends packet after packet, each from where the one before ended, until nothing is left.
pub fn send_to_the_end(recorder: &mut Recorder, case: &'static str, mut sending: Sending) -> Recorded<()> {
    loop {
        let answer = recorder.send(case, &sending)?;
        if answer.code() != 0 {
            return Ok(());
        }
        sending.number = answer.numbers[1] as u16;
        (sending.frame, sending.offset) = (answer.numbers[3], answer.numbers[4]);
    }
}

/// Session, flow, number and limit: 31 and 32.
fn sends_orders(recorder: &mut Recorder) -> Recorded<()> {
    let frames = [6, 9, 5_000 / 3];
    for session in [0, 1, 256, 65_536, 1 << 31, u32::MAX] {
        for flow in [0, 1, 2, 3, 4, 5, 7, 8, 255, 256, 257, 65_536, 1 << 32, (1 << 32) + 1, u64::MAX] {
            recorder.send("sends: session and flow", &Sending { session, flow, ..sending(&frames) })?;
        }
    }
    let limits = [0, 1, 3, 4, 7, 15, 16, 17, 255, 256, 4_095, 4_096, 4_097, 65_535, 65_552, 1 << 32, (1 << 32) + 16];
    for limit in limits.into_iter().chain([1 << 63, u64::MAX - 3, u64::MAX]) {
        for number in [0, 1, 32_767, 65_534, 65_535] {
            recorder.send("sends: limits", &Sending { number, ..limited(&frames, limit) })?;
        }
    }
    Ok(())
}

/// Frames: 33 for too many, for a length that none may have, and for lengths that do not add up.
fn sends_frames(recorder: &mut Recorder) -> Recorded<()> {
    let case = "sends: frames";
    for count in [0, 1, 2, 126, 127, 128, 129, 255, 256, 257, 65_536, 65_537, 65_541] {
        recorder.send(case, &limited(&vec![1; count], 4_096))?;
        recorder.send(case, &Sending { frame: 1, ..limited(&vec![3; count], 100) })?;
    }
    recorder.send(case, &limited(&[2_048; MOST_FRAMES], 4_096))?;
    for length in [0, 1, 2, 255, 256, 2_047, 2_048, 2_049, 4_096, 32_768, 65_535] {
        for place in 0..3 {
            let mut lengths = [5, 6, 7];
            lengths[place] = length;
            recorder.send(case, &limited(&lengths, 300))?;
        }
        recorder.send(case, &limited(&[length], 300))?;
    }
    for lengths in [vec![], vec![1], vec![6, 9], vec![2_048; 3], vec![2_048; MOST_FRAMES]] {
        let exact = sum(&lengths);
        for frame_bytes in [0, 1, exact.saturating_sub(1), exact, exact + 1, exact + 256, exact + 65_536] {
            recorder.send(case, &Sending { frame_bytes, ..limited(&lengths, 300) })?;
        }
    }
    Ok(())
}

/// Every position of a few frames, and those outside: 34 and 35.
fn sends_positions(recorder: &mut Recorder) -> Recorded<()> {
    let case = "sends: positions";
    let lengths = [3, 1, 9, 30];
    let far = [5, 6, 127, 128, 256, 65_536, 1 << 32, 1 << 63, u64::MAX];
    for frame in (0..=5).chain(far) {
        for offset in (0..=31).chain(far) {
            for limit in [16, 17, 40] {
                recorder.send(case, &Sending { frame, offset, ..limited(&lengths, limit) })?;
            }
        }
    }
    for offset in [0, 1, 2_047, 2_048, 2_049] {
        for frame in [0, 126, 127, 128] {
            recorder.send(case, &Sending { frame, offset, ..limited(&[2_048; MOST_FRAMES], 4_096) })?;
        }
        recorder.send(case, &Sending { offset, ..limited(&[], 300) })?;
    }
    Ok(())
}

/// Outputs of every length around L + 4, whether or not the packet needs it: 36.
fn sends_outputs(recorder: &mut Recorder) -> Recorded<()> {
    for limit in [16, 17, 100, 4_095, 4_096] {
        for lengths in [vec![1], vec![6, 9], vec![2_048; 3]] {
            let enough = limit as usize + 4;
            for output in [0, 1, 11, 12, enough - 4, enough - 1, enough, enough + 1, Array::Output.capacity()] {
                recorder.send("sends: outputs", &Sending { output, ..limited(&lengths, limit) })?;
            }
        }
    }
    Ok(())
}

/// Every set of refusals that can apply to a send at once; 34 and 35 exclude one another.
fn sends_refusals(recorder: &mut Recorder) -> Recorded<()> {
    for set in 0..3 * 3 * 4 * 3 * 2 {
        let (session, flow) = [(PSP_ID, 3), (0, 3), (PSP_ID, 4)][set % 3];
        let limit = [20, 15, 4_097][set / 3 % 3];
        let (lengths, frame_bytes) =
            [(vec![6, 9], 15), (vec![6, 0], 6), (vec![6, 9], 14), (vec![1; 128], 128)][set / 9 % 4].clone();
        let end = lengths.len() as u64;
        let (frame, offset) = [(1, 2), (end, 3), (end, 0)][set / 36 % 3];
        let output = [24, 23][set / 108];
        let sending = Sending { session, flow, number: 9, limit, frame_bytes, lengths, frame, offset, output };
        recorder.send("sends: sets of refusals", &sending)?;
    }
    Ok(())
}

#[cfg(test)]
mod tests {
    use super::*;

    /// The answers to all directed calls, each with its case.
    fn seen() -> Vec<(&'static str, u64)> {
        let mut nowhere = std::io::sink();
        let mut recorder = Recorder::new(&mut nowhere, usize::MAX, Vec::new());
        recorder.begin(&crate::records::CASES).unwrap();
        all(&mut recorder).unwrap();
        std::mem::take(&mut recorder.seen)
    }

    #[test]
    fn the_cases_have_the_answers_that_they_are_there_for() {
        for (case, code) in seen() {
            if case.starts_with("broken: ") {
                assert_eq!(code, 13, "{case}");
            }
            if case == "just not broken" {
                assert_ne!(code, 13);
            }
            if let Some(pair) = case.strip_prefix("refusals ") {
                assert_eq!(code.to_string(), pair.split(' ').next().unwrap());
            }
            match case {
                "most bytes that a call delivers" => assert_eq!(code, 0),
                "S clear: sets of refusals" => assert!(![0, 12].contains(&code), "{code}"),
                "S clear, then a packet with a number" => assert!([0, 12].contains(&code), "{code}"),
                _ if case.starts_with("S clear") => assert_eq!(code, 0, "{case}"),
                _ => {}
            }
            // Where a segment's place stands first, that is 0 or at least 10; where its length does, it may be any.
            assert!(code != 8 || case.starts_with("segments copied"), "{case}");
            let unknown = case.starts_with("packets checked ") || case == "data by a transport that there is not";
            if unknown || case == "open as a kind that there is not" {
                assert_eq!(code, 24);
            }
        }
    }
}

//! Packets aimed at a table: for its sessions and flows, with numbers around those expected and lengths that bring what
//! is held close to 2,048 bytes. Most are sound, and come by either transport; one in five for a PSP session has S clear.

use crate::calls::Arrival;
use crate::card::{FLOWS, LONGEST_FRAME};
use crate::craft::{header, BEGIN, END, MIDDLE, S, WHOLE};
use crate::dice::Dice;
use crate::generate::{carry, damage_packet};
use crate::packet::{Packet, HEADER_BYTES, LONGEST_PACKET, MPEG_BYTES, MPEG_SYNC};
use crate::packets::OTHER_TRANSPORTS;
use crate::raw::{RawFlow, RawRow, RawTable, DMPT};
use crate::tables::{new_id, some_number};

const MOST_SEGMENTS: usize = 127;
const MOST_MPEG_PACKETS: usize = 21;
/// How far ahead of the expected number packets are, most of them not at all.
const AHEAD: [u16; 16] = [0, 0, 0, 0, 0, 0, 0, 0, 0, 1, 2, 300, 32_767, 32_768, 65_534, 65_535];

/// A packet for some session of the table, now and then for none, and now and then damaged.
pub fn packet(dice: &mut Dice, table: &RawTable) -> Arrival {
    let open: Vec<RawRow> = table.rows.iter().copied().filter(RawRow::is_open).collect();
    let row = if open.is_empty() || dice.percent(3) {
        let new = new_id(dice, table);
        let id = dice.pick(&[0, 1, new]);
        RawRow { id, kind: dice.pick(&[1, 2]), ..RawRow::default() }
    } else {
        dice.pick(&open)
    };
    let flow = dice.below(FLOWS);
    let ahead = dice.pick(&AHEAD);
    let bytes = for_flow(dice, &row, flow, ahead);
    let mut packet = carry(dice, 50, &bytes);
    if dice.percent(10) {
        damage_packet(dice, &mut packet);
    }
    arrival(dice, packet)
}

/// A packet with the number of its transport, now and then with that of the other or with one that there is not.
pub fn arrival(dice: &mut Dice, packet: Packet) -> Arrival {
    let arrival = Arrival::from(packet);
    let transport = match dice.below(40) {
        0 | 1 => dice.below(4) as u32,
        2 => dice.pick(&OTHER_TRANSPORTS),
        _ => arrival.transport,
    };
    Arrival { transport, ..arrival }
}

/// A sound packet for a flow of a row (flow 0 of a D-MPT row), that far ahead of what is expected there; from its session
/// ID on, as all that follow.
pub fn for_flow(dice: &mut Dice, row: &RawRow, flow: usize, ahead: u16) -> Vec<u8> {
    let flow = if row.kind == DMPT { 0 } else { flow };
    let state = row.flows[flow];
    let number = if state.heard == 0 { some_number(dice) } else { state.expected.wrapping_add(ahead) };
    if row.kind == DMPT {
        return dmpt(dice, row.id, number);
    }
    let mut byte4 = flow as u8 | if dice.percent(80) { S } else { 0 };
    byte4 |= if dice.percent(10) { 0x08 } else { 0 };
    // With S clear nothing joins what is held: lengths are aimed as if it did, or by themselves.
    let aimed_at = if byte4 & S == 0 { dice.pick(&[state, RawFlow::default()]) } else { state };
    let segments = segments(dice, aimed_at);
    psp(dice, row.id, byte4, number, &segments)
}

/// A PSP packet with the marks and lengths given and random bytes.
pub fn psp(dice: &mut Dice, id: u32, byte4: u8, number: u16, segments: &[(u16, usize)]) -> Vec<u8> {
    let mut packet = header(id, byte4, segments.len() as u8, number);
    packet.extend(segments.iter().flat_map(|(marks, length)| (marks | *length as u16).to_be_bytes()));
    let bytes = segments.iter().map(|(_, length)| length).sum();
    packet.extend(dice.bytes(bytes));
    packet
}

/// Segments as the layout demands them. The first one often ends what is held, or goes on with it.
fn segments(dice: &mut Dice, state: RawFlow) -> Vec<(u16, usize)> {
    let most = dice.pick(&[1, 1, 1, 2, 2, 3, 5, 12]);
    let count = if dice.percent(1) { MOST_SEGMENTS } else { dice.between(1, most) };
    let longest = dice.pick(&[3, 12, 12, 40]).min(room(count) / count);
    let mut segments: Vec<(u16, usize)> = (0..count).map(|_| (WHOLE, dice.between(1, longest))).collect();
    segments[0].0 = dice.pick(&[END, END, WHOLE]);
    if count == 1 {
        segments[0].0 = dice.pick(&[BEGIN, BEGIN, MIDDLE, MIDDLE, END, WHOLE]);
    } else {
        segments[count - 1].0 = dice.pick(&[BEGIN, BEGIN, WHOLE]);
    }
    if dice.percent(12) {
        stretch_one(dice, state, &mut segments);
    }
    segments
}

/// The bytes that the segments of a packet can have together.
fn room(count: usize) -> usize {
    LONGEST_PACKET - HEADER_BYTES - 2 * count
}

/// Makes the first segment, or the last, so long that what is joined has 2,047, 2,048 or 2,049 bytes, if there is room.
fn stretch_one(dice: &mut Dice, state: RawFlow, segments: &mut [(u16, usize)]) {
    let place = dice.pick(&[0, segments.len() - 1]);
    let held = if segments[place].0 & BEGIN == 0 { usize::from(state.held) } else { 0 };
    let length = (LONGEST_FRAME + dice.pick(&[0, 1, 2])).saturating_sub(1 + held).max(1);
    let others: usize = segments.iter().map(|(_, length)| length).sum::<usize>() - segments[place].1;
    if others + length <= room(segments.len()) {
        segments[place].1 = length;
    }
}

/// MPEG packets, a quarter of them null packets; any byte 5, and S clear in a quarter of the packets.
fn dmpt(dice: &mut Dice, id: u32, number: u16) -> Vec<u8> {
    let byte4 = if dice.percent(75) { S } else { 0 };
    let mut packet = header(id, byte4, dice.byte(), number);
    let most = dice.pick(&[1, 1, 1, 1, 2, 2, 3, MOST_MPEG_PACKETS]);
    for _ in 0..dice.between(1, most) {
        let mut mpeg = dice.bytes(MPEG_BYTES);
        mpeg[0] = MPEG_SYNC;
        if dice.percent(25) {
            mpeg[1] |= 0x1F;
            mpeg[2] = 0xFF;
        }
        packet.extend(mpeg);
    }
    packet
}

#[cfg(test)]
mod tests {
    use super::*;
    use crate::faults::Faults;
    use crate::packet::check;
    use crate::tables::sound;

    #[test]
    fn packets_for_a_flow_pass_the_check() {
        let mut dice = Dice::new(3);
        for _ in 0..500 {
            let table = sound(&mut dice);
            for row in table.rows.iter().filter(|row| row.is_open()) {
                let flow = dice.below(FLOWS);
                let bytes = for_flow(&mut dice, row, flow, 0);
                let Packet { transport, bytes } = carry(&mut dice, 50, &bytes);
                assert_eq!(check(u64::from(row.kind), u64::from(transport.number()), &bytes, Faults::NONE), 0);
            }
        }
    }
}

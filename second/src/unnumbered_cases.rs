//! Directed calls about PSP packets with S clear: document 02, W2. They do not depend on a seed; the cases are named in
//! `records`.
//!
//! The tables are any: a flow that is not fresh expects any number and holds up to 2,048 bytes, whether or not a capture can
//! come to that; a fresh one that holds bytes makes the table broken. What the captures of `unnumbered` show, the packet
//! check, segments and every set of refusals stand in `call_cases` and `packets`.

use crate::aimed;
use crate::call_cases::table_with_flow;
use crate::calls::Arrival;
use crate::card::{FLOWS, LONGEST_FRAME, ROWS};
use crate::craft::{carried, BEGIN, END, MIDDLE, S, WHOLE};
use crate::dice::Dice;
use crate::packet::Transport;
use crate::raw::{RawFlow, RawTable};
use crate::records::{Recorded, Recorder};
use crate::unnumbered::{long_shapes, short_shapes};

pub fn all(recorder: &mut Recorder) -> Recorded<()> {
    shapes(recorder)?;
    long_segments(recorder)?;
    fields(recorder)?;
    then_numbered(recorder)
}

const FRESH: RawFlow = RawFlow { heard: 0, expected: 0, held: 0 };

fn heard(expected: u16, held: usize) -> RawFlow {
    RawFlow { heard: 1, expected, held: held as u16 }
}

/// A packet with S clear for a flow of that row, by that transport.
fn packet(
    dice: &mut Dice,
    table: &RawTable,
    (row, flow): (usize, usize),
    transport: Transport,
    field: u16,
    segments: &[(u16, usize)],
) -> Arrival {
    let bytes = aimed::psp(dice, table.rows[row].id, flow as u8, field, segments);
    carried(transport, row + flow, &bytes).into()
}

/// In every row and flow, by each transport: packets of each short shape, on a fresh flow and with so many bytes held.
fn shapes(recorder: &mut Recorder) -> Recorded<()> {
    let mut dice = Dice::new(0x51);
    let states = [FRESH, heard(0, 0), heard(500, 1), heard(65_535, 9), heard(32_768, 2_047), heard(1, 2_048)];
    for place in (0..ROWS * FLOWS).map(|place| (place / FLOWS, place % FLOWS)) {
        for (turn, state) in states.into_iter().enumerate() {
            for segments in short_shapes() {
                let table = table_with_flow(&mut dice, place.0, place.1, state);
                let arrival = packet(&mut dice, &table, place, Transport::ALL[turn % 2], 7, &segments);
                recorder.receive("S clear: short packets in every row and flow", &table, &arrival)?;
            }
        }
    }
    Ok(())
}

/// Segments around 2,048 bytes and the longest packets, with 2,048 bytes held and with none, in each row and flow in turn.
fn long_segments(recorder: &mut Recorder) -> Recorded<()> {
    let mut dice = Dice::new(0x52);
    let places = (0..ROWS * FLOWS).map(|place| (place / FLOWS, place % FLOWS)).cycle();
    for (segments, start) in long_shapes().iter().zip(0..) {
        for (place, held) in places.clone().skip(start).zip([0, 1, 2_047, LONGEST_FRAME]) {
            for transport in Transport::ALL {
                let table = table_with_flow(&mut dice, place.0, place.1, heard(65_535, held));
                let arrival = packet(&mut dice, &table, place, transport, 65_535, segments);
                recorder.receive("S clear: segments around 2,048 bytes", &table, &arrival)?;
            }
        }
    }
    for place in places.take(ROWS * FLOWS) {
        for (marks, transport) in [WHOLE, BEGIN, END, MIDDLE].into_iter().zip(Transport::ALL.into_iter().cycle()) {
            let table = table_with_flow(&mut dice, place.0, place.1, heard(0, LONGEST_FRAME));
            let arrival = packet(&mut dice, &table, place, transport, 0, &[(marks, 4_090)]);
            recorder.receive("S clear: most bytes that a call drops", &table, &arrival)?;
        }
    }
    Ok(())
}

/// In every row and flow: number fields at every distance of interest from the expected number.
fn fields(recorder: &mut Recorder) -> Recorded<()> {
    let mut dice = Dice::new(0x53);
    for place in (0..ROWS * FLOWS).map(|place| (place / FLOWS, place % FLOWS)) {
        for expected in [0u16, 1, 32_768, 65_535] {
            for (turn, ahead) in [0, 1, 32_767, 32_768, 65_535].into_iter().enumerate() {
                let table = table_with_flow(&mut dice, place.0, place.1, heard(expected, 3));
                let field = expected.wrapping_add(ahead);
                let segments = [(END, 2), (WHOLE, 4), (BEGIN, 1)];
                let arrival = packet(&mut dice, &table, place, Transport::ALL[turn % 2], field, &segments);
                recorder.receive("S clear: number fields around the expected number", &table, &arrival)?;
            }
        }
    }
    Ok(())
}

/// In every row and flow, each call with what the one before gave back: one or two packets with S clear, then one with a
/// number: the expected one, the one before it, ones ahead; on a fresh flow any.
fn then_numbered(recorder: &mut Recorder) -> Recorded<()> {
    let case = "S clear, then a packet with a number";
    let mut dice = Dice::new(0x54);
    for place in (0..ROWS * FLOWS).map(|place| (place / FLOWS, place % FLOWS)) {
        for state in [FRESH, heard(65_535, 0), heard(65_535, 6)] {
            for (turn, number) in [65_535, 65_534, 0, 32_766, 32_767].into_iter().enumerate() {
                let mut table = table_with_flow(&mut dice, place.0, place.1, state);
                let id = table.rows[place.0].id;
                for round in 0..1 + turn % 2 {
                    let segments = [(END, 2), (WHOLE, 1 + round), (BEGIN, 3)];
                    let transport = Transport::ALL[(turn + round) % 2];
                    let arrival = packet(&mut dice, &table, place, transport, 65_534, &segments);
                    recorder.receive(case, &table, &arrival)?;
                    table = recorder.table();
                }
                let bytes = aimed::psp(&mut dice, id, S | place.1 as u8, number, &[(END, 4), (WHOLE, 2), (BEGIN, 3)]);
                recorder.receive(case, &table, &carried(Transport::ALL[turn % 2], turn, &bytes).into())?;
            }
        }
    }
    Ok(())
}

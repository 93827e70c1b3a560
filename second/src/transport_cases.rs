//! Directed calls about transports: document 02, W1. They do not depend on a seed; the cases are named in `records`.
//!
//! The data call gives 24 for an unknown transport behind 1 and 13 and before all that is about the packet; the packet
//! check and the segment requests give it first. What the packets of `transports` have to show for the check and for
//! single segments, and every set of refusals of the data call, stands in `packets` and `call_cases`.

use crate::aimed;
use crate::call_cases::{busy_table, DMPT_ID, PSP_ID, STRANGER};
use crate::calls::{Arrival, Lent, HOLDING_BYTES};
use crate::card::{FLOWS, ROWS};
use crate::craft::{carried, dmpt, header, over_udp, psp, BEGIN, END, MIDDLE, S, WHOLE, WRONG_LEADS};
use crate::dice::Dice;
use crate::packet::{Transport, LONGEST_PACKET};
use crate::packets::{OTHER_KINDS, OTHER_TRANSPORTS};
use crate::raw::{RawFlow, RawTable, DMPT, PSP};
use crate::records::{Recorded, Recorder};
use crate::tables;

pub fn all(recorder: &mut Recorder) -> Recorded<()> {
    unknown_transports(recorder)?;
    first_bytes_over_udp(recorder)?;
    first_bytes_over_ip(recorder)?;
    one_flow_by_both(recorder)?;
    unknown_segments(recorder)
}

/// Packets for every sort of answer, of which the first two are taken; as bytes alone, to be given by any transport.
fn packets_of_all_sorts() -> Vec<Vec<u8>> {
    let sound = psp(PSP_ID, 1, 100, &[(END, 4), (BEGIN, 5)]);
    vec![
        sound.clone(),
        carried(Transport::Udp, 1, &sound).bytes,
        Vec::new(),
        vec![0; 7],
        vec![0xFF; 11],
        vec![0; LONGEST_PACKET + 1],
        vec![0xFF; LONGEST_PACKET + 5],
        over_udp(WRONG_LEADS[0], &sound).bytes,
        header(0, S, 0, 0),
        psp(STRANGER, 1, 100, &[(WHOLE, 3)]),
        psp(PSP_ID, 7, 100, &[(WHOLE, 3)]),
        psp(PSP_ID, 1, 99, &[(WHOLE, 3)]),
        dmpt(DMPT_ID, S, 100, &[(1, 1)]),
    ]
}

/// Each transport that there is not, with packets of all sorts: on a sound table; then on a broken one, with a slice too
/// short, and with both.
fn unknown_transports(recorder: &mut Recorder) -> Recorded<()> {
    let sound = busy_table();
    let mut broken = sound;
    broken.rows[5].flows[3].heard = 2;
    let short = Lent { holding: HOLDING_BYTES - 1, ..Lent::ENOUGH };
    for transport in OTHER_TRANSPORTS {
        for bytes in packets_of_all_sorts() {
            let arrival = Arrival { transport, bytes };
            recorder.receive("data by a transport that there is not", &sound, &arrival)?;
            for (table, lent) in [(&broken, Lent::ENOUGH), (&sound, short), (&broken, short)] {
                let case = "data by a transport that there is not, together with 1 and 13";
                recorder.receive_with(case, table, lent, &arrival)?;
            }
        }
    }
    Ok(())
}

/// Every value of the first and of the second byte over UDP; the third and fourth are thrown.
fn first_bytes_over_udp(recorder: &mut Recorder) -> Recorded<()> {
    let mut dice = Dice::new(0x15);
    for byte in 0..=255 {
        for (first, second) in [(byte, 0x03), (byte, 0xF3), (0x00, byte), (0x7F, byte)] {
            let bytes = aimed::psp(&mut dice, PSP_ID, S | 1, 100, &[(END, 4), (BEGIN, 5)]);
            let packet = over_udp([first, second, dice.byte(), dice.byte()], &bytes);
            recorder.receive("every first and second byte over UDP", &busy_table(), &packet.into())?;
        }
    }
    Ok(())
}

/// The same values over IP, where they begin the ID of the open session: nothing is judged there.
fn first_bytes_over_ip(recorder: &mut Recorder) -> Recorded<()> {
    let mut dice = Dice::new(0x16);
    for byte in 0..=255 {
        for (first, second) in [(byte, 0x03), (0x00, byte)] {
            let mut table = busy_table();
            let id = u32::from_be_bytes([first, second, 0x12, 0x34]);
            table.rows[2].id = id;
            let bytes = aimed::psp(&mut dice, id, S | 1, 100, &[(END, 4), (BEGIN, 5)]);
            let packet = carried(Transport::Ip, 0, &bytes);
            recorder.receive("every first and second byte over IP", &table, &packet.into())?;
        }
    }
    Ok(())
}

/// In every row and flow: a frame cut over three packets, by the transports in every combination; each call goes on with
/// what the one before gave back.
fn one_flow_by_both(recorder: &mut Recorder) -> Recorded<()> {
    let case = "one flow by both transports";
    let mut dice = Dice::new(0x1B);
    for place in 0..ROWS * FLOWS {
        let (row, flow) = (place / FLOWS, place % FLOWS);
        for set in 0..8 {
            let mut table: RawTable = tables::sound_open(&mut dice);
            table.rows[row].kind = PSP;
            table.rows[row].flows[flow] = RawFlow { heard: 1, expected: 65_534, held: 7 };
            let id = table.rows[row].id;
            for (turn, (number, marks)) in [(65_534, MIDDLE), (65_535, MIDDLE), (0, END)].into_iter().enumerate() {
                let bytes = aimed::psp(&mut dice, id, S | flow as u8, number, &[(marks, 1 + turn)]);
                let packet = carried(Transport::ALL[set >> turn & 1], place, &bytes);
                recorder.receive(case, &table, &packet.into())?;
                table = recorder.table();
            }
        }
    }
    Ok(())
}

/// Segments asked for as kinds and by transports that there are not, alone and together, and as D-MPT: 24, whatever the
/// packet is.
fn unknown_segments(recorder: &mut Recorder) -> Recorded<()> {
    let case = "segments as other kinds and by other transports";
    let sound = psp(PSP_ID, 1, 100, &[(END, 4), (BEGIN, 5)]);
    let over_udp = carried(Transport::Udp, 1, &sound).bytes;
    let mpeg = dmpt(DMPT_ID, S, 100, &[(1, 1)]);
    let transports = Transport::ALL.map(Transport::number);
    for (turn, bytes) in [sound, over_udp, mpeg, Vec::new()].into_iter().enumerate() {
        for kind in [PSP, DMPT].iter().chain(&OTHER_KINDS) {
            for transport in transports.iter().chain(&OTHER_TRANSPORTS) {
                let arrival = Arrival { transport: *transport, bytes: bytes.clone() };
                recorder.segment(case, *kind, &arrival, [0, 1, 2, u64::MAX][turn])?;
            }
        }
    }
    Ok(())
}

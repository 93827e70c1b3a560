//! Calls made by dice, without end: runs of calls in which each goes on with the table and the places that the one before
//! left, from any sound table; single calls on tables sound and changed; captures, checks, segments and sends.

use crate::aimed;
use crate::call_cases::{check_case, count_of, replay, send_to_the_end};
use crate::calls::{Array, Lent, Sending, HOLDING_BYTES, MOST_BYTES};
use crate::dice::Dice;
use crate::generate;
use crate::packets::{self, OTHER_KINDS};
use crate::raw::{RawTable, DMPT, PSP};
use crate::records::{Recorded, Recorder};
use crate::sender::MOST_FRAMES;
use crate::tables::{self, new_id, some_number};

/// Calls until there are enough.
pub fn endless(recorder: &mut Recorder, seed: u64) -> Recorded<()> {
    for round in 0.. {
        let mut dice = Dice::for_index(seed, round);
        recorder.fill(Array::Holding, dice.next())?;
        recorder.fill(Array::Output, dice.next())?;
        recorder.fill(Array::Lengths, dice.next())?;
        for _ in 0..4 {
            run(recorder, &mut dice)?;
        }
        tables_by_dice(recorder, &mut dice)?;
        recorder.fill(Array::Frames, dice.next())?;
        sends(recorder, &mut dice)?;
        packets_by_dice(recorder, seed, round)?;
        if round % 4 == 0 {
            replay(recorder, &generate::capture(seed, round as usize / 4).file)?;
        }
    }
    Ok(())
}

/// A run of calls, each with what the one before gave back. It starts from any sound table, or from the empty one.
fn run(recorder: &mut Recorder, dice: &mut Dice) -> Recorded<()> {
    let case = "runs of calls";
    let mut table = if dice.percent(30) { RawTable::default() } else { tables::sound(dice) };
    for _ in 0..dice.between(20, 200) {
        match dice.below(100) {
            0..=4 => {
                let (id, kind) = some_opening(dice, &table);
                recorder.open(case, &table, id, kind)?;
            }
            5..=6 => {
                let id = some_closing(dice, &table);
                recorder.close(case, &table, id)?;
            }
            7 => {
                let lent = some_loan(dice);
                recorder.receive_with(case, &table, lent, &aimed::packet(dice, &table))?;
            }
            _ => {
                recorder.receive(case, &table, &aimed::packet(dice, &table))?;
            }
        }
        table = recorder.table();
    }
    Ok(())
}

/// Mostly a new ID of either kind.
fn some_opening(dice: &mut Dice, table: &RawTable) -> (u32, u32) {
    let new = new_id(dice, table);
    let any_row = table.rows[dice.below(table.rows.len())].id;
    let id = dice.pick(&[new, new, new, new, any_row, 0]);
    let kind = dice.pick(&[PSP, PSP, PSP, PSP, PSP, PSP, DMPT, DMPT, 0, 3]);
    (id, kind)
}

/// Mostly an open ID.
fn some_closing(dice: &mut Dice, table: &RawTable) -> u32 {
    let new = new_id(dice, table);
    let mut ids = table.open_ids();
    ids.extend([0, new]);
    dice.pick(&ids)
}

/// Slices that are long enough, a little longer or shorter, or of any length.
fn some_loan(dice: &mut Dice) -> Lent {
    let mut some = |enough: usize, capacity: usize| {
        let any = dice.below(capacity + 1);
        dice.pick(&[enough, enough, enough, enough, enough + 1, enough - 1, capacity, any])
    };
    Lent {
        holding: some(HOLDING_BYTES, Array::Holding.capacity()),
        output: some(MOST_BYTES, Array::Output.capacity()),
        lengths: some(MOST_FRAMES, Array::Lengths.capacity()),
    }
}

/// Single calls, each on a table of its own.
fn tables_by_dice(recorder: &mut Recorder, dice: &mut Dice) -> Recorded<()> {
    for _ in 0..60 {
        let table = tables::sound(dice);
        recorder.receive("random sound tables", &table, &aimed::packet(dice, &table))?;
    }
    for _ in 0..60 {
        let table = tables::changed(dice);
        let packet = aimed::packet(dice, &table);
        let lent = if dice.percent(20) { some_loan(dice) } else { Lent::ENOUGH };
        recorder.receive_with("random tables", &table, lent, &packet)?;
    }
    for _ in 0..30 {
        let table = if dice.percent(60) { tables::sound(dice) } else { tables::changed(dice) };
        let (id, kind) = some_opening(dice, &table);
        recorder.open("random opens and closes", &table, id, kind)?;
        let id = some_closing(dice, &table);
        recorder.close("random opens and closes", &table, id)?;
    }
    Ok(())
}

/// The packet check, and segments, on packets of `packets`.
fn packets_by_dice(recorder: &mut Recorder, seed: u64, round: u64) -> Recorded<()> {
    for index in 40 * round..40 * (round + 1) {
        let mut dice = Dice::for_index(!seed, index);
        for question in packets::random(seed, index) {
            let case = match check_case(&question) {
                "packets checked" => "random packets checked",
                other => other,
            };
            recorder.check(case, question.kind, &question.arrival)?;
            if question.kind == PSP {
                let count = count_of(&question.arrival);
                let below = dice.next() % count.max(1);
                let k = dice.pick(&[0, below, below, below, count, count + 1]);
                let other = dice.pick(&OTHER_KINDS);
                let kind = if dice.percent(4) { dice.pick(&[DMPT, other]) } else { PSP };
                recorder.segment("segments of random packets", kind, &question.arrival, k)?;
                let any = dice.below(Array::Output.capacity() + 1);
                let room = dice.pick(&[0, 1, 2, 20, 200, 2_048, any]);
                recorder.segment_copy("segments copied of random packets", kind, &question.arrival, k, room)?;
            }
        }
    }
    Ok(())
}

/// Sends from anywhere, one in five of them spoilt; and now and then all packets of some frames.
fn sends(recorder: &mut Recorder, dice: &mut Dice) -> Recorded<()> {
    for _ in 0..50 {
        let mut sending = some_sending(dice);
        if dice.percent(20) {
            spoil_sending(dice, &mut sending);
        }
        recorder.send("random sends", &sending)?;
    }
    let sending = Sending { frame: 0, offset: 0, ..some_sending(dice) };
    if sending.frame_bytes < 4_000 {
        send_to_the_end(recorder, "sends: to the end", sending)?;
    }
    Ok(())
}

/// A sound send, from any position.
fn some_sending(dice: &mut Dice) -> Sending {
    let most = dice.pick(&[1, 3, 10, 40, MOST_FRAMES]);
    let longest = dice.pick(&[3, 12, 40, 300, 2_048]);
    let lengths: Vec<u16> = (0..dice.between(1, most)).map(|_| dice.between(1, longest) as u16).collect();
    let most_room = dice.pick(&[40, 40, 600, 4_096]);
    let limit = dice.between(16, most_room);
    let frame = dice.below(lengths.len());
    let offset = dice.below(usize::from(lengths[frame]));
    Sending {
        session: (dice.next() as u32).max(1),
        flow: dice.below(4) as u64,
        number: some_number(dice),
        limit: limit as u64,
        frame_bytes: lengths.iter().map(|length| usize::from(*length)).sum(),
        frame: frame as u64,
        offset: dice.pick(&[0, offset, offset]) as u64,
        output: limit + 4 + dice.pick(&[0, 0, 0, 1, 100]),
        lengths,
    }
}

/// Makes one thing of a send wrong, mostly by little.
fn spoil_sending(dice: &mut Dice, sending: &mut Sending) {
    let any = dice.next();
    let place = dice.below(sending.lengths.len());
    match dice.below(8) {
        0 => sending.session = 0,
        1 => sending.flow = dice.pick(&[4, 5, 256, any]),
        2 => sending.limit = dice.pick(&[0, 15, 4_097, any]),
        3 => sending.lengths[place] = dice.pick(&[0, 2_049, any as u16]),
        4 => sending.frame_bytes = dice.pick(&[0, sending.frame_bytes - 1, sending.frame_bytes + 1]),
        5 => sending.offset = dice.pick(&[u64::from(sending.lengths[sending.frame as usize]), any]),
        6 => {
            sending.frame = sending.lengths.len() as u64;
            sending.offset = dice.pick(&[0, 0, 1]);
        }
        _ => sending.output = dice.below(sending.limit as usize + 4),
    }
}

//! Tables that a caller may hand over: sound ones by dice, and for each way to be broken a table that is broken in this
//! way alone, beside one that just is not.
//!
//! Document 01, 'Refusal numbers'. No capture reaches most of these tables: a capture starts from an empty one.

use crate::card::{FLOWS, LONGEST_FRAME, ROWS};
use crate::dice::Dice;
use crate::raw::{RawFlow, RawRow, RawTable, CLOSED, DMPT, PSP};

/// Kinds that there are not; some would be 0, 1 or 2 to who reads only some of the bits.
pub const FOREIGN_KINDS: [u32; 13] =
    [3, 4, 255, 256, 257, 258, 65_536, 65_537, 65_538, 1 << 31, (1 << 31) + 1, (1 << 31) + 2, u32::MAX];
/// Marks that there are not.
pub const FOREIGN_MARKS: [u16; 9] = [2, 3, 255, 256, 0x0101, 0x8000, 0x8001, 65_534, 65_535];
/// Expected numbers, and numbers of bytes, that are not 0; some are to who reads only some of the bits.
const EXPECTED: [u16; 4] = [1, 256, 32_768, 65_535];
const HELD: [u16; 4] = [1, 255, 256, LONGEST_FRAME as u16];
const OVERFULL: [u16; 5] = [2_049, 2_304, 4_096, 32_768, 65_535];

/// A table that is broken in one way, at that row and flow, and one that just is not.
#[derive(Clone, Debug)]
pub struct Breach {
    pub case: &'static str,
    pub row: usize,
    pub flow: usize,
    pub broken: RawTable,
    pub neighbour: RawTable,
}

/// A sound table: any kinds, IDs close to one another, any expected numbers and held bytes.
pub fn sound(dice: &mut Dice) -> RawTable {
    let mut table = RawTable::default();
    for row in 0..ROWS {
        let kind = dice.pick(&[CLOSED, PSP, PSP, PSP, DMPT]);
        table.rows[row] = sound_row(dice, kind, &table);
    }
    table
}

/// A sound table with all six rows open.
pub fn sound_open(dice: &mut Dice) -> RawTable {
    let mut table = RawTable::default();
    for row in 0..ROWS {
        let kind = dice.pick(&[PSP, PSP, PSP, DMPT]);
        table.rows[row] = sound_row(dice, kind, &table);
    }
    table
}

fn sound_row(dice: &mut Dice, kind: u32, table: &RawTable) -> RawRow {
    match kind {
        CLOSED => RawRow::default(),
        PSP => RawRow { id: new_id(dice, table), kind, flows: std::array::from_fn(|_| sound_flow(dice)) },
        _ => {
            let mut flows = [RawFlow::default(); FLOWS];
            flows[0] = RawFlow { held: 0, ..sound_flow(dice) };
            RawRow { id: new_id(dice, table), kind, flows }
        }
    }
}

fn sound_flow(dice: &mut Dice) -> RawFlow {
    if dice.percent(25) {
        return RawFlow::default();
    }
    RawFlow { heard: 1, expected: some_number(dice), held: some_held(dice) }
}

pub fn some_number(dice: &mut Dice) -> u16 {
    let any = dice.next() as u16;
    dice.pick(&[0, 1, 32_767, 32_768, 65_534, 65_535, any, any])
}

fn some_held(dice: &mut Dice) -> u16 {
    let any = dice.below(LONGEST_FRAME + 1) as u16;
    let few = dice.below(20) as u16;
    dice.pick(&[0, 0, few, few, any, any, 2_047, 2_048])
}

/// An ID that is not open; often one that differs from an open one by a single bit.
pub fn new_id(dice: &mut Dice, table: &RawTable) -> u32 {
    let open = table.open_ids();
    loop {
        let any = dice.next() as u32;
        let close = open.first().map_or(any, |id| id ^ (1 << dice.below(32)));
        let id = dice.pick(&[any, close, close, any % 9]);
        if id != 0 && !open.contains(&id) {
            return id;
        }
    }
}

/// A sound table whose row of that place has that kind, and which has an open row beside.
fn with_row(dice: &mut Dice, row: usize, kind: u32) -> RawTable {
    let mut table = sound(dice);
    table.rows[row] = RawRow::default();
    let beside = (row + 1) % ROWS;
    if !table.rows[beside].is_open() {
        table.rows[beside] = sound_row(dice, PSP, &table);
    }
    table.rows[row] = sound_row(dice, kind, &table);
    table
}

/// Every way to be broken, at every row and flow where it can be.
pub fn breaches() -> Vec<Breach> {
    let mut dice = Dice::new(0x13);
    let mut all = Vec::new();
    for row in 0..ROWS {
        all.extend(row_breaches(&mut dice, row));
        for flow in 0..FLOWS {
            all.extend(closed_breaches(&mut dice, row, flow));
            all.extend(flow_breaches(&mut dice, row, flow));
            all.extend(dmpt_breaches(&mut dice, row, flow));
            all.extend(mark_breaches(&mut dice, row, flow));
        }
    }
    all
}

/// IDs and kinds.
fn row_breaches(dice: &mut Dice, row: usize) -> Vec<Breach> {
    let mut all = Vec::new();
    let mut add = |case: &'static str, neighbour: RawTable, edit: &dyn Fn(&mut RawTable)| {
        let mut broken = neighbour;
        edit(&mut broken);
        all.push(Breach { case, row, flow: 0, broken, neighbour });
    };
    for kind in [PSP, DMPT] {
        add("broken: open row with ID 0", with_row(dice, row, kind), &|table| table.rows[row].id = 0);
        add("broken: open row with ID 0", with_row(dice, row, CLOSED), &|table| table.rows[row].kind = kind);
    }
    for kind in FOREIGN_KINDS {
        for before in [CLOSED, PSP, DMPT] {
            add("broken: kind that there is not", with_row(dice, row, before), &|table| table.rows[row].kind = kind);
        }
    }
    let beside = (row + 1) % ROWS;
    for id in [1, 1 << 31, u32::MAX] {
        add("broken: closed row with an ID", with_row(dice, row, CLOSED), &|table| table.rows[row].id = id);
    }
    add("broken: closed row with an ID", with_row(dice, row, CLOSED), &|table| {
        table.rows[row].id = table.rows[beside].id;
    });
    for other in (0..ROWS).filter(|other| *other != row) {
        for kinds in [(PSP, PSP), (PSP, DMPT), (DMPT, PSP), (DMPT, DMPT)] {
            let mut neighbour = with_row(dice, row, kinds.0);
            neighbour.rows[other] = RawRow::default();
            neighbour.rows[other] = sound_row(dice, kinds.1, &neighbour);
            add("broken: one ID in two rows", neighbour, &|table| table.rows[row].id = table.rows[other].id);
        }
    }
    all
}

/// What a closed row may not have in a flow.
fn closed_breaches(dice: &mut Dice, row: usize, flow: usize) -> Vec<Breach> {
    let mut all = Vec::new();
    let mut add = |case: &'static str, put: RawFlow| {
        let neighbour = with_row(dice, row, CLOSED);
        all.push(at_flow(case, row, flow, neighbour, put));
    };
    add("broken: closed row with a flow heard", RawFlow { heard: 1, expected: 0, held: 0 });
    for expected in EXPECTED {
        add("broken: closed row with a number expected", RawFlow { heard: 0, expected, held: 0 });
    }
    for held in HELD {
        add("broken: closed row with bytes held", RawFlow { heard: 0, expected: 0, held });
    }
    all
}

/// A breach by that flow alone.
fn at_flow(case: &'static str, row: usize, flow: usize, neighbour: RawTable, put: RawFlow) -> Breach {
    let mut broken = neighbour;
    broken.rows[row].flows[flow] = put;
    Breach { case, row, flow, broken, neighbour }
}

/// Too many bytes, and fresh flows with something in them.
fn flow_breaches(dice: &mut Dice, row: usize, flow: usize) -> Vec<Breach> {
    let mut all = Vec::new();
    let mut add = |case: &'static str, sound: RawFlow, put: RawFlow| {
        let mut neighbour = with_row(dice, row, PSP);
        neighbour.rows[row].flows[flow] = sound;
        all.push(at_flow(case, row, flow, neighbour, put));
    };
    for held in OVERFULL {
        let full = RawFlow { heard: 1, expected: 77, held: LONGEST_FRAME as u16 };
        add("broken: over 2,048 bytes held", full, RawFlow { held, ..full });
    }
    for expected in EXPECTED {
        let heard = RawFlow { heard: 1, expected, held: 0 };
        add("broken: fresh flow with a number expected", heard, RawFlow { heard: 0, ..heard });
    }
    for held in HELD {
        let heard = RawFlow { heard: 1, expected: 0, held };
        add("broken: fresh flow with bytes held", heard, RawFlow { heard: 0, ..heard });
    }
    all
}

/// What a D-MPT row may not have in a flow: bytes, and a number expected by a fresh one; flows 1 to 3 are always fresh.
fn dmpt_breaches(dice: &mut Dice, row: usize, flow: usize) -> Vec<Breach> {
    let mut all = Vec::new();
    let mut add = |case: &'static str, sound: RawFlow, put: RawFlow| {
        let mut neighbour = with_row(dice, row, DMPT);
        neighbour.rows[row].flows[flow] = sound;
        all.push(at_flow(case, row, flow, neighbour, put));
    };
    let sound = if flow == 0 { RawFlow { heard: 1, expected: 9, held: 0 } } else { RawFlow::default() };
    for held in HELD {
        add("broken: D-MPT row with bytes held", sound, RawFlow { held, ..sound });
    }
    for expected in EXPECTED {
        let fresh = RawFlow { heard: 0, expected, held: 0 };
        let sound = if flow == 0 { RawFlow { heard: 1, ..fresh } } else { sound };
        add("broken: fresh flow with a number expected", sound, fresh);
    }
    if flow > 0 {
        for expected in [0, 1, 65_535] {
            let heard = RawFlow { heard: 1, expected, held: 0 };
            add("broken: D-MPT row with flow 1 to 3 heard", sound, heard);
        }
    } else {
        for held in HELD {
            let fresh = RawFlow { heard: 0, expected: 0, held };
            add("broken: D-MPT row with bytes held", RawFlow::default(), fresh);
        }
    }
    all
}

/// Marks that are neither 0 nor 1, in rows of every kind.
fn mark_breaches(dice: &mut Dice, row: usize, flow: usize) -> Vec<Breach> {
    let mut all = Vec::new();
    for mark in FOREIGN_MARKS {
        for kind in [CLOSED, PSP, DMPT] {
            let neighbour = with_row(dice, row, kind);
            let put = RawFlow { heard: mark, ..neighbour.rows[row].flows[flow] };
            all.push(at_flow("broken: mark that there is not", row, flow, neighbour, put));
        }
    }
    all
}

/// A sound table in which up to three numbers have been changed, mostly to others that matter. Some stay sound.
pub fn changed(dice: &mut Dice) -> RawTable {
    let mut table = sound(dice);
    for _ in 0..dice.between(1, 3) {
        let other_id = table.rows[dice.below(ROWS)].id;
        let row = &mut table.rows[dice.below(ROWS)];
        let flow = &mut row.flows[dice.below(FLOWS)];
        let any = dice.next();
        match dice.below(7) {
            0 => row.id = dice.pick(&[0, 1, other_id, any as u32]),
            1 => row.kind = dice.pick(&[CLOSED, PSP, DMPT, 3, any as u32]),
            2 => flow.heard = dice.pick(&[0, 1, 2, 256, any as u16]),
            3 => flow.expected = dice.pick(&[0, 1, 256, any as u16]),
            4 => flow.held = dice.pick(&[0, 1, 2_047, 2_048, 2_049, any as u16]),
            5 => flow.held = 0,
            _ => *flow = RawFlow::default(),
        }
    }
    table
}

#[cfg(test)]
mod tests {
    use super::*;
    use crate::faults::Faults;

    #[test]
    fn sound_tables_are_not_broken() {
        let mut dice = Dice::new(1);
        assert!((0..2_000).all(|_| !sound(&mut dice).is_broken(Faults::NONE)));
    }

    #[test]
    fn each_breach_is_broken_and_its_neighbour_is_not() {
        for breach in breaches() {
            assert!(breach.broken.is_broken(Faults::NONE), "{breach:?}");
            assert!(!breach.neighbour.is_broken(Faults::NONE), "{breach:?}");
        }
    }

    /// The 14 numbers of a row: ID, kind, and three of each flow.
    fn numbers(row: &RawRow) -> Vec<u32> {
        let flows = row.flows.iter().flat_map(|flow| [flow.heard, flow.expected, flow.held]);
        [row.id, row.kind].into_iter().chain(flows.map(u32::from)).collect()
    }

    #[test]
    fn each_number_of_a_closed_row_is_a_breach_by_itself() {
        let zeros = vec![0; 14];
        for row in 0..ROWS {
            let rows = breaches().into_iter().filter(|breach| breach.row == row).map(|breach| breach.broken.rows[row]);
            let rows: Vec<Vec<u32>> = rows.map(|row| numbers(&row)).collect();
            for place in 0..zeros.len() {
                let others_zero = |row: &&Vec<u32>| {
                    let mut others = (*row).clone();
                    others[place] = 0;
                    others == zeros
                };
                let here: Vec<u32> = rows.iter().filter(others_zero).map(|row| row[place]).collect();
                let expected = if place == 1 { vec![1, 2, 3, 65_537, 65_538, u32::MAX] } else { vec![1] };
                assert!(expected.iter().all(|number| here.contains(number)), "row {row}, number {place}: {here:?}");
            }
        }
    }

    /// A breach must not be broken in a second way, or the first would not be seen to be judged.
    #[test]
    fn without_the_one_number_that_breaks_it_a_table_is_sound() {
        for breach in breaches() {
            let (broken, neighbour) = (breach.broken.rows[breach.row], breach.neighbour.rows[breach.row]);
            let differing_flows = (0..FLOWS).filter(|flow| broken.flows[*flow] != neighbour.flows[*flow]).count();
            let differing = usize::from(broken.id != neighbour.id) + usize::from(broken.kind != neighbour.kind);
            assert_eq!(differing + differing_flows, 1, "{breach:?}");
        }
    }

    #[test]
    fn changed_tables_are_sound_or_broken() {
        let mut dice = Dice::new(2);
        let broken = (0..2_000).filter(|_| changed(&mut dice).is_broken(Faults::NONE)).count();
        assert!((500..1_900).contains(&broken), "{broken}");
    }
}

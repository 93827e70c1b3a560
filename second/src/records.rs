//! Records: calls of the library together with this program's answers, for `tests/calls.c` and `tests/mpeg.c`, which make the
//! calls and compare.
//!
//! The stream begins with the names of the cases. Then come records, each a byte that tells what it is and
//!
//! - 1, fill: an array (1 byte), a seed (8 bytes) and a number of elements (4 bytes). So many elements, from the first
//!   on, are thrown by dice of that seed.
//! - 2, write: an array, a place and a number of elements (4 bytes each), and the elements.
//! - 3, a call: its case (2 bytes); which call (1 byte); where the call has a table, 0 and the table or 1 for the table
//!   that was given back last; the numbers that it is given, 8 bytes each; the numbers that it has to answer; where the
//!   call has a table, 0 for the table as given or 1 and the one that has to come back; how many changes (1 byte), each
//!   as in a write.
//! - 4, a fault: its name, after a byte that says how long it is, and then a call whose answer has this fault. The same
//!   call follows with its right answer, and before it writes that put back what the fault's changes have overwritten.
//! - 5, a fault that no call shows: its name.
//! - 0, the end: how many calls there were (4 bytes), those with faults not counted.
//!
//! A table is written row by row: ID and kind, 4 bytes each; then for each of its flows the mark, the expected number and
//! how many bytes it holds, 2 bytes each. Numbers are big-endian. Arrays keep what they have from call to call; between
//! calls only fills and writes change them. Before each call that may write output or lengths, their beginnings are filled
//! anew: what the call before wrote there would hide a call that writes the same though it is refused, or does not write
//! though it should.

use std::collections::BTreeMap;
use std::io::{self, Write};

use crate::calls::{self, Answer, Array, Arrival, Change, Lent, MpegWriting, Sending, HOLDING_BYTES};
use crate::dice::Dice;
use crate::faults::{Faults, Listed};
use crate::packet::MPEG_BYTES;
use crate::raw::RawTable;

/// What the calls of `tests/calls` are there for. Each case has to come up.
pub const CASES: [&str; 91] = [
    "first calls",
    "packets checked",
    "packets checked as kinds that there are not",
    "packets checked by transports that there are not",
    "packets checked as kinds and by transports that there are not",
    "data by a transport that there is not",
    "data by a transport that there is not, together with 1 and 13",
    "every first and second byte over UDP",
    "every first and second byte over IP",
    "one flow by both transports",
    "S clear: short packets in every row and flow",
    "S clear: segments around 2,048 bytes",
    "S clear: most bytes that a call drops",
    "S clear: number fields around the expected number",
    "S clear, then a packet with a number",
    "S clear and no refusal",
    "S clear: sets of refusals",
    "segments as other kinds and by other transports",
    "segments of packets",
    "segments of packets that are refused",
    "each of 127 segments",
    "segments beyond the count",
    "segments copied into each room",
    "segments copied as each kind and by each transport",
    "segments copied of packets that are refused",
    "open with each set of rows open",
    "open as a kind that there is not",
    "close each row",
    "close what is not open",
    "broken: open row with ID 0",
    "broken: one ID in two rows",
    "broken: closed row with an ID",
    "broken: closed row with a flow heard",
    "broken: closed row with a number expected",
    "broken: closed row with bytes held",
    "broken: over 2,048 bytes held",
    "broken: fresh flow with a number expected",
    "broken: fresh flow with bytes held",
    "broken: D-MPT row with bytes held",
    "broken: D-MPT row with flow 1 to 3 heard",
    "broken: kind that there is not",
    "broken: mark that there is not",
    "just not broken",
    "slices of each length",
    "slices of each length, together with other refusals",
    "refusals 1 and 13",
    "refusals 1 and 24",
    "refusals 13 and 24",
    "refusals 13 and 2",
    "refusals 13 and 3",
    "refusals 24 and 2",
    "refusals 24 and 3",
    "refusals 24 and 15",
    "refusals 2 and 15",
    "refusals 3 and 15",
    "refusals 15 and 4",
    "refusals 15 and 5",
    "refusals 15 and 12",
    "refusals 2 and 4",
    "refusals 3 and 4",
    "refusals 4 and 5",
    "refusals 5 and 6",
    "refusals 6 and 7",
    "refusals 7 and 9",
    "refusals 9 and 10",
    "refusals 9 and 12",
    "refusals 10 and 11",
    "refusals 11 and 12",
    "other sets of refusals",
    "packets received",
    "joined to 2,047, 2,048 and 2,049",
    "numbers around the expected one",
    "127 segments received",
    "most bytes that a call delivers",
    "null packets received",
    "captures",
    "runs of calls",
    "random sound tables",
    "random tables",
    "random opens and closes",
    "random packets checked",
    "segments of random packets",
    "segments copied of random packets",
    "sends: session and flow",
    "sends: limits",
    "sends: frames",
    "sends: positions",
    "sends: outputs",
    "sends: sets of refusals",
    "sends: to the end",
    "random sends",
];

/// The library's calls.
#[derive(Clone, Copy)]
enum Call {
    Check = 0,
    Open = 1,
    Close = 2,
    Receive = 3,
    Send = 4,
    SegmentCause = 5,
    Segment = 6,
    SegmentCopy = 7,
    MpegWrite = 8,
    MpegRead = 9,
    MpegNull = 10,
    MpegHandOut = 11,
}

impl Change {
    /// Where its bytes begin in what the array has.
    fn start(&self) -> usize {
        self.place * self.array.width()
    }
}

impl Array {
    const ALL: [Array; 6] =
        [Array::Holding, Array::Packet, Array::Output, Array::Lengths, Array::Frames, Array::FrameLengths];

    fn number(self) -> u8 {
        self as u8
    }

    /// The bytes of an element.
    fn width(self) -> usize {
        match self {
            Array::Lengths | Array::FrameLengths => 2,
            Array::Holding | Array::Packet | Array::Output | Array::Frames => 1,
        }
    }

    /// The elements that there are to lend. `tests/lent.c` has the same numbers.
    pub fn capacity(self) -> usize {
        match self {
            Array::Holding => HOLDING_BYTES + 4_096,
            Array::Packet => 70_000,
            Array::Output => 8_192,
            Array::Lengths => 1_024,
            Array::Frames => 330_000,
            Array::FrameLengths => 66_000,
        }
    }
}

/// Why no more records are written.
#[derive(Debug)]
pub enum Stop {
    /// As many calls as were asked for have been written.
    Enough,
    Failed(io::Error),
}

impl From<io::Error> for Stop {
    fn from(error: io::Error) -> Stop {
        Stop::Failed(error)
    }
}

pub type Recorded<T> = Result<T, Stop>;

/// What each array has, big-endian.
type Arrays = [Vec<u8>; 6];

/// What a call answers, given what the arrays have, with a fault or without.
type Answering<'a> = &'a dyn Fn(&Arrays, Faults) -> Answer;

/// A call without its answer.
struct Asked<'a> {
    case: &'static str,
    call: Call,
    table: Option<&'a RawTable>,
    inputs: &'a [u64],
}

/// Writes records, and keeps what the arrays and the table have after each.
///
/// Faults that are to be shown are tried at each call until one differs from the right answer. So all are tried in one run:
/// up to there a program with the fault has answered every call as it should, and has been asked the same ones.
pub struct Recorder<'a> {
    output: &'a mut dyn Write,
    /// The faults that no call has shown yet.
    faults: Vec<Listed>,
    wanted: usize,
    made: usize,
    /// The names of the cases, in the order in which the stream begins with them.
    cases: &'static [&'static str],
    /// Output and lengths are only ever written, so no answer depends on what they have.
    arrays: Arrays,
    /// The table that was given back last; at first it is empty.
    table: RawTable,
    /// Whether who makes the calls has that table; after a call with a fault it may have another.
    table_is_known: bool,
    /// For the seeds of what is filled anew before a call.
    dice: Dice,
    #[cfg(test)]
    pub seen: Vec<(&'static str, u64)>,
}

impl<'a> Recorder<'a> {
    pub fn new(output: &'a mut dyn Write, wanted: usize, faults: Vec<Listed>) -> Recorder<'a> {
        Recorder {
            output,
            faults,
            wanted,
            made: 0,
            cases: &[],
            arrays: Array::ALL.map(|array| vec![0; array.capacity() * array.width()]),
            table: RawTable::default(),
            table_is_known: true,
            dice: Dice::new(0x5EED),
            #[cfg(test)]
            seen: Vec::new(),
        }
    }

    /// Writes the names of the cases, and fills all arrays.
    pub fn begin(&mut self, cases: &'static [&'static str]) -> Recorded<()> {
        self.cases = cases;
        self.output.write_all(&(cases.len() as u16).to_be_bytes())?;
        for name in cases {
            self.output.write_all(&[name.len() as u8])?;
            self.output.write_all(name.as_bytes())?;
        }
        for array in Array::ALL {
            self.fill(array, 0x5EED + u64::from(array.number()))?;
        }
        Ok(())
    }

    /// Writes the faults that are left, and the end.
    pub fn end(&mut self) -> io::Result<()> {
        for (_, name, _) in std::mem::take(&mut self.faults) {
            self.name_fault(5, name)?;
        }
        self.output.write_all(&[0])?;
        self.output.write_all(&(self.made as u32).to_be_bytes())?;
        self.output.flush()
    }

    /// The table that was given back last.
    pub fn table(&self) -> RawTable {
        self.table
    }

    /// Fills a whole array.
    pub fn fill(&mut self, array: Array, seed: u64) -> Recorded<()> {
        self.fill_beginning(array, seed, array.capacity())
    }

    fn fill_beginning(&mut self, array: Array, seed: u64, elements: usize) -> Recorded<()> {
        self.output.write_all(&[1, array.number()])?;
        self.output.write_all(&seed.to_be_bytes())?;
        self.output.write_all(&(elements as u32).to_be_bytes())?;
        let mut dice = Dice::new(seed);
        for bytes in self.arrays[array as usize][..elements * array.width()].chunks_mut(8) {
            bytes.copy_from_slice(&dice.next().to_be_bytes()[..bytes.len()]);
        }
        Ok(())
    }

    /// Fills the beginning of an array anew, some elements further than the answer changes it.
    fn refresh(&mut self, array: Array, answer: &Answer) -> Recorded<()> {
        let changed = answer.changes.iter().find(|change| change.array == array);
        let elements = 40 + changed.map_or(0, |change| change.bytes.len() / array.width());
        let seed = self.dice.next();
        self.fill_beginning(array, seed, elements.min(array.capacity()))
    }

    /// Puts elements at the start of an array, unless they are there.
    fn put(&mut self, array: Array, bytes: &[u8]) -> Recorded<()> {
        if self.arrays[array as usize][..bytes.len()] != *bytes {
            self.output.write_all(&[2])?;
            let change = Change { array, place: 0, bytes: bytes.to_vec() };
            self.write_change(&change)?;
            self.keep(&change);
        }
        Ok(())
    }

    fn write_change(&mut self, change: &Change) -> Recorded<()> {
        self.output.write_all(&[change.array.number()])?;
        self.output.write_all(&(change.place as u32).to_be_bytes())?;
        self.output.write_all(&((change.bytes.len() / change.array.width()) as u32).to_be_bytes())?;
        self.output.write_all(&change.bytes)?;
        Ok(())
    }

    fn keep(&mut self, change: &Change) {
        self.arrays[change.array as usize][change.start()..][..change.bytes.len()].copy_from_slice(&change.bytes);
    }

    /// Writes a call with its answer, and takes over the table and the changes. Before that the beginnings of the arrays
    /// named are filled anew, and each fault that this call shows is written.
    fn ask(&mut self, asked: Asked, refreshed: &[Array], answering: Answering) -> Recorded<Answer> {
        if self.made == self.wanted {
            return Err(Stop::Enough);
        }
        self.made += 1;
        let answer = answering(&self.arrays, Faults::NONE);
        for array in refreshed {
            self.refresh(*array, &answer)?;
        }
        self.try_faults(&asked, &answer, answering)?;
        self.write_call(&asked, &answer)?;
        for change in &answer.changes {
            self.keep(change);
        }
        if let Some(back) = &answer.table {
            self.table = *back;
            self.table_is_known = true;
        }
        #[cfg(test)]
        self.seen.push((asked.case, answer.code()));
        Ok(answer)
    }

    fn write_call(&mut self, asked: &Asked, answer: &Answer) -> Recorded<()> {
        let number = self.cases.iter().position(|known| *known == asked.case).expect("a case of the list");
        self.output.write_all(&[3, (number >> 8) as u8, number as u8, asked.call as u8])?;
        if let Some(table) = asked.table {
            self.write_table(self.table_is_known && *table == self.table, 1, table)?;
        }
        self.write_numbers(asked.inputs)?;
        self.write_numbers(&answer.numbers)?;
        if let (Some(given), Some(back)) = (asked.table, &answer.table) {
            self.write_table(given == back, 0, back)?;
        }
        self.output.write_all(&[answer.changes.len() as u8])?;
        answer.changes.iter().try_for_each(|change| self.write_change(change))
    }

    /// Writes the call with the answer of each fault that it shows, and puts back what that changes.
    fn try_faults(&mut self, asked: &Asked, right: &Answer, answering: Answering) -> Recorded<()> {
        let mut left = Vec::new();
        for listed in std::mem::take(&mut self.faults) {
            let wrong = answering(&self.arrays, Faults::of(listed.0));
            if !self.differ(&wrong, right) {
                left.push(listed);
                continue;
            }
            self.name_fault(4, listed.1)?;
            self.write_call(asked, &wrong)?;
            self.table_is_known = asked.table.is_none() && self.table_is_known;
            for change in &wrong.changes {
                self.output.write_all(&[2])?;
                let bytes = self.arrays[change.array as usize][change.start()..][..change.bytes.len()].to_vec();
                self.write_change(&Change { bytes, ..*change })?;
            }
        }
        self.faults = left;
        Ok(())
    }

    fn name_fault(&mut self, sort: u8, name: &str) -> io::Result<()> {
        self.output.write_all(&[sort, name.len() as u8])?;
        self.output.write_all(name.as_bytes())
    }

    /// Whether two answers differ in a number, in the table, or in what the arrays have afterwards.
    fn differ(&self, one: &Answer, other: &Answer) -> bool {
        if (&one.numbers, &one.table) != (&other.numbers, &other.table) {
            return true;
        }
        one.changes != other.changes && self.written(one) != self.written(other)
    }

    /// Each byte that an answer makes another than it was, by array and place.
    fn written(&self, answer: &Answer) -> BTreeMap<(u8, usize), u8> {
        let mut written = BTreeMap::new();
        for change in &answer.changes {
            for (place, byte) in (change.start()..).zip(&change.bytes) {
                written.insert((change.array.number(), place), *byte);
            }
        }
        written.retain(|(array, place), byte| self.arrays[usize::from(*array)][*place] != *byte);
        written
    }

    fn write_numbers(&mut self, numbers: &[u64]) -> Recorded<()> {
        for number in numbers {
            self.output.write_all(&number.to_be_bytes())?;
        }
        Ok(())
    }

    /// A table that is known is told by a mark, another by the opposite mark and its numbers.
    fn write_table(&mut self, known: bool, mark: u8, table: &RawTable) -> Recorded<()> {
        if known {
            self.output.write_all(&[mark])?;
            return Ok(());
        }
        self.output.write_all(&[1 - mark])?;
        for row in &table.rows {
            self.output.write_all(&row.id.to_be_bytes())?;
            self.output.write_all(&row.kind.to_be_bytes())?;
            for flow in &row.flows {
                for number in [flow.heard, flow.expected, flow.held] {
                    self.output.write_all(&number.to_be_bytes())?;
                }
            }
        }
        Ok(())
    }

    pub fn check(&mut self, case: &'static str, kind: u32, arrival: &Arrival) -> Recorded<Answer> {
        self.put(Array::Packet, &arrival.bytes)?;
        let inputs = [u64::from(kind), u64::from(arrival.transport), arrival.bytes.len() as u64];
        let asked = Asked { case, call: Call::Check, table: None, inputs: &inputs };
        self.ask(asked, &[], &|_, faults| calls::check(kind, arrival, faults))
    }

    pub fn open(&mut self, case: &'static str, table: &RawTable, id: u32, kind: u32) -> Recorded<Answer> {
        let inputs = [u64::from(id), u64::from(kind)];
        let asked = Asked { case, call: Call::Open, table: Some(table), inputs: &inputs };
        self.ask(asked, &[], &|_, faults| calls::open(table, id, kind, faults))
    }

    pub fn close(&mut self, case: &'static str, table: &RawTable, id: u32) -> Recorded<Answer> {
        let asked = Asked { case, call: Call::Close, table: Some(table), inputs: &[u64::from(id)] };
        self.ask(asked, &[], &|_, faults| calls::close(table, id, faults))
    }

    /// A data call with slices that are just long enough.
    pub fn receive(&mut self, case: &'static str, table: &RawTable, arrival: &Arrival) -> Recorded<Answer> {
        self.receive_with(case, table, Lent::ENOUGH, arrival)
    }

    pub fn receive_with(
        &mut self,
        case: &'static str,
        table: &RawTable,
        lent: Lent,
        arrival: &Arrival,
    ) -> Recorded<Answer> {
        self.put(Array::Packet, &arrival.bytes)?;
        let inputs = [
            u64::from(arrival.transport),
            lent.holding as u64,
            arrival.bytes.len() as u64,
            lent.output as u64,
            lent.lengths as u64,
        ];
        let asked = Asked { case, call: Call::Receive, table: Some(table), inputs: &inputs };
        self.ask(asked, &[Array::Output, Array::Lengths], &|arrays, faults| {
            calls::receive(table, &arrays[Array::Holding as usize], lent, arrival, faults)
        })
    }

    /// A send; the frames' bytes are those that the array of frames begins with.
    pub fn send(&mut self, case: &'static str, sending: &Sending) -> Recorded<Answer> {
        let lengths: Vec<u8> = sending.lengths.iter().flat_map(|length| length.to_be_bytes()).collect();
        self.put(Array::FrameLengths, &lengths)?;
        let inputs = [
            u64::from(sending.session),
            sending.flow,
            u64::from(sending.number),
            sending.limit,
            sending.frame_bytes as u64,
            sending.lengths.len() as u64,
            sending.frame,
            sending.offset,
            sending.output as u64,
        ];
        let asked = Asked { case, call: Call::Send, table: None, inputs: &inputs };
        self.ask(asked, &[Array::Output], &|arrays, faults| {
            calls::send(sending, &arrays[Array::Frames as usize], faults)
        })
    }

    /// Both calls about segment k.
    pub fn segment(&mut self, case: &'static str, kind: u32, arrival: &Arrival, k: u64) -> Recorded<()> {
        self.put(Array::Packet, &arrival.bytes)?;
        let inputs = [u64::from(kind), u64::from(arrival.transport), arrival.bytes.len() as u64, k];
        let asked = |call: Call| Asked { case, call, table: None, inputs: &inputs };
        self.ask(asked(Call::SegmentCause), &[], &|_, faults| calls::segment_cause(kind, arrival, k, faults))?;
        self.ask(asked(Call::Segment), &[], &|_, faults| calls::segment(kind, arrival, k, faults))?;
        Ok(())
    }

    /// Segment k copied into an output of so many bytes.
    pub fn segment_copy(
        &mut self,
        case: &'static str,
        kind: u32,
        arrival: &Arrival,
        k: u64,
        output: usize,
    ) -> Recorded<Answer> {
        self.put(Array::Packet, &arrival.bytes)?;
        let packet = arrival.bytes.len() as u64;
        let inputs = [u64::from(kind), u64::from(arrival.transport), packet, k, output as u64];
        let asked = Asked { case, call: Call::SegmentCopy, table: None, inputs: &inputs };
        self.ask(asked, &[Array::Output], &|_, faults| calls::segment_copy(kind, arrival, k, output, faults))
    }

    /// Writes the next MPEG packet of frames; they are put at the start of the array of frames.
    pub fn mpeg_write(&mut self, case: &'static str, frames: &[u8], writing: &MpegWriting) -> Recorded<Answer> {
        let lengths: Vec<u8> = writing.lengths.iter().flat_map(|length| length.to_be_bytes()).collect();
        self.put(Array::Frames, frames)?;
        self.put(Array::FrameLengths, &lengths)?;
        let inputs = [
            writing.frame_bytes as u64,
            writing.lengths.len() as u64,
            writing.place,
            u64::from(writing.count),
            writing.output as u64,
        ];
        let asked = Asked { case, call: Call::MpegWrite, table: None, inputs: &inputs };
        self.ask(asked, &[Array::Output], &|arrays, faults| {
            calls::mpeg_write(writing, &arrays[Array::Frames as usize], faults)
        })
    }

    /// Reads the frames of MPEG packets back, with room for so many bytes and so many lengths.
    pub fn mpeg_read(&mut self, case: &'static str, packets: &[u8], room: (usize, usize)) -> Recorded<Answer> {
        self.put(Array::Packet, packets)?;
        let (output, lengths) = room;
        let inputs = [packets.len(), output, lengths].map(|number| number as u64);
        let asked = Asked { case, call: Call::MpegRead, table: None, inputs: &inputs };
        self.ask(asked, &[Array::Output, Array::Lengths], &|_, faults| {
            calls::mpeg_read(packets, output, lengths, faults)
        })
    }

    /// Asks for the null packet; who makes the call puts it into an output of its length.
    pub fn mpeg_null(&mut self, case: &'static str) -> Recorded<Answer> {
        let asked = Asked { case, call: Call::MpegNull, table: None, inputs: &[MPEG_BYTES as u64] };
        self.ask(asked, &[Array::Output], &|_, faults| calls::mpeg_null(faults))
    }

    /// Asks for the packet that a queue hands out; who makes the call puts it into an output of its length.
    pub fn mpeg_hand_out(&mut self, case: &'static str, queue: &[u8]) -> Recorded<Answer> {
        self.put(Array::Packet, queue)?;
        let inputs = [queue.len(), MPEG_BYTES].map(|number| number as u64);
        let asked = Asked { case, call: Call::MpegHandOut, table: None, inputs: &inputs };
        self.ask(asked, &[Array::Output], &|_, faults| calls::mpeg_hand_out(queue, faults))
    }
}

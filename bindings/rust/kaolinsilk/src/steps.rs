//! The steps of a run.
use std::fmt;

use crate::fields::{number, optional};
use crate::outcome::Ended;
use crate::told::Status;

/// What each processor asks for in each step, and the answer, as `pramx steps` prints them; it is
/// displayed byte for byte.
#[derive(Clone, Debug, PartialEq, Eq)]
pub struct Steps {
    text: String,
    end: usize,
    ended: Ended,
}

impl Steps {
    pub(crate) fn new(text: String, status: Status) -> Steps {
        let ended = if status == Status::Conflict {
            Ended::Conflict
        } else {
            Ended::Done
        };
        Steps {
            end: end_of_records(&text),
            text,
            ended,
        }
    }

    /// All that `pramx steps` prints.
    pub fn text(&self) -> &str {
        &self.text
    }

    /// The comma-separated records alone, their header before them, as `pramx steps --csv` prints
    /// them.
    pub fn records(&self) -> &str {
        &self.text[..self.end]
    }

    /// The answer that follows the records.
    pub fn answer(&self) -> &str {
        &self.text[self.end..]
    }

    /// How the run ended.
    pub fn ended(&self) -> Ended {
        self.ended
    }

    /// What each processor asks for, step by step, in order.
    pub fn rows(&self) -> impl Iterator<Item = StepRow<'_>> {
        self.records()
            .lines()
            .skip(1)
            .filter_map(StepRow::of_record)
    }
}

impl fmt::Display for Steps {
    fn fmt(&self, f: &mut fmt::Formatter<'_>) -> fmt::Result {
        f.write_str(&self.text)
    }
}

/// What a processor asks for in a step.
#[derive(Clone, Copy, Debug, PartialEq, Eq, Hash)]
pub struct StepRow<'a> {
    /// The step, from 1.
    pub step: u32,
    /// The processor.
    pub processor: u32,
    /// The index of its instruction, from 0.
    pub place: u32,
    /// The instruction; `halted` or `out_of_range` where the processor has stopped.
    pub instruction: &'a str,
    /// Where it writes, if it does.
    pub writes: Option<Target<'a>>,
    /// What it writes there.
    pub value: Option<u32>,
    /// The index of its next instruction.
    pub next: u32,
    /// Of a program the line that the instruction came from, if it came from one.
    pub line: Option<u64>,
}

/// Where a processor writes.
#[derive(Clone, Copy, Debug, PartialEq, Eq, Hash)]
pub enum Target<'a> {
    /// A cell of the job.
    Cell(u32),
    /// One of its own registers, 0 to 3.
    Register(u32),
    /// A place of a program, as `A[3]`.
    Place(&'a str),
}

impl<'a> StepRow<'a> {
    fn of_record(record: &'a str) -> Option<StepRow<'a>> {
        let mut fields = Fields(Some(record));
        Some(StepRow {
            step: number(fields.next()?)?,
            processor: number(fields.next()?)?,
            place: number(fields.next()?)?,
            instruction: fields.next()?,
            writes: Target::of_field(fields.next()?),
            value: optional(fields.next()?)?,
            next: number(fields.next()?)?,
            line: optional(fields.next().unwrap_or(""))?,
        })
    }
}

impl<'a> Target<'a> {
    // No place of a program is named `r0` to `r3`.
    fn of_field(field: &'a str) -> Option<Target<'a>> {
        if let Some(cell) = field.strip_prefix("cell ") {
            return number(cell).map(Target::Cell);
        }
        match field {
            "" => None,
            "r0" => Some(Target::Register(0)),
            "r1" => Some(Target::Register(1)),
            "r2" => Some(Target::Register(2)),
            "r3" => Some(Target::Register(3)),
            place => Some(Target::Place(place)),
        }
    }
}

// The fields of a record that are left. One with a comma stands in quotes, and none has a quote.
struct Fields<'a>(Option<&'a str>);

impl<'a> Iterator for Fields<'a> {
    type Item = &'a str;

    fn next(&mut self) -> Option<&'a str> {
        let left = self.0?;
        let (field, rest) = match left.strip_prefix('"').and_then(|it| it.split_once('"')) {
            Some((field, rest)) => (field, rest.strip_prefix(',')),
            None => match left.split_once(',') {
                Some((field, rest)) => (field, Some(rest)),
                None => (left, None),
            },
        };
        self.0 = rest;
        Some(field)
    }
}

/// Where the answer begins: behind the header and the records, each of which begins with a digit.
pub(crate) fn end_of_records(text: &str) -> usize {
    let is_record = |line: &&str| line.starts_with(|it: char| it.is_ascii_digit());
    let mut lines = text.split_inclusive('\n');
    let header = lines.next().map_or(0, str::len);
    header + lines.take_while(is_record).map(str::len).sum::<usize>()
}

#[cfg(test)]
mod tests {
    use super::{StepRow, Steps, Target};
    use crate::told::Status;

    const TEXT: &str = "step,processor,place,instruction,writes,value,next,line\n\
        5,0,4,st 4..4 0 r0,cell 4,13,5,12\n5,1,6,halted,,,6,\n5,2,0,pid r3,r3,2,1,\n\
        5,3,4,st A r1 r0,\"A[1,2]\",7,5,12\n\
        conflict line=12 place=sum processors=0,1\n";

    #[test]
    fn rows_are_records() {
        let steps = Steps::new(TEXT.to_owned(), Status::Conflict);
        let rows: Vec<StepRow> = steps.rows().collect();
        let first = StepRow {
            step: 5,
            processor: 0,
            place: 4,
            instruction: "st 4..4 0 r0",
            writes: Some(Target::Cell(4)),
            value: Some(13),
            next: 5,
            line: Some(12),
        };
        assert_eq!(rows[0], first);
        assert_eq!(
            (rows[1].writes, rows[1].value, rows[1].line),
            (None, None, None)
        );
        assert_eq!(rows[2].writes, Some(Target::Register(3)));
        assert_eq!(rows[3].writes, Some(Target::Place("A[1,2]")));
        assert_eq!((rows[3].value, rows[3].next), (Some(7), 5));
        assert_eq!(rows.len(), 4);
        assert_eq!(
            steps.answer(),
            "conflict line=12 place=sum processors=0,1\n"
        );
        assert_eq!(steps.records().len() + steps.answer().len(), TEXT.len());
    }
}

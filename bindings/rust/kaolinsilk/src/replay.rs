//! Replays.
use std::fmt;

use crate::fields::number;
use crate::outcome::Ended;
use crate::steps::end_of_records;
use crate::told::Status;

/// The atomic steps of a run by workers in the order of a plan, and the answer, as `pramx replay`
/// prints them; it is displayed byte for byte.
#[derive(Clone, Debug, PartialEq, Eq)]
pub struct Replay {
    text: String,
    end: usize,
    ended: Option<Ended>,
}

impl Replay {
    pub(crate) fn new(text: String, status: Status) -> Replay {
        let ended = match status {
            Status::Done => Some(Ended::Done),
            Status::Conflict => Some(Ended::Conflict),
            Status::Unfinished => None,
        };
        Replay {
            end: end_of_records(&text),
            text,
            ended,
        }
    }

    /// All that `pramx replay` prints.
    pub fn text(&self) -> &str {
        &self.text
    }

    /// The comma-separated records alone, their header before them, as `pramx replay --csv` prints
    /// them.
    pub fn records(&self) -> &str {
        &self.text[..self.end]
    }

    /// The answer that follows the records.
    pub fn answer(&self) -> &str {
        &self.text[self.end..]
    }

    /// How the run ended; none where the plan stopped every worker before.
    pub fn ended(&self) -> Option<Ended> {
        self.ended
    }

    /// The last finished step of a run that the plan stopped.
    pub fn unfinished(&self) -> Option<u32> {
        number(self.answer().strip_prefix("unfinished step=")?.trim_end())
    }

    /// The atomic steps, in order.
    pub fn rows(&self) -> impl Iterator<Item = TraceRow> {
        self.records()
            .lines()
            .skip(1)
            .filter_map(TraceRow::of_record)
    }
}

impl fmt::Display for Replay {
    fn fmt(&self, f: &mut fmt::Formatter<'_>) -> fmt::Result {
        f.write_str(&self.text)
    }
}

/// An atomic step: its worker, its kind, the number of its word in the compact form of a board, and
/// the whole word before it and after it.
#[derive(Clone, Copy, Debug, PartialEq, Eq, Hash)]
pub struct TraceRow {
    /// The atomic steps of all workers, counted from 1.
    pub tick: u64,
    /// The worker.
    pub worker: u32,
    /// The kind.
    pub kind: StepKind,
    /// The word's number.
    pub word: u32,
    /// The word before the step.
    pub before: u64,
    /// The word after it.
    pub after: u64,
}

/// The kind of an atomic step.
#[derive(Clone, Copy, Debug, PartialEq, Eq, Hash)]
pub enum StepKind {
    /// The word is heard.
    Load,
    /// The word becomes another.
    Store,
    /// The word becomes another if that is greater.
    Max,
    /// The word becomes another if it is the expected one.
    Swap,
}

impl TraceRow {
    fn of_record(record: &str) -> Option<TraceRow> {
        let mut fields = record.split(',');
        Some(TraceRow {
            tick: number(fields.next()?)?,
            worker: number(fields.next()?)?,
            kind: StepKind::of_word(fields.next()?)?,
            word: number(fields.next()?)?,
            before: number(fields.next()?)?,
            after: number(fields.next()?)?,
        })
    }
}

impl StepKind {
    fn of_word(word: &str) -> Option<StepKind> {
        match word {
            "load" => Some(StepKind::Load),
            "store" => Some(StepKind::Store),
            "max" => Some(StepKind::Max),
            "swap" => Some(StepKind::Swap),
            _ => None,
        }
    }
}

#[cfg(test)]
mod tests {
    use super::{Replay, StepKind};
    use crate::told::Status;

    const TEXT: &str = "tick,worker,op,word,before,after\n1,0,load,9,0,0\n\
        2,63,max,19,0,18446744073709551615\nunfinished step=0\n";

    #[test]
    fn rows_are_records() {
        let replay = Replay::new(TEXT.to_owned(), Status::Unfinished);
        assert_eq!((replay.ended(), replay.unfinished()), (None, Some(0)));
        let row = replay.rows().last().unwrap();
        assert_eq!(
            (row.tick, row.worker, row.kind, row.word),
            (2, 63, StepKind::Max, 19)
        );
        assert_eq!((row.before, row.after), (0, u64::MAX));
        assert_eq!(replay.rows().count(), 2);
    }
}

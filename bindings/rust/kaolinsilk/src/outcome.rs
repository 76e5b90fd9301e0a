//! How jobs end.
use std::fmt;

use crate::fields::{number, pair};
use kaolinsilk_sys as sys;

/// How a job ends, step by step or on threads: its one answer.
#[derive(Clone, Debug, PartialEq, Eq)]
pub enum Outcome {
    /// All steps were made; the cells hold this, cell 0 first. Of a program these are first the
    /// places of its shared arrays and scalars, in their order.
    Done(Vec<u32>),
    /// A step was against the rule of writing.
    Conflict(Fault),
}

impl Outcome {
    /// What the cells hold at the end, if there was no conflict.
    pub fn cells(&self) -> Option<&[u32]> {
        match self {
            Outcome::Done(cells) => Some(cells),
            Outcome::Conflict(_) => None,
        }
    }

    /// The conflict, if there was one.
    pub fn fault(&self) -> Option<Fault> {
        match self {
            Outcome::Done(_) => None,
            Outcome::Conflict(fault) => Some(*fault),
        }
    }
}

/// The first step that is against the rule, counted from 1, the least cell that is disputed in it,
/// and its two processors.
#[derive(Clone, Copy, Debug, PartialEq, Eq, Hash)]
pub struct Fault {
    /// The step.
    pub step: u32,
    /// The cell, of the job.
    pub cell: u32,
    /// The least processor that writes the cell.
    pub first: u32,
    /// The least one that it disagrees with.
    pub second: u32,
}

impl Fault {
    // Of a line `conflict step=t cell=c processors=i,j`.
    pub(crate) fn of_line(line: &str) -> Option<Fault> {
        let mut words = line.strip_prefix("conflict ")?.split(' ');
        let step = number(words.next()?.strip_prefix("step=")?)?;
        let cell = number(words.next()?.strip_prefix("cell=")?)?;
        let (first, second) = pair(words.next()?.strip_prefix("processors=")?)?;
        Some(Fault {
            step,
            cell,
            first,
            second,
        })
    }
}

impl From<sys::ks_fault> for Fault {
    fn from(fault: sys::ks_fault) -> Fault {
        let sys::ks_fault {
            step,
            cell,
            first,
            second,
        } = fault;
        Fault {
            step,
            cell,
            first,
            second,
        }
    }
}

/// As `pramx` prints it of a text of the machine.
impl fmt::Display for Fault {
    fn fmt(&self, f: &mut fmt::Formatter<'_>) -> fmt::Result {
        let Fault {
            step,
            cell,
            first,
            second,
        } = self;
        write!(
            f,
            "conflict step={step} cell={cell} processors={first},{second}"
        )
    }
}

/// How a worker or a run ended, without its numbers.
#[derive(Clone, Copy, Debug, PartialEq, Eq, Hash)]
pub enum Ended {
    /// The last step is finished.
    Done,
    /// A step is against the rule.
    Conflict,
}

#[cfg(test)]
mod tests {
    use super::Fault;

    #[test]
    fn a_fault_is_its_line() {
        let fault = Fault {
            step: 4,
            cell: 65_535,
            first: 0,
            second: 1023,
        };
        let line = "conflict step=4 cell=65535 processors=0,1023";
        assert_eq!(fault.to_string(), line);
        assert_eq!(Fault::of_line(line), Some(fault));
        assert_eq!(
            Fault::of_line("conflict line=4 place=sum processors=0,1"),
            None
        );
        assert_eq!(Fault::of_line("done steps=4"), None);
    }
}

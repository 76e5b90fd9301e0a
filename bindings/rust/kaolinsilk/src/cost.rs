//! What a run costs.
use std::fmt;
use std::str::FromStr;

use crate::fields::{number, pair};
use crate::outcome::Ended;

/// The models of the PRAM, the weakest first.
#[derive(Clone, Copy, Debug, PartialEq, Eq, PartialOrd, Ord, Hash)]
pub enum Pram {
    /// No two processors read one cell in a step, and no two write one.
    Erew,
    /// No two write one cell.
    Crew,
    /// No two write different values to one cell.
    CommonCrcw,
    /// Anything.
    PriorityCrcw,
}

impl Pram {
    fn of_name(name: &str) -> Option<Pram> {
        match name {
            "EREW" => Some(Pram::Erew),
            "CREW" => Some(Pram::Crew),
            "CRCW common" => Some(Pram::CommonCrcw),
            "CRCW priority" => Some(Pram::PriorityCrcw),
            _ => None,
        }
    }
}

/// By the names that `pramx cost` has for them.
impl fmt::Display for Pram {
    fn fmt(&self, f: &mut fmt::Formatter<'_>) -> fmt::Result {
        f.write_str(match self {
            Pram::Erew => "EREW",
            Pram::Crew => "CREW",
            Pram::CommonCrcw => "CRCW common",
            Pram::PriorityCrcw => "CRCW priority",
        })
    }
}

/// What the run of this input costs, as `pramx cost` tells it; it is displayed byte for byte.
///
/// ```
/// use kaolinsilk::{Job, Place, Pram};
///
/// let job = Job::parse("pram 2\ncells 1\nprocs 4\nsteps 1\nrule common\ncode\nst r0 r1\n")?;
/// let cost = job.cost()?;
/// assert_eq!((cost.product, cost.work, cost.needs), (4, 4, Pram::CommonCrcw));
/// let meeting = cost.same_write().expect("all write to cell 0");
/// assert_eq!((meeting.place, meeting.processors), (Place::Cell(0), (0, 1)));
/// # Ok::<(), kaolinsilk::Error>(())
/// ```
#[derive(Clone, Debug, PartialEq, Eq)]
pub struct Cost {
    /// Of a program its time: the counted lines in which some processor is active.
    pub time: Option<u64>,
    /// Of a program its operations: how often a processor is active in a counted line.
    pub operations: Option<u64>,
    /// Of a program its rounds: how often the `end` of a loop is made.
    pub rounds: Option<u64>,
    /// The steps of the run: all of the job's, or those up to its conflict, which counts too.
    pub steps: u32,
    /// The processors.
    pub processors: u32,
    /// Steps times processors.
    pub product: u64,
    /// The instructions executed.
    pub work: u64,
    /// The most processors that execute one in one step.
    pub most: u32,
    /// The steps in which some processor reads a cell.
    pub reading: u32,
    /// The steps in which one writes a cell.
    pub writing: u32,
    /// The weakest model that accepts all these steps.
    pub needs: Pram,
    /// How the run ended.
    pub ended: Ended,
    text: String,
}

impl Cost {
    /// The lines that `pramx cost` prints.
    pub fn text(&self) -> &str {
        &self.text
    }

    /// Where two processors first read one cell: this rules out EREW.
    pub fn same_read(&self) -> Option<Meeting<'_>> {
        Meeting::of_words(line(&self.text, "same read ")?)
    }

    /// Where two first write one cell: this rules out EREW and CREW.
    pub fn same_write(&self) -> Option<Meeting<'_>> {
        Meeting::of_words(line(&self.text, "same write ")?)
    }

    /// Where two first write different values to one cell: this rules out all but CRCW priority.
    pub fn other_value(&self) -> Option<Meeting<'_>> {
        Meeting::of_words(line(&self.text, "other value ")?)
    }

    // What these lines tell; none if they are no such lines.
    pub(crate) fn of_text(text: String) -> Option<Cost> {
        let is_done = line(&text, "done ").is_some();
        Some(Cost {
            time: count(&text, "time "),
            operations: count(&text, "operations "),
            rounds: count(&text, "rounds "),
            steps: count(&text, "steps ")?,
            processors: count(&text, "processors ")?,
            product: count(&text, "product ")?,
            work: count(&text, "work ")?,
            most: count(&text, "most ")?,
            reading: count(&text, "reading ")?,
            writing: count(&text, "writing ")?,
            needs: Pram::of_name(line(&text, "needs ")?)?,
            ended: if is_done {
                Ended::Done
            } else {
                Ended::Conflict
            },
            text,
        })
    }
}

impl fmt::Display for Cost {
    fn fmt(&self, f: &mut fmt::Formatter<'_>) -> fmt::Result {
        f.write_str(&self.text)
    }
}

/// Where two processors meet.
#[derive(Clone, Copy, Debug, PartialEq, Eq, Hash)]
pub struct Meeting<'a> {
    /// The step, from 1.
    pub step: u32,
    /// Of a program the line of the first one's instruction.
    pub line: Option<u64>,
    /// What they meet at.
    pub place: Place<'a>,
    /// The least processor that goes there, and the least other that meets it.
    pub processors: (u32, u32),
}

impl<'a> Meeting<'a> {
    // Of `step=t cell=c processors=i,j`, or with `line=n place=NAME` for the cell; not of `none`.
    fn of_words(words: &'a str) -> Option<Meeting<'a>> {
        let word = |name| words.split(' ').find_map(|it| it.strip_prefix(name));
        Some(Meeting {
            step: number(word("step=")?)?,
            line: word("line=").and_then(number),
            place: match word("place=") {
                Some(name) => Place::Name(name),
                None => Place::Cell(number(word("cell=")?)?),
            },
            processors: pair(word("processors=")?)?,
        })
    }
}

/// What processors meet at.
#[derive(Clone, Copy, Debug, PartialEq, Eq, Hash)]
pub enum Place<'a> {
    /// A cell of the job.
    Cell(u32),
    /// A place of a program, as its answer tells it: `sum`, `A[3]`.
    Name(&'a str),
}

// What stands behind the name in its line.
fn line<'a>(text: &'a str, name: &str) -> Option<&'a str> {
    text.lines().find_map(|it| it.strip_prefix(name))
}

fn count<T: FromStr>(text: &str, name: &str) -> Option<T> {
    number(line(text, name)?)
}

#[cfg(test)]
mod tests {
    use super::{Cost, Ended, Meeting, Place, Pram};

    const OF_PROGRAM: &str = "time 1\noperations 4\ncost of this input\nsteps 5\nprocessors 4\n\
        product 20\nwork 19\nmost 4\nreading 2\nwriting 1\nneeds CRCW priority\n\
        same read step=2 line=12 place=A[3] processors=0,1\n\
        same write none\nother value step=5 line=12 cell=7 processors=0,3\n\
        conflict line=12 place=sum processors=0,1\nrounds 0\n";

    #[test]
    fn a_cost_is_its_lines() {
        let cost = Cost::of_text(OF_PROGRAM.to_owned()).unwrap();
        assert_eq!((cost.time, cost.operations), (Some(1), Some(4)));
        assert_eq!(cost.rounds, Some(0));
        assert_eq!((cost.steps, cost.processors, cost.product), (5, 4, 20));
        assert_eq!(
            (cost.work, cost.most, cost.reading, cost.writing),
            (19, 4, 2, 1)
        );
        assert_eq!(
            (cost.needs, cost.ended),
            (Pram::PriorityCrcw, Ended::Conflict)
        );
        assert_eq!(cost.same_write(), None);
        let meeting = Meeting {
            step: 2,
            line: Some(12),
            place: Place::Name("A[3]"),
            processors: (0, 1),
        };
        assert_eq!(cost.same_read(), Some(meeting));
        assert_eq!(cost.other_value().unwrap().place, Place::Cell(7));
        assert_eq!(cost.to_string(), OF_PROGRAM);
        assert_eq!(Cost::of_text("done steps=5\n".to_owned()), None);
    }

    #[test]
    fn models_are_named() {
        for model in [Pram::Erew, Pram::Crew, Pram::CommonCrcw, Pram::PriorityCrcw] {
            assert_eq!(Pram::of_name(&model.to_string()), Some(model));
        }
        assert!(Pram::Erew < Pram::Crew && Pram::CommonCrcw < Pram::PriorityCrcw);
    }
}

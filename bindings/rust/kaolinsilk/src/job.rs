//! Jobs, and what the commands tell of them.
use std::fmt;
use std::ops::{Bound, RangeBounds};
use std::str::FromStr;

use crate::arrays::{Extent, extent_in};
use crate::call::{Command, serve};
use crate::cost::Cost;
use crate::error::{Error, Result};
use crate::fields::number;
use crate::line_costs::LineCosts;
use crate::outcome::{Fault, Outcome};
use crate::plan::Plan;
use crate::replay::Replay;
use crate::settings::Settings;
use crate::steps::Steps;
use crate::told::{Status, copy, filled, printed};
use crate::values::Values;
use kaolinsilk_sys as sys;

/// What is promised of all that is printed, and what a crate says that was told otherwise.
const FORM: &str = "the library prints as docs/FORMATS.md has it";

/// A buffer that mostly has room for the rows of a short job.
const ROOM: usize = 1 << 16;

/// The rules of writing.
#[derive(Clone, Copy, Debug, PartialEq, Eq, Hash)]
pub enum Rule {
    /// Several writers of a cell must write the same value.
    Common,
    /// The least writer's value counts.
    Priority,
    /// There must be one writer at most.
    Crew,
}

/// What `pramx check` says of a job, by numbers. It is displayed as that line.
#[derive(Clone, Copy, Debug, PartialEq, Eq, Hash)]
pub struct Check {
    /// How many cells it has, 1 to 1,048,576.
    pub cells: u32,
    /// How many processors, 1 to 65,536.
    pub processors: u32,
    /// After how many steps it ends.
    pub steps: u32,
    /// How many instructions its code has, 1 to 4,096.
    pub instructions: u32,
    /// Its rule of writing.
    pub rule: Rule,
}

impl Check {
    fn of_line(line: &str) -> Option<Check> {
        let mut words = line.strip_prefix("ok ")?.split(' ');
        let mut next = |name| number(words.next()?.strip_prefix(name)?);
        let [cells, processors] = [next("cells=")?, next("procs=")?];
        let [steps, instructions] = [next("steps=")?, next("code=")?];
        let rule = match words.next() {
            None => Rule::Common,
            Some("rule=priority") => Rule::Priority,
            Some("rule=crew") => Rule::Crew,
            Some(_) => return None,
        };
        Some(Check {
            cells,
            processors,
            steps,
            instructions,
            rule,
        })
    }
}

impl fmt::Display for Check {
    fn fmt(&self, f: &mut fmt::Formatter<'_>) -> fmt::Result {
        let Check {
            cells,
            processors,
            steps,
            instructions,
            rule,
        } = self;
        write!(
            f,
            "ok cells={cells} procs={processors} steps={steps} code={instructions}"
        )?;
        match rule {
            Rule::Common => Ok(()),
            Rule::Priority => f.write_str(" rule=priority"),
            Rule::Crew => f.write_str(" rule=crew"),
        }
    }
}

/// A job: a text of the machine, or a program of `pardo`, that was judged and bears no fault.
///
/// ```
/// use kaolinsilk::{Job, Outcome};
///
/// let job = Job::parse("pardo 1\nrule crew\nprocs i < 4\nshared A[4]\ncode\nA[i] := i * i\n")?;
/// assert_eq!((job.check().cells, job.check().processors), (4, 4));
/// assert_eq!(job.plain()?, Outcome::Done(vec![0, 1, 4, 9]));
/// assert!(job.plain_text()?.ends_with("A = 0 1 4 9\n"));
/// # Ok::<(), kaolinsilk::Error>(())
/// ```
#[derive(Debug)]
pub struct Job {
    text: String,
    // Of a program, the same as a text of the machine, which is not run to be read.
    machine: Option<String>,
    check: Check,
}

// Whether the first word of a text, behind comments and blanks, is that of programs. Any other
// answer would cost time alone.
fn may_be_program(text: &[u8]) -> bool {
    let lines = text.split(|&byte| byte == b'\n').map(<[u8]>::trim_ascii);
    let mut said = lines.filter(|line| !line.is_empty() && line[0] != b';');
    said.next().is_some_and(|line| line.starts_with(b"pardo"))
}

// The buffer mostly has room for all, as each call runs the program.
fn compiled(text: &[u8]) -> Result<String> {
    let room = ROOM + 4 * text.len();
    Ok(serve(Command::Compile, text, &sys::ks_request::new(), room)?.1)
}

impl Job {
    /// Judges a text, and keeps a copy of it. Its first word decides whether it is a program. The
    /// steps of a program are counted by making them, once: no board makes them again.
    ///
    /// # Errors
    ///
    /// [`Subject::Text`](crate::Subject::Text) or [`Subject::Program`](crate::Subject::Program)
    /// with the first line that bears a fault; [`Subject::Size`](crate::Subject::Size) of more than
    /// 67,108,864 bytes; [`Subject::Memory`](crate::Subject::Memory).
    pub fn parse(text: impl AsRef<[u8]>) -> Result<Job> {
        let text = text.as_ref();
        let machine = match may_be_program(text) {
            true => Some(compiled(text)?),
            false => None,
        };
        let judged = machine.as_ref().map_or(text, String::as_bytes);
        let (_, line) = serve(Command::Check, judged, &sys::ks_request::new(), 128)?;
        let check = Check::of_line(line.trim_end()).expect(FORM);
        let text = String::from_utf8(copy(text)?).expect("a text that is not refused is ASCII");
        Ok(Job {
            text,
            machine,
            check,
        })
    }

    /// The same of a program with these settings: its text is then the text as it is set.
    ///
    /// # Errors
    ///
    /// [`Subject::Setting`](crate::Subject::Setting) with the number of the first setting that is
    /// none or does not fit; those of [`Job::parse`].
    pub fn parse_with(text: impl AsRef<[u8]>, settings: &Settings) -> Result<Job> {
        Job::parse(settings.applied(text.as_ref())?)
    }

    /// The text that was parsed.
    pub fn text(&self) -> &str {
        &self.text
    }

    /// The job's numbers.
    pub fn check(&self) -> Check {
        self.check
    }

    /// The text of the machine, where there is one, or that which was parsed: a board of it is open
    /// without a run.
    pub(crate) fn machine_text(&self) -> &str {
        self.machine.as_ref().unwrap_or(&self.text)
    }

    /// The job as a text of the machine, as `pramx compile` prints it.
    ///
    /// # Errors
    ///
    /// [`Subject::Memory`](crate::Subject::Memory).
    pub fn compile(&self) -> Result<String> {
        if let Some(machine) = &self.machine {
            let copied = copy(machine.as_bytes())?;
            return Ok(String::from_utf8(copied).expect("the library prints ASCII alone"));
        }
        let Check {
            cells,
            instructions,
            ..
        } = self.check;
        let room = 256 + 12 * cells as usize + 96 * instructions as usize;
        Ok(serve(Command::Compile, &self.text, &sys::ks_request::new(), room)?.1)
    }

    /// Runs the job step by step, processor by processor, and gives its answer by numbers. It takes
    /// one run, and of a conflict a second one, which says where it is.
    ///
    /// # Errors
    ///
    /// [`Subject::Memory`](crate::Subject::Memory).
    pub fn plain(&self) -> Result<Outcome> {
        let text = &self.text;
        let (status, cells) = filled(self.check.cells as usize, |cells, answer| {
            // SAFETY: all of them are borrowed for the call, and none is another one. It writes
            // within the cells and the answer, and keeps nothing.
            unsafe {
                sys::ks_cells(
                    text.as_ptr(),
                    text.len(),
                    cells.as_mut_ptr(),
                    cells.len(),
                    answer,
                )
            }
        })?;
        match status {
            Status::Conflict => Ok(Outcome::Conflict(self.fault()?)),
            _ => Ok(Outcome::Done(cells)),
        }
    }

    // The conflict that the job ends with. A text of the machine tells it by cells and steps.
    fn fault(&self) -> Result<Fault> {
        let text = self.compile()?;
        let (_, line) = serve(Command::Plain, &text, &sys::ks_request::new(), 128)?;
        Ok(Fault::of_line(line.trim_end()).expect(FORM))
    }

    /// The same answer as text, byte for byte as `pramx plain` prints it: of a program by its names
    /// and lines. It takes one run.
    ///
    /// # Errors
    ///
    /// [`Subject::Memory`](crate::Subject::Memory).
    pub fn plain_text(&self) -> Result<String> {
        Ok(self.told(0)?.1)
    }

    /// The same, and what became of the processors, as `pramx plain --why` prints it.
    ///
    /// # Errors
    ///
    /// [`Subject::Memory`](crate::Subject::Memory).
    pub fn plain_text_with_why(&self) -> Result<String> {
        Ok(self.told(1)?.1)
    }

    /// The values of the same answer by their names; none of a conflict. It takes one run.
    ///
    /// # Errors
    ///
    /// [`Subject::Memory`](crate::Subject::Memory).
    pub fn values(&self) -> Result<Option<Values>> {
        let (status, text) = self.told(0)?;
        match status {
            Status::Conflict => Ok(None),
            _ => Ok(Some(Values::of_text(&text).expect(FORM))),
        }
    }

    /// The cells of an answer of this job by its names, as those that [`run`](crate::run) gives. The
    /// library is asked for names and lengths, by a program of this header that does nothing.
    ///
    /// # Errors
    ///
    /// [`Subject::Memory`](crate::Subject::Memory).
    pub fn named(&self, cells: &[u32]) -> Result<Values> {
        match header_of(&self.text) {
            None => Ok(Values::of_cells(cells)),
            Some(header) => {
                let idle = format!("{header}code\nwhile 0\nend\n");
                let (_, text) = serve(Command::Plain, &idle, &sys::ks_request::new(), ROOM)?;
                Ok(Values::of_text(&text).expect(FORM).with(cells))
            }
        }
    }

    /// Where the shared array or scalar of this name lies in the cells of the job, if there is one.
    ///
    /// # Errors
    ///
    /// [`Subject::Memory`](crate::Subject::Memory).
    pub fn extent(&self, name: &str) -> Result<Option<Extent>> {
        extent_in(&self.text, name)
    }

    fn told(&self, why: u32) -> Result<(Status, String)> {
        let request = sys::ks_request {
            why,
            ..sys::ks_request::new()
        };
        let Check {
            cells, processors, ..
        } = self.check;
        let room = 256 + 18 * cells as usize + 64 * processors as usize;
        serve(Command::Plain, &self.text, &request, room)
    }

    /// What a run costs, and which PRAM it needs.
    ///
    /// # Errors
    ///
    /// [`Subject::Memory`](crate::Subject::Memory).
    pub fn cost(&self) -> Result<Cost> {
        let (_, text) = serve(Command::Cost, &self.text, &sys::ks_request::new(), 4096)?;
        Ok(Cost::of_text(text).expect(FORM))
    }

    /// What each counted line of a program costs; a text of the machine has none.
    ///
    /// # Errors
    ///
    /// [`Subject::Memory`](crate::Subject::Memory).
    pub fn cost_by_lines(&self) -> Result<LineCosts> {
        let request = sys::ks_request {
            lines: 1,
            ..sys::ks_request::new()
        };
        let (_, text) = serve(Command::Cost, &self.text, &request, 4096)?;
        Ok(LineCosts::new(text))
    }

    /// What each processor asks for in each step of the window, then the answer, as `pramx steps`
    /// prints them. Steps count from 1. The steps after the window are made too, for the answer.
    ///
    /// ```
    /// # let text = "pram 3\ncells 2\nprocs 2\nsteps 2\nrule crew\ncode\npid r0\nst r0 7\n";
    /// # let job = kaolinsilk::Job::parse(text)?;
    /// let steps = job.steps(2..)?;
    /// let row = steps.rows().next().expect("a row of the first processor");
    /// assert_eq!((row.step, row.processor, row.instruction), (2, 0, "st r0 7"));
    /// # Ok::<(), kaolinsilk::Error>(())
    /// ```
    ///
    /// # Errors
    ///
    /// [`Subject::Step`](crate::Subject::Step) where the window begins above 1 and the job has no
    /// such step; [`Subject::Request`](crate::Subject::Request) where it is empty or has a step 0;
    /// [`Subject::Memory`](crate::Subject::Memory).
    pub fn steps(&self, window: impl RangeBounds<u32>) -> Result<Steps> {
        let (from, to) = bounds(&window).ok_or(NO_WINDOW)?;
        let request = sys::ks_request {
            from,
            to,
            ..sys::ks_request::new()
        };
        let (status, text) = serve(Command::Steps, &self.text, &request, ROOM)?;
        Ok(Steps::new(text, status))
    }

    /// Runs the job by so many workers, one atomic step at a time, in the order of the plan: each
    /// atomic step, then the answer, as `pramx replay` prints them.
    ///
    /// # Errors
    ///
    /// [`Subject::Plan`](crate::Subject::Plan) with the first row that is no row for so many
    /// workers; [`Subject::Request`](crate::Subject::Request) unless there are 1 to 64 of them;
    /// [`Subject::Memory`](crate::Subject::Memory).
    pub fn replay(&self, plan: &Plan, workers: u32) -> Result<Replay> {
        let (text, plan) = (&self.text, plan.text()?);
        let request = sys::ks_request {
            workers,
            ..sys::ks_request::new()
        };
        let (status, text) = printed(ROOM, |out, answer| {
            let (text, text_length) = (text.as_ptr(), text.len());
            let (plan, plan_length) = (plan.as_ptr(), plan.len());
            let (out, room) = (out.as_mut_ptr(), out.len());
            // SAFETY: all of them are borrowed for the call, and none is another one. It writes
            // within the output and the answer, and keeps nothing.
            unsafe {
                sys::ks_replay(
                    text,
                    text_length,
                    plan,
                    plan_length,
                    &request,
                    out,
                    room,
                    answer,
                )
            }
        })?;
        Ok(Replay::new(text, status))
    }
}

impl FromStr for Job {
    type Err = Error;

    fn from_str(text: &str) -> Result<Job> {
        Job::parse(text)
    }
}

// What comes before the code of a program; none of a text of the machine.
fn header_of(text: &str) -> Option<&str> {
    fn words(line: &str) -> impl Iterator<Item = &str> {
        let said = line.split(';').next().unwrap_or("");
        said.split_ascii_whitespace()
    }
    let mut all = text.lines().flat_map(words);
    if all.next() != Some("pardo") {
        return None;
    }
    let mut end = 0;
    for line in text.split_inclusive('\n') {
        if words(line).eq(["code"]) {
            break;
        }
        end += line.len();
    }
    Some(&text[..end])
}

const NO_WINDOW: Error =
    Error::request("a window has a first step from 1 and a last one not below it");

// The first and the last step of a window, if it has one.
fn bounds(window: &impl RangeBounds<u32>) -> Option<(u32, u32)> {
    let from = match window.start_bound() {
        Bound::Included(&from) => from,
        Bound::Excluded(&before) => before.checked_add(1)?,
        Bound::Unbounded => 1,
    };
    let to = match window.end_bound() {
        Bound::Included(&to) => to,
        Bound::Excluded(&after) => after.checked_sub(1)?,
        Bound::Unbounded => u32::MAX,
    };
    (1 <= from && from <= to).then_some((from, to))
}

#[cfg(test)]
mod tests {
    use super::{Check, Rule, bounds, header_of};
    use std::ops::Bound;

    #[test]
    fn a_check_is_its_line() {
        for (rule, word) in [
            (Rule::Common, ""),
            (Rule::Priority, " rule=priority"),
            (Rule::Crew, " rule=crew"),
        ] {
            let check = Check {
                cells: 5,
                processors: 4,
                steps: u32::MAX,
                instructions: 11,
                rule,
            };
            let line = format!("ok cells=5 procs=4 steps=4294967295 code=11{word}");
            assert_eq!(check.to_string(), line);
            assert_eq!(Check::of_line(&line), Some(check));
        }
        assert_eq!(
            Check::of_line("ok cells=5 procs=4 steps=1 code=11 rule=none"),
            None
        );
        assert_eq!(Check::of_line("ok cells=5 procs=4"), None);
    }

    #[test]
    fn headers() {
        let text = "; one\npardo 1\nrule crew ; code\n code ; it\nA[0] := 1\n";
        let header = "; one\npardo 1\nrule crew ; code\n";
        assert_eq!(header_of(text), Some(header));
        assert_eq!(header_of("pram 1\ncells 2\ncode\n"), None);
    }

    #[test]
    fn windows() {
        assert_eq!(bounds(&(..)), Some((1, u32::MAX)));
        assert_eq!(bounds(&(2..4)), Some((2, 3)));
        assert_eq!(bounds(&(2..=4)), Some((2, 4)));
        assert_eq!(bounds(&(..=1)), Some((1, 1)));
        assert_eq!(
            bounds(&(Bound::Excluded(3), Bound::Excluded(5))),
            Some((4, 4))
        );
        assert_eq!(bounds(&(0..)), None);
        assert_eq!(bounds(&(..0)), None);
        assert_eq!(bounds(&(..1)), None);
        assert_eq!(bounds(&(2..2)), None);
        assert_eq!(bounds(&(Bound::Excluded(u32::MAX), Bound::Unbounded)), None);
    }
}

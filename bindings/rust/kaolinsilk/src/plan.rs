//! Plans.
use std::fmt::{self, Write};

use crate::error::Result;
use crate::told::filled;
use kaolinsilk_sys as sys;

/// What a worker does in a row of a plan.
#[derive(Clone, Copy, Debug, PartialEq, Eq, Hash)]
pub enum Act {
    /// It makes up to so many atomic steps.
    Go(u32),
    /// It passes its turn so many times. On threads it goes on at once.
    Sleep(u32),
    /// It loses all that it knew, and comes back.
    Back,
    /// It is lost for good.
    Stop,
}

/// A row of a plan.
#[derive(Clone, Copy, Debug, PartialEq, Eq, Hash)]
pub struct Row {
    /// The worker's number, from 0.
    pub worker: u32,
    /// What it does.
    pub act: Act,
}

/// What the workers of a run do before they go on without a limit. Each obeys its own rows, in
/// order.
///
/// A plan is made of rows, or of a text of comma-separated records. It is judged where it is used:
/// whether a worker is one of so many, and whether no row follows the one that stops its worker.
///
/// ```
/// use kaolinsilk::{Act, Plan, Row};
///
/// let plan = Plan::new().stop(0).go(1, 40).stop(1);
/// assert_eq!(plan.to_string(), "worker,act,ticks\n0,stop,0\n1,go,40\n1,stop,0\n");
/// assert_eq!(Plan::parse(plan.to_string(), 2)?, plan);
/// assert_eq!(plan.rows()[1], Row { worker: 1, act: Act::Go(40) });
/// assert_eq!(plan.check(1).unwrap_err().kind(), "BadWorker");
/// # Ok::<(), kaolinsilk::Error>(())
/// ```
#[derive(Clone, Debug, Default, PartialEq, Eq)]
pub struct Plan {
    rows: Vec<Row>,
}

impl Plan {
    /// The plan without a row: all workers go on without a limit.
    pub const fn new() -> Plan {
        Plan { rows: Vec::new() }
    }

    /// The plan that a text spells for so many workers.
    ///
    /// # Errors
    ///
    /// [`Subject::Plan`](crate::Subject::Plan) with the first record that is no row for so many
    /// workers; [`Subject::Request`](crate::Subject::Request) unless there are 1 to 64 of them;
    /// [`Subject::Size`](crate::Subject::Size) of more than 67,108,864 bytes;
    /// [`Subject::Memory`](crate::Subject::Memory).
    pub fn parse(text: impl AsRef<[u8]>, workers: u32) -> Result<Plan> {
        let judged = judge(text.as_ref(), workers)?;
        let mut rows = Vec::new();
        rows.try_reserve_exact(judged.len())?;
        rows.extend(judged.into_iter().map(Row::from));
        Ok(Plan { rows })
    }

    /// Whether this is a plan for so many workers.
    ///
    /// # Errors
    ///
    /// As of [`Plan::parse`]; the row is that of the text that the plan is displayed as.
    pub fn check(&self, workers: u32) -> Result<()> {
        judge(self.text()?.as_bytes(), workers).map(drop)
    }

    /// The rows, in their order.
    pub fn rows(&self) -> &[Row] {
        &self.rows
    }

    /// With one row more.
    pub fn with(mut self, worker: u32, act: Act) -> Plan {
        self.rows.push(Row { worker, act });
        self
    }

    /// The worker then makes up to so many atomic steps.
    pub fn go(self, worker: u32, steps: u32) -> Plan {
        self.with(worker, Act::Go(steps))
    }

    /// The worker then passes its turn so many times.
    pub fn sleep(self, worker: u32, times: u32) -> Plan {
        self.with(worker, Act::Sleep(times))
    }

    /// The worker then loses all that it knew, and comes back.
    pub fn back(self, worker: u32) -> Plan {
        self.with(worker, Act::Back)
    }

    /// The worker is then lost for good.
    pub fn stop(self, worker: u32) -> Plan {
        self.with(worker, Act::Stop)
    }

    // The text that the plan is displayed as, if there is memory for it.
    pub(crate) fn text(&self) -> Result<String> {
        const HEADER: usize = "worker,act,ticks\n".len();
        const ROW: usize = "4294967295,sleep,4294967295\n".len();
        let mut text = String::new();
        text.try_reserve_exact(HEADER + ROW * self.rows.len())?;
        write!(text, "{self}").expect("a string takes all that is written");
        Ok(text)
    }
}

// The rows of a text for so many workers. It has at most one for each line.
fn judge(text: &[u8], workers: u32) -> Result<Vec<sys::ks_plan_row>> {
    let lines = text
        .iter()
        .filter(|&&it| it == b'\n' || it == b'\r')
        .count();
    let (_, rows) = filled(lines, |rows, answer| {
        // SAFETY: all of them are borrowed for the call, and none is another one. It writes within
        // the rows and the answer, and keeps nothing.
        unsafe {
            sys::ks_plan(
                text.as_ptr(),
                text.len(),
                workers,
                rows.as_mut_ptr(),
                rows.len(),
                answer,
            )
        }
    })?;
    Ok(rows)
}

impl From<sys::ks_plan_row> for Row {
    fn from(row: sys::ks_plan_row) -> Row {
        let act = match row.act {
            0 => Act::Go(row.ticks),
            1 => Act::Sleep(row.ticks),
            2 => Act::Back,
            _ => Act::Stop,
        };
        Row {
            worker: row.worker,
            act,
        }
    }
}

impl FromIterator<Row> for Plan {
    fn from_iter<I: IntoIterator<Item = Row>>(rows: I) -> Plan {
        Plan {
            rows: rows.into_iter().collect(),
        }
    }
}

impl Extend<Row> for Plan {
    fn extend<I: IntoIterator<Item = Row>>(&mut self, rows: I) {
        self.rows.extend(rows);
    }
}

/// As a record of a plan's text.
impl fmt::Display for Row {
    fn fmt(&self, f: &mut fmt::Formatter<'_>) -> fmt::Result {
        let worker = self.worker;
        match self.act {
            Act::Go(ticks) => write!(f, "{worker},go,{ticks}"),
            Act::Sleep(ticks) => write!(f, "{worker},sleep,{ticks}"),
            Act::Back => write!(f, "{worker},back,0"),
            Act::Stop => write!(f, "{worker},stop,0"),
        }
    }
}

/// As a text that spells the plan.
impl fmt::Display for Plan {
    fn fmt(&self, f: &mut fmt::Formatter<'_>) -> fmt::Result {
        if !self.rows.is_empty() {
            f.write_str("worker,act,ticks\n")?;
        }
        self.rows.iter().try_for_each(|row| writeln!(f, "{row}"))
    }
}

//! Sweeps: what a program costs with one constant or another.
use std::fmt;

use crate::cost::Pram;
use crate::error::Result;
use crate::job::Job;
use crate::outcome::Ended;
use crate::settings::Settings;

/// How a run of a sweep ended.
#[derive(Clone, Copy, Debug, PartialEq, Eq, Hash)]
pub enum SweepEnd {
    /// It is done, and no processor is gone.
    Done,
    /// It is done, and one is.
    Gone,
    /// In a conflict.
    Conflict,
}

impl fmt::Display for SweepEnd {
    fn fmt(&self, f: &mut fmt::Formatter<'_>) -> fmt::Result {
        f.write_str(match self {
            SweepEnd::Done => "done",
            SweepEnd::Gone => "gone",
            SweepEnd::Conflict => "conflict",
        })
    }
}

/// What a run costs where the constant has this value, and how it ended.
#[derive(Clone, Copy, Debug, PartialEq, Eq, Hash)]
pub struct SweepRow {
    /// The constant.
    pub value: u32,
    /// The steps of the run.
    pub steps: u32,
    /// Its time.
    pub time: u64,
    /// Its operations.
    pub operations: u64,
    /// The processors.
    pub processors: u32,
    /// The weakest model that accepts it.
    pub needs: Pram,
    /// How it ended.
    pub end: SweepEnd,
}

impl SweepRow {
    fn of_job(value: u32, job: &Job) -> Result<SweepRow> {
        let cost = job.cost()?;
        let end = match cost.ended {
            Ended::Conflict => SweepEnd::Conflict,
            _ if job.plain_text()?.contains("\ngone ") => SweepEnd::Gone,
            _ => SweepEnd::Done,
        };
        Ok(SweepRow {
            value,
            steps: cost.steps,
            time: cost.time.unwrap_or(0),
            operations: cost.operations.unwrap_or(0),
            processors: cost.processors,
            needs: cost.needs,
            end,
        })
    }
}

/// The records of a sweep. It is displayed as comma-separated records, a header before them.
#[derive(Clone, Debug, PartialEq, Eq)]
pub struct Sweep {
    /// The name of the constant.
    pub name: String,
    /// A row for each of its values, in their order.
    pub rows: Vec<SweepRow>,
}

impl fmt::Display for Sweep {
    fn fmt(&self, f: &mut fmt::Formatter<'_>) -> fmt::Result {
        let name = &self.name;
        writeln!(f, "{name},steps,time,operations,processors,needs,end")?;
        for row in &self.rows {
            let SweepRow {
                value,
                steps,
                time,
                operations,
                processors,
                needs,
                end,
            } = row;
            writeln!(
                f,
                "{value},{steps},{time},{operations},{processors},{needs},{end}"
            )?;
        }
        Ok(())
    }
}

/// What a program costs with each value of a constant of its header; `others` says what else is set
/// where the constant has this value. Each program is run twice.
///
/// ```
/// use kaolinsilk::{Settings, sweep};
///
/// let text = "pardo 1\nrule crew\nconst n = 2\nprocs i < n\nshared A[n] = 3, 1\ncode\nA[i] := i\n";
/// let sizes = sweep(text, "n", [2, 8], |n| Settings::new().set("A", vec![7; n as usize]))?;
/// let header = "n,steps,time,operations,processors,needs,end\n";
/// assert_eq!(sizes.to_string(), format!("{header}2,3,1,2,2,EREW,done\n8,3,1,8,8,EREW,done\n"));
/// # Ok::<(), kaolinsilk::Error>(())
/// ```
///
/// # Errors
///
/// Those of [`Job::parse_with`], of the first value that has one.
pub fn sweep(
    text: impl AsRef<[u8]>,
    name: &str,
    values: impl IntoIterator<Item = u32>,
    others: impl Fn(u32) -> Settings,
) -> Result<Sweep> {
    let text = text.as_ref();
    let row = |value| {
        let settings = Settings::new().set(name, [value]).and(&others(value));
        SweepRow::of_job(value, &Job::parse_with(text, &settings)?)
    };
    let rows = values.into_iter().map(row).collect::<Result<_>>()?;
    Ok(Sweep {
        name: name.to_owned(),
        rows,
    })
}

#[cfg(test)]
mod tests {
    use super::{SweepEnd, sweep};
    use crate::settings::Settings;

    #[test]
    fn a_sweep_tells_how_each_run_ended() {
        let header = "pardo 1\nrule common\nconst n = 1\nprocs i < n\nshared A[2]\ncode\n";
        let ends = |line: &str, values: [u32; 2]| {
            let text = format!("{header}{line}\n");
            let swept = sweep(text, "n", values, |_| Settings::new()).unwrap();
            swept.rows.iter().map(|it| it.end).collect::<Vec<_>>()
        };
        assert_eq!(ends("A[i] := n", [2, 3]), [SweepEnd::Done, SweepEnd::Gone]);
        let conflict = [SweepEnd::Done, SweepEnd::Conflict];
        assert_eq!(ends("A[0] := i", [1, 2]), conflict);
    }
}

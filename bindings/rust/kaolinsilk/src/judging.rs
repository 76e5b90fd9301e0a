//! Submissions, judged by an exercise.
use crate::error::Result;
use crate::fields::{optional, unquoted};
use crate::told::printed;
use kaolinsilk_sys as sys;

/// A buffer that most records fit into.
const ROOM: usize = 512;

/// What is said of a submission.
#[derive(Clone, Debug, PartialEq, Eq, Hash)]
pub struct Verdict {
    /// Whether it does what the exercise asks for, under each input.
    pub passed: bool,
    /// The first input under which it does not, from 1.
    pub input: Option<u64>,
    /// What is wrong then; empty where it passed.
    pub what: String,
}

impl Verdict {
    // That of a record `passed,input,what`.
    fn of_record(record: &str) -> Option<Verdict> {
        let mut fields = record.strip_suffix('\n')?.splitn(3, ',');
        Some(Verdict {
            passed: fields.next()? == "yes",
            input: optional(fields.next()?)?,
            what: unquoted(fields.next()?).into_owned(),
        })
    }
}

/// Judges a submission by an exercise, as `pramx judge` does; docs/TEACHING.md says how exercises
/// are written.
///
/// ```
/// let exercise = "exercise 1
/// title squares
/// want A
/// given
///   pardo 1
///   rule crew
///   const n = 4
///   procs i < n
///   shared A[n]
/// start
///   code
/// input n=2 -> A=0,1
/// hidden n=4 -> A=0,1,4,9
/// ";
/// let header = "pardo 1\nrule crew\nconst n = 4\nprocs i < n\nshared A[n]\ncode\n";
/// assert!(kaolinsilk::judge(exercise, format!("{header}A[i] := i * i\n"))?.passed);
///
/// let verdict = kaolinsilk::judge(exercise, format!("{header}A[i] := i\n"))?;
/// assert_eq!((verdict.passed, verdict.input), (false, Some(2)));
/// assert_eq!(verdict.what, "a value is not the one that is wanted");
/// # Ok::<(), kaolinsilk::Error>(())
/// ```
///
/// # Errors
///
/// [`Subject::Exercise`](crate::Subject::Exercise) with the line of an exercise by which nothing
/// can be judged; [`Subject::Memory`](crate::Subject::Memory). What is wrong with a submission is
/// no error.
pub fn judge(exercise: impl AsRef<[u8]>, submission: impl AsRef<[u8]>) -> Result<Verdict> {
    let (exercise, submission) = (exercise.as_ref(), submission.as_ref());
    let (_, record) = printed(ROOM, |out, answer| {
        // SAFETY: all of them are borrowed for the call, and none is another one. It writes within
        // the output and the answer, and keeps nothing.
        unsafe {
            sys::ks_judge(
                exercise.as_ptr(),
                exercise.len(),
                submission.as_ptr(),
                submission.len(),
                out.as_mut_ptr(),
                out.len(),
                answer,
            )
        }
    })?;
    Ok(Verdict::of_record(&record).expect("the library writes a record of three fields"))
}

#[cfg(test)]
mod tests {
    use super::Verdict;

    #[test]
    fn a_verdict_is_a_record() {
        let passed = Verdict::of_record("yes,,\n").unwrap();
        assert!(passed.passed && passed.input.is_none() && passed.what.is_empty());
        let told = "no,12,\"the line \"\"shared A[n]\"\" is missing\"\n";
        let failed = Verdict::of_record(told).unwrap();
        assert_eq!((failed.passed, failed.input), (false, Some(12)));
        assert_eq!(failed.what, "the line \"shared A[n]\" is missing");
        assert_eq!(Verdict::of_record("no,x,y\n"), None);
    }
}

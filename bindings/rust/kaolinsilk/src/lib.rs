//! Programs of a PRAM, a *parallel random-access machine*, on threads that may stop, sleep and come
//! back at any moment. The answer is the machine's, whichever threads survive.
//!
//! All that decides an answer is done by libkaolinsilk, whose functions are proved to meet their
//! contracts. This crate calls it, and the repository's docs/EMBEDDING.md says what is proved of it
//! and what is trusted.
//!
//! ```
//! use kaolinsilk::{Job, Outcome, Plan, RunAnswer, run};
//!
//! let job = Job::parse("
//!     pardo 1
//!     rule common
//!     procs i < 8
//!     shared A[8] = 3, 1, 4, 1, 5, 9, 2, 6
//!     code
//!     for h = 0 to 2
//!        if i >= 1 << h
//!           A[i] := A[i] + A[i - 1 << h]
//!        end
//!     end
//! ")?;
//! print!("{}", job.plain_text()?);
//!
//! // Three of four workers are lost, two of them in the midst of their work.
//! let plan = Plan::new().stop(0).go(1, 40).stop(1).go(2, 7).stop(2);
//! let answer = run(&job, 4, &plan)?;
//! assert_eq!(answer, RunAnswer::Ended(job.plain()?));
//! let RunAnswer::Ended(Outcome::Done(cells)) = answer else { unreachable!() };
//! assert_eq!(cells[..8], [3, 4, 8, 9, 14, 23, 25, 31]);
//! # Ok::<(), kaolinsilk::Error>(())
//! ```
//!
//! | | |
//! |---|---|
//! | [`Job`] | a text that was judged, and what the commands of `pramx` tell of it |
//! | [`Settings`] | what constants and shared arrays of a program are set to |
//! | [`sweep`] | what a program costs with each value of a constant |
//! | [`judge`] | a submission, judged by an exercise |
//! | [`run`] | a job on threads, by a [`Plan`]; [`run_until`] is stopped, [`run_within`] ends in time |
//! | [`Board`] | for threads of your own: each has a [`Worker`], or reads by a [`Seat`] |
//! | [`Error`] | what was refused, where and why |
//!
//! # Memory, threads and processes
//!
//! What the library asks for, and all buffers of this crate, may be refused: that is an [`Error`].
//! Rows of a [`Plan`] and of a [`Sweep`], [`Settings`], [`Values`], the words of a [`Verdict`], and
//! what the standard library needs for the threads of [`run`], are asked for as Rust asks for memory
//! everywhere.
//!
//! No call is to be made from a signal handler, or from the forked child of a process with threads.

mod arrays;
mod board;
mod call;
mod cost;
mod error;
mod fields;
mod job;
mod judging;
mod line_costs;
mod outcome;
mod plan;
mod replay;
mod run;
mod settings;
mod steps;
mod sweep;
mod told;
mod values;

pub use arrays::Extent;
pub use board::{Board, Progress, Reading, Seat, Stay, Worker};
pub use cost::{Cost, Meeting, Place, Pram};
pub use error::{Error, Result, Subject};
pub use job::{Check, Job, Rule};
pub use judging::{Verdict, judge};
pub use line_costs::{LineCost, LineCosts};
pub use outcome::{Ended, Fault, Outcome};
pub use plan::{Act, Plan, Row};
pub use replay::{Replay, StepKind, TraceRow};
pub use run::{RunAnswer, run, run_until, run_within};
pub use settings::Settings;
pub use steps::{StepRow, Steps, Target};
pub use sweep::{Sweep, SweepEnd, SweepRow, sweep};
pub use values::Values;

/// The version of the library that is linked: major, minor, patch.
pub fn version() -> (u32, u32, u32) {
    let version = kaolinsilk_sys::ks_version();
    (version >> 16, version >> 8 & 0xff, version & 0xff)
}

// The example of the README is run, too.
#[cfg(doctest)]
#[doc = include_str!("../../README.md")]
struct Readme;

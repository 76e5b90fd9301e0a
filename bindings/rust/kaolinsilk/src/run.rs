//! Runs of a job on threads of the standard library.
use std::sync::Arc;
use std::sync::atomic::{AtomicBool, AtomicU32, Ordering};
use std::thread::{self, Thread};
use std::time::{Duration, Instant};

use crate::board::{Board, Stay, Worker};
use crate::error::{Error, Result};
use crate::job::Job;
use crate::outcome::Outcome;
use crate::plan::{Act, Plan};

/// What a run gives.
#[derive(Clone, Debug, PartialEq, Eq)]
pub enum RunAnswer {
    /// The job ended so.
    Ended(Outcome),
    /// The workers stopped, and this step is finished.
    Unfinished {
        /// The step.
        step: u32,
    },
}

impl RunAnswer {
    /// How the job ended, if it did.
    pub fn outcome(&self) -> Option<&Outcome> {
        match self {
            RunAnswer::Ended(outcome) => Some(outcome),
            RunAnswer::Unfinished { .. } => None,
        }
    }
}

/// Runs a job by so many workers, 1 to 64, each on a thread of its own. Each obeys its rows of the
/// plan, and then goes on without a limit. The answer comes as soon as one worker knows it; the
/// threads of the others end by themselves, and nobody waits for them.
///
/// A worker whose thread the system refuses takes no part. Nor does one whose thread would come
/// when the job is over.
///
/// ```
/// use kaolinsilk::{Job, Outcome, Plan, RunAnswer, run};
///
/// let job = Job::parse("pram 3\ncells 2\nprocs 2\nsteps 2\nrule crew\ncode\npid r0\nst r0 7\n")?;
/// let plan = Plan::new().stop(0).go(1, 5).stop(1).go(2, 9).back(2);
/// assert_eq!(run(&job, 3, &plan)?, RunAnswer::Ended(Outcome::Done(vec![7, 7])));
/// # Ok::<(), kaolinsilk::Error>(())
/// ```
///
/// # Errors
///
/// [`Subject::Request`](crate::Subject::Request) for another number of workers;
/// [`Subject::Plan`](crate::Subject::Plan) where the plan is none for so many;
/// [`Subject::Memory`](crate::Subject::Memory), also where so many threads are refused that the
/// others do not come to the end.
pub fn run(job: &Job, workers: u32, plan: &Plan) -> Result<RunAnswer> {
    run_asking(job, workers, plan, None)
}

/// As [`run`], but that it stops where it is told to: the calling thread asks every few
/// milliseconds. Then the answer is `Unfinished`, unless the end is known already, and the workers
/// leave within some tens of milliseconds. Nothing is slower by that.
///
/// ```
/// use kaolinsilk::{Job, Plan, RunAnswer, run_until};
/// use std::time::{Duration, Instant};
///
/// let text = "pram 1\ncells 1\nprocs 1\nsteps 400000000\ncode\nagain: jmp again\n";
/// let late = Instant::now() + Duration::from_millis(30);
/// let answer = run_until(&Job::parse(text)?, 2, &Plan::new(), || Instant::now() >= late)?;
/// assert!(matches!(answer, RunAnswer::Unfinished { .. }));
/// # Ok::<(), kaolinsilk::Error>(())
/// ```
///
/// # Errors
///
/// Those of [`run`].
pub fn run_until(
    job: &Job,
    workers: u32,
    plan: &Plan,
    mut stop: impl FnMut() -> bool,
) -> Result<RunAnswer> {
    run_asking(job, workers, plan, Some(&mut stop))
}

/// As [`run`], for so long at most, once the board is open.
///
/// # Errors
///
/// Those of [`run`].
pub fn run_within(job: &Job, workers: u32, plan: &Plan, most: Duration) -> Result<RunAnswer> {
    let began = Instant::now();
    run_until(job, workers, plan, || began.elapsed() >= most)
}

// Who says whether to stop, if anybody does.
type Stop<'a> = Option<&'a mut dyn FnMut() -> bool>;

fn run_asking(job: &Job, workers: u32, plan: &Plan, stop: Stop<'_>) -> Result<RunAnswer> {
    let board = Board::open(job, workers)?;
    plan.check(workers)?;
    let mut seat = board.seat()?;
    let heard = start_and_hear(&board, plan, stop)?;
    match seat.outcome()? {
        Some(outcome) => Ok(RunAnswer::Ended(outcome)),
        None if heard.is_refused && !heard.is_stopped => Err(NO_THREADS),
        None => Ok(RunAnswer::Unfinished {
            step: seat.progress().step,
        }),
    }
}

const NO_THREADS: Error = Error::new(
    crate::Subject::Memory,
    "Memory",
    "the system refused threads that were needed",
);

/// How long the calling thread waits before it asks again whether to stop.
const BETWEEN: Duration = Duration::from_millis(5);

// What workers that leave tell the calling thread. It takes no lock: a thread that is frozen in the
// midst of this holds nobody up.
struct Bell {
    is_over: AtomicBool,
    is_stopped: AtomicBool,
    left: AtomicU32,
    hearer: Thread,
}

impl Bell {
    fn new() -> Bell {
        Bell {
            is_over: AtomicBool::new(false),
            is_stopped: AtomicBool::new(false),
            left: AtomicU32::new(0),
            hearer: thread::current(),
        }
    }

    fn is_over(&self) -> bool {
        self.is_over.load(Ordering::Acquire)
    }

    // Waits until a worker knows the end, or so many have left, or it is told to stop.
    fn hear(&self, workers: u32, mut stop: Stop<'_>) {
        while !self.is_over() && self.left.load(Ordering::Acquire) < workers {
            let Some(is_to_stop) = &mut stop else {
                thread::park();
                continue;
            };
            if is_to_stop() {
                return self.is_stopped.store(true, Ordering::Relaxed);
            }
            thread::park_timeout(BETWEEN);
        }
    }
}

// A worker's part in the bell. It rings when it is dropped, also where no thread takes it.
struct Leaving(Arc<Bell>);

impl Drop for Leaving {
    fn drop(&mut self) {
        self.0.left.fetch_add(1, Ordering::Release);
        self.0.hearer.unpark();
    }
}

// Whether a thread was refused, and whether the run was told to stop.
struct Heard {
    is_refused: bool,
    is_stopped: bool,
}

// Starts the workers, and waits until one knows the end or all have left, or it is told to stop.
fn start_and_hear(board: &Board, plan: &Plan, stop: Stop<'_>) -> Result<Heard> {
    let bell = Arc::new(Bell::new());
    let mut all_started = true;
    for number in 0..board.workers() {
        let (worker, acts) = (board.worker(number)?, acts_of(plan, number)?);
        let leaving = Leaving(Arc::clone(&bell));
        let life = move || {
            if obey(worker, &acts, &leaving.0.is_stopped) {
                leaving.0.is_over.store(true, Ordering::Release);
            }
        };
        all_started &= thread::Builder::new().spawn(life).is_ok();
        if bell.is_over() {
            break;
        }
    }
    bell.hear(board.workers(), stop);
    Ok(Heard {
        is_refused: !all_started,
        is_stopped: bell.is_stopped.load(Ordering::Relaxed),
    })
}

// What a plan asks of one worker.
fn acts_of(plan: &Plan, number: u32) -> Result<Vec<Act>> {
    let own = || {
        plan.rows()
            .iter()
            .filter(|row| row.worker == number)
            .map(|row| row.act)
    };
    let mut acts = Vec::new();
    acts.try_reserve_exact(own().count())?;
    acts.extend(own());
    Ok(acts)
}

// Whether the worker came to the end: it did not where it was stopped before.
fn obey(mut worker: Worker, acts: &[Act], stop: &AtomicBool) -> bool {
    for act in acts {
        match *act {
            Act::Go(steps) => {
                if go(&mut worker, steps, stop) {
                    return true;
                }
            }
            Act::Sleep(_) => {}
            Act::Back => worker.back(),
            Act::Stop => return false,
        }
    }
    matches!(worker.work_until(stop), Stay::Ended(_))
}

// The atomic steps of a row. Whether the worker came to the end in them.
fn go(worker: &mut Worker, steps: u32, stop: &AtomicBool) -> bool {
    let mut left = steps;
    while left > 0 && !stop.load(Ordering::Relaxed) {
        let some = left.min(1 << 16);
        if let Stay::Ended(_) = worker.work(some.into()) {
            return true;
        }
        left -= some;
    }
    false
}

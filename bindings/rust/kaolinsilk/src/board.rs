//! Boards that threads share, their workers and their readers.
use std::sync::atomic::{AtomicBool, Ordering};
use std::sync::{Mutex, MutexGuard, PoisonError};

use crate::arrays::{given, unfit};
use crate::error::{Error, Result};
use crate::job::{Check, Job};
use crate::outcome::{Ended, Fault, Outcome};
use crate::told::{Status, zeros};
use kaolinsilk_sys as sys;

/// What is promised of calls with handles.
const KEPT: &str = "a call with a handle ends as kaolinsilk.h has it";

/// The words of a job that threads share. It gives workers and readers, which go to threads. Each
/// of them keeps the words alive, so a board may be dropped before them.
///
/// No call of a worker or a reader takes a lock or waits for another thread. Only those who ask a
/// board for one of them take turns.
///
/// ```
/// use kaolinsilk::{Board, Ended, Job};
/// use std::thread;
///
/// let job = Job::parse("pram 3\ncells 4\nprocs 4\nsteps 2\nrule crew\ncode\npid r0\nst r0 r0\n")?;
/// let board = Board::open(&job, 2)?;
/// let (mut lost, mut other) = (board.worker(0)?, board.worker(1)?);
/// thread::scope(|scope| {
///     scope.spawn(move || lost.work(5)); // and is never seen again
///     scope.spawn(move || assert_eq!(other.finish(), Ended::Done));
/// });
/// assert_eq!(board.seat()?.memory()?, Some(vec![0, 1, 2, 3]));
/// # Ok::<(), kaolinsilk::Error>(())
/// ```
#[derive(Debug)]
pub struct Board {
    handle: Mutex<BoardHandle>,
    workers: u32,
    check: Check,
}

#[derive(Debug)]
struct BoardHandle(sys::ks_board);

// SAFETY: a board belongs to no thread: one call at a time uses or closes it, on any thread.
unsafe impl Send for BoardHandle {}

impl Drop for BoardHandle {
    fn drop(&mut self) {
        // SAFETY: the board is open, and nobody else has it.
        unsafe { sys::ks_close(&mut self.0) };
    }
}

impl Board {
    /// A board for a job and so many workers, 1 to 64. Nothing of the job is run.
    ///
    /// # Errors
    ///
    /// [`Subject::Request`](crate::Subject::Request) for another number of workers;
    /// [`Subject::Memory`](crate::Subject::Memory).
    pub fn open(job: &Job, workers: u32) -> Result<Board> {
        Board::opened(job, workers, 0)
    }

    /// The same, where a leaf of the tree that workers walk stands for so many processors: a power
    /// of two up to 64. The answer is the same with any number.
    ///
    /// # Errors
    ///
    /// [`Subject::Request`](crate::Subject::Request) for a number that is none of these;
    /// [`Subject::Memory`](crate::Subject::Memory).
    pub fn open_with_blocks(job: &Job, workers: u32, grain: u32) -> Result<Board> {
        if !grain.is_power_of_two() {
            return Err(NO_BOARD);
        }
        Board::opened(job, workers, grain)
    }

    fn opened(job: &Job, workers: u32, grain: u32) -> Result<Board> {
        let (text, mut handle) = (job.machine_text(), sys::ks_board::none());
        // SAFETY: the text and the place for the handle are borrowed for the call.
        let status =
            unsafe { sys::ks_open(text.as_ptr(), text.len(), workers, grain, &mut handle) };
        match status {
            sys::KS_DONE => Ok(Board {
                handle: Mutex::new(BoardHandle(handle)),
                workers,
                check: job.check(),
            }),
            sys::KS_FAILED => Err(NO_BOARD),
            _ => Err(Error::MEMORY),
        }
    }

    /// The same for the program of the job, where shared arrays and scalars start with values that
    /// are given by their names, as numbers all the way. Nothing is run, and nothing counted: the
    /// board has as many steps as a program may take, and its workers are done once all processors
    /// have stopped.
    ///
    /// ```
    /// use kaolinsilk::{Board, Ended, Job};
    ///
    /// let text = "pardo 1\nrule crew\nprocs i < 3\nshared A[3]\ncode\nA[i] := A[i] + i\n";
    /// let job = Job::parse(text)?;
    /// let board = Board::open_with(&job, 1, &[("A", &[5, 5, 5])])?;
    /// assert_eq!(board.worker(0)?.finish(), Ended::Done);
    /// let cells = board.seat()?.memory()?.expect("the job is over");
    /// assert_eq!(job.extent("A")?.expect("an array").of(&cells), [5, 6, 7]);
    /// # Ok::<(), kaolinsilk::Error>(())
    /// ```
    ///
    /// # Errors
    ///
    /// [`Subject::Setting`](crate::Subject::Setting) with the number of the first that the program
    /// has not, or not with so many places; those of [`Board::open`].
    pub fn open_with(job: &Job, workers: u32, values: &[(&str, &[u32])]) -> Result<Board> {
        let (text, mut handle) = (job.text(), sys::ks_board::none());
        let given = given(values)?;
        // SAFETY: the text, what is given and the place for the handle are borrowed for the call.
        let status = unsafe {
            sys::ks_open_with(
                text.as_ptr(),
                text.len(),
                workers,
                0,
                given.as_ptr(),
                given.len(),
                &mut handle,
            )
        };
        let handle = BoardHandle(handle);
        match status {
            sys::KS_DONE => Board::uncounted(handle, workers, job.check()),
            sys::KS_FAILED => Err(NO_BOARD),
            sys::KS_REFUSED => Err(unfit(job, values)?),
            _ => Err(Error::MEMORY),
        }
    }

    // That of an open handle, whose job is this one with other steps.
    fn uncounted(handle: BoardHandle, workers: u32, check: Check) -> Result<Board> {
        let mut board = Board {
            handle: Mutex::new(handle),
            workers,
            check,
        };
        board.check.steps = board.seat()?.told().steps;
        Ok(board)
    }

    /// How many workers the board is for.
    pub fn workers(&self) -> u32 {
        self.workers
    }

    /// The numbers of the board's job.
    pub fn check(&self) -> Check {
        self.check
    }

    // The handle, for one call. A thread that panicked with it had made its call.
    fn handle(&self) -> MutexGuard<'_, BoardHandle> {
        self.handle.lock().unwrap_or_else(PoisonError::into_inner)
    }

    /// A reader of the board.
    ///
    /// # Errors
    ///
    /// [`Subject::Memory`](crate::Subject::Memory).
    pub fn seat(&self) -> Result<Seat> {
        let (mut board, mut handle) = (self.handle(), sys::ks_seat::none());
        // SAFETY: the board is open, and nobody else has it now. It and the place for the handle
        // are borrowed for the call.
        match unsafe { sys::ks_seat_of(&mut board.0, &mut handle) } {
            sys::KS_DONE => Ok(Seat {
                handle: SeatHandle(handle),
                check: self.check,
            }),
            _ => Err(Error::MEMORY),
        }
    }

    /// The worker of this number, at its start. Two of one number may be at work together.
    ///
    /// # Errors
    ///
    /// [`Subject::Request`](crate::Subject::Request) unless the number is below that of the
    /// workers; [`Subject::Memory`](crate::Subject::Memory).
    pub fn worker(&self, number: u32) -> Result<Worker> {
        let (mut board, mut handle) = (self.handle(), sys::ks_worker::none());
        // SAFETY: the board is open, and nobody else has it now. It and the place for the handle
        // are borrowed for the call.
        match unsafe { sys::ks_worker_of(&mut board.0, number, &mut handle) } {
            sys::KS_DONE => Ok(Worker {
                handle: WorkerHandle(handle),
                number,
            }),
            sys::KS_FAILED => Err(NO_WORKER),
            _ => Err(Error::MEMORY),
        }
    }
}

const NO_BOARD: Error = Error::request(
    "a board has from 1 to 64 workers, and blocks of a power of two up to 64 of processors",
);

const NO_WORKER: Error = Error::request("the board has no worker of this number");

/// What work came to.
#[derive(Clone, Copy, Debug, PartialEq, Eq, Hash)]
pub enum Stay {
    /// The worker is over, and knows how the job ended.
    Ended(Ended),
    /// The limit was reached, and the worker is not over.
    Stopped,
}

fn stay_of(status: u32) -> Stay {
    match Status::of(status).expect(KEPT) {
        Status::Done => Stay::Ended(Ended::Done),
        Status::Conflict => Stay::Ended(Ended::Conflict),
        Status::Unfinished => Stay::Stopped,
    }
}

/// How many atomic steps there are between two looks at a flag: some milliseconds of work.
const TURNS: u64 = 1_000_000;

/// A worker of a board, and where it stands. It may be dropped after any atomic step; the others
/// then do its part.
#[derive(Debug)]
pub struct Worker {
    handle: WorkerHandle,
    number: u32,
}

#[derive(Debug)]
struct WorkerHandle(sys::ks_worker);

// SAFETY: a worker belongs to no thread: one call at a time uses or closes it, on any thread.
unsafe impl Send for WorkerHandle {}

// SAFETY: no call is made with a worker that is borrowed and not mutably so.
unsafe impl Sync for WorkerHandle {}

impl Drop for WorkerHandle {
    fn drop(&mut self) {
        // SAFETY: the worker is open, and nobody else has it.
        unsafe { sys::ks_close_worker(&mut self.0) };
    }
}

impl Worker {
    /// Its number, from 0.
    pub fn number(&self) -> u32 {
        self.number
    }

    /// Makes at most so many atomic steps, one by one: that takes some twenty times as long as by
    /// [`Worker::turns`].
    pub fn work(&mut self, limit: u64) -> Stay {
        // SAFETY: the worker is open, and it is borrowed mutably.
        stay_of(unsafe { sys::ks_work(&mut self.handle.0, limit) })
    }

    /// Makes at least so many atomic steps, as quickly as [`Worker::finish`], unless it is over
    /// before, and stops at the end of a phase, of which each step of the job has three.
    pub fn turns(&mut self, least: u64) -> Stay {
        // SAFETY: the worker is open, and it is borrowed mutably.
        stay_of(unsafe { sys::ks_turns(&mut self.handle.0, least) })
    }

    /// Works to the end of the job, or until another thread sets the flag: then it stops within some
    /// milliseconds, and may go on later. It is as quick as [`Worker::finish`].
    pub fn work_until(&mut self, stop: &AtomicBool) -> Stay {
        while !stop.load(Ordering::Relaxed) {
            if let Stay::Ended(ended) = self.turns(TURNS) {
                return Stay::Ended(ended);
            }
        }
        Stay::Stopped
    }

    /// Works to the end of the job: at most 600 L T + 16 atomic steps, T being the steps of the job
    /// and L the least power of two that is at least the number of its processors.
    pub fn finish(&mut self) -> Ended {
        loop {
            if let Stay::Ended(ended) = self.work(u64::MAX) {
                return ended;
            }
        }
    }

    /// Has the worker lose all that it knew: it comes back from its position word on the board.
    pub fn back(&mut self) {
        // SAFETY: the worker is open, and it is borrowed mutably.
        let status = unsafe { sys::ks_back(&mut self.handle.0) };
        assert_eq!(status, sys::KS_DONE, "{KEPT}");
    }
}

/// How far the steps of a board are finished.
#[derive(Clone, Copy, Debug, PartialEq, Eq, Hash)]
pub struct Progress {
    /// All steps up to this one are finished.
    pub step: u32,
    /// The step that is against the rule, if it was found already.
    pub conflict: Option<u32>,
}

/// What a cell held after a finished step.
#[derive(Clone, Copy, Debug, PartialEq, Eq, Hash)]
pub struct Reading {
    /// The step.
    pub step: u32,
    /// What the cell held after it.
    pub value: u32,
}

/// A reader of a board, beside its workers. What one seat is told of steps never falls.
#[derive(Debug)]
pub struct Seat {
    handle: SeatHandle,
    check: Check,
}

#[derive(Debug)]
struct SeatHandle(sys::ks_seat);

// SAFETY: a seat belongs to no thread: one call at a time uses or closes it, on any thread.
unsafe impl Send for SeatHandle {}

// SAFETY: no call is made with a seat that is borrowed and not mutably so.
unsafe impl Sync for SeatHandle {}

impl Drop for SeatHandle {
    fn drop(&mut self) {
        // SAFETY: the seat is open, and nobody else has it.
        unsafe { sys::ks_close_seat(&mut self.0) };
    }
}

impl Seat {
    /// The numbers of the board's job.
    pub fn check(&self) -> Check {
        self.check
    }

    /// The last finished step, and the step of a conflict that is known. Two loads.
    pub fn progress(&mut self) -> Progress {
        let told = self.told();
        Progress {
            step: told.step,
            conflict: (told.conflict > 0).then_some(told.conflict),
        }
    }

    // What the library tells of progress.
    fn told(&mut self) -> sys::ks_progress {
        let mut told = sys::ks_progress::default();
        // SAFETY: the seat is open, and it and the place for what is told are borrowed mutably.
        let status = unsafe { sys::ks_progress(&mut self.handle.0, &mut told) };
        assert_eq!(status, sys::KS_DONE, "{KEPT}");
        told
    }

    /// What a cell held after a finished step, if the job has such a cell. At most five loads.
    pub fn read(&mut self, cell: u32) -> Option<Reading> {
        let mut told = sys::ks_reading::default();
        // SAFETY: the seat is open, and it and the place for what is told are borrowed mutably.
        let status = unsafe { sys::ks_read(&mut self.handle.0, cell, &mut told) };
        (status == sys::KS_DONE).then_some(Reading {
            step: told.step,
            value: told.value,
        })
    }

    /// The final memory, cell 0 first; none where the last step is not finished.
    ///
    /// # Errors
    ///
    /// [`Subject::Memory`](crate::Subject::Memory).
    pub fn memory(&mut self) -> Result<Option<Vec<u32>>> {
        let mut cells = zeros(self.check.cells as usize)?;
        // SAFETY: the seat is open, and it is borrowed mutably. The call writes within the cells,
        // which are borrowed for it.
        let status = unsafe { sys::ks_memory(&mut self.handle.0, cells.as_mut_ptr(), cells.len()) };
        let is_done = Status::or_refused(status)? == Status::Done;
        Ok(is_done.then_some(cells))
    }

    /// The conflict; none where none is known.
    ///
    /// # Errors
    ///
    /// [`Subject::Memory`](crate::Subject::Memory).
    pub fn fault(&mut self) -> Result<Option<Fault>> {
        let mut told = sys::ks_fault::default();
        // SAFETY: the seat is open, and it and the place for what is told are borrowed mutably.
        let status = unsafe { sys::ks_fault(&mut self.handle.0, &mut told) };
        let is_known = Status::or_refused(status)? == Status::Conflict;
        Ok(is_known.then(|| told.into()))
    }

    /// How the job ended; none where it is not over.
    ///
    /// # Errors
    ///
    /// [`Subject::Memory`](crate::Subject::Memory).
    pub fn outcome(&mut self) -> Result<Option<Outcome>> {
        match self.memory()? {
            Some(cells) => Ok(Some(Outcome::Done(cells))),
            None => Ok(self.fault()?.map(Outcome::Conflict)),
        }
    }
}

#[cfg(test)]
mod tests {
    use super::{Board, Seat, Worker};
    use crate::{Cost, Error, Job, Outcome, Plan, Replay, Steps};

    fn go_between_threads<T: Send + Sync + 'static>() {}

    #[test]
    fn all_go_between_threads() {
        go_between_threads::<(Board, Seat, Worker)>();
        go_between_threads::<(Job, Plan, Outcome, Error)>();
        go_between_threads::<(Cost, Steps, Replay)>();
    }
}

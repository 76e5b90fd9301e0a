//! The calls of libkaolinsilk, as its C header (`kaolinsilk.h`) has them.
//!
//! Nothing is added to them but [`ks_request::new`] and [`ks_answer::new`]. The crate `kaolinsilk`
//! has them as safe types.
//!
//! # What each call asks of its caller
//!
//! - Pointers are those of live values, and of buffers with as many elements as the length beside
//!   them says. None is null, also where its length is 0, and no two overlap.
//! - A handle is one that a call gave and that was not closed, but where a call gives it. It is
//!   used by one call at a time, from any thread, in an order that the threads agree on. Handles of
//!   one board are used by calls side by side, and closed in any order, each once.
//! - No call is made from a signal handler.
#![no_std]
#![allow(non_camel_case_types)]

use core::ffi::{c_char, c_void};
use core::ptr::null_mut;

/// The version of the interface that is declared here; that of the library is
/// [`ks_abi_version`].
pub const KS_ABI_VERSION: u32 = 1;

/// Status: done.
pub const KS_DONE: u32 = 0;
/// Status: the job ended in a conflict.
pub const KS_CONFLICT: u32 = 1;
/// Status: the text, the plan or a step is refused; the answer says why.
pub const KS_REFUSED: u32 = 2;
/// Status: the workers were stopped before the end.
pub const KS_UNFINISHED: u32 = 3;
/// Status: the request itself is wrong.
pub const KS_FAILED: u32 = 4;
/// Status: out of memory.
pub const KS_MEMORY: u32 = 5;
/// Status of `ks_judge`: the submission did not pass.
pub const KS_NOT_PASSED: u32 = 1;

/// Nothing was refused.
pub const KS_NOTHING: u32 = 0;
/// A text of the machine was refused.
pub const KS_TEXT: u32 = 1;
/// A program was refused.
pub const KS_PROGRAM: u32 = 2;
/// A plan was refused.
pub const KS_PLAN: u32 = 3;
/// The job has no such step.
pub const KS_STEP: u32 = 4;
/// A text or a plan is too long.
pub const KS_SIZE: u32 = 5;
/// The request was refused.
pub const KS_REQUEST: u32 = 6;
/// There was no memory.
pub const KS_OUT_OF_MEMORY: u32 = 7;
/// A setting was refused.
pub const KS_SETTING: u32 = 8;
/// An exercise was refused.
pub const KS_EXERCISE: u32 = 9;

/// How many workers there are at most.
pub const KS_WORKERS_MOST: u32 = 64;

/// What a call is asked beside its text. What a call does not use is not looked at.
#[repr(C)]
#[derive(Clone, Copy, Debug)]
pub struct ks_request {
    /// How many bytes this struct has.
    pub size: u32,
    /// 1: after the answer what became of the processors (`ks_plain`).
    pub why: u32,
    /// 1: the answer is not printed after the rows (`ks_steps`, `ks_replay`).
    pub rows_alone: u32,
    /// The first step that is shown, from 1 (`ks_steps`).
    pub from: u32,
    /// The last one (`ks_steps`).
    pub to: u32,
    /// 1 to 64 (`ks_replay`).
    pub workers: u32,
    /// 1: what each counted line costs, in place of what the run does (`ks_cost`).
    pub lines: u32,
    /// All 0.
    pub reserved: [u32; 15],
}

impl ks_request {
    /// One that asks for nothing, with its size set.
    pub const fn new() -> ks_request {
        ks_request {
            size: size_of::<ks_request>() as u32,
            why: 0,
            rows_alone: 0,
            from: 0,
            to: 0,
            workers: 0,
            lines: 0,
            reserved: [0; 15],
        }
    }
}

impl Default for ks_request {
    fn default() -> Self {
        ks_request::new()
    }
}

/// What a call tells beside its output.
#[repr(C)]
#[derive(Clone, Copy, Debug)]
pub struct ks_answer {
    /// How many bytes this struct has; set by the caller.
    pub size: u32,
    /// What was refused.
    pub subject: u32,
    /// How long the whole output is, in elements of the buffer. Of it stands in the buffer what it
    /// has room for, from the front.
    pub length: u64,
    /// The line of the text or of the exercise, the row of the plan, or the number of the setting,
    /// from 1; 0: none.
    pub line: u64,
    /// The column in the line, from 1; 0: not known.
    pub column: u32,
    /// 0.
    pub reserved: u32,
    /// The refusal's kind, ends with 0.
    pub kind: [c_char; 32],
    /// What is wrong, in a sentence, ends with 0.
    pub sentence: [c_char; 160],
}

impl ks_answer {
    /// One that tells nothing yet, with its size set.
    pub const fn new() -> ks_answer {
        ks_answer {
            size: size_of::<ks_answer>() as u32,
            subject: KS_NOTHING,
            length: 0,
            line: 0,
            column: 0,
            reserved: 0,
            kind: [0; 32],
            sentence: [0; 160],
        }
    }
}

impl Default for ks_answer {
    fn default() -> Self {
        ks_answer::new()
    }
}

/// A plan's row.
#[repr(C)]
#[derive(Clone, Copy, Debug, Default, PartialEq, Eq)]
pub struct ks_plan_row {
    /// The worker's number.
    pub worker: u32,
    /// What it does: 0 for `go`, 1 for `sleep`, 2 for `back` and 3 for `stop`.
    pub act: u32,
    /// How many times.
    pub ticks: u32,
}

/// What a caller gives of a shared array or scalar of a program.
#[repr(C)]
#[derive(Clone, Copy, Debug)]
pub struct ks_given {
    /// Its name.
    pub name: *const u8,
    /// How long the name is.
    pub name_length: usize,
    /// A value for each of its places, which it starts with.
    pub values: *const u32,
    /// How many values there are.
    pub values_length: usize,
}

/// Where a shared array or scalar of a program lies in the cells of its job.
#[repr(C)]
#[derive(Clone, Copy, Debug, Default, PartialEq, Eq)]
pub struct ks_place {
    /// The first of its cells.
    pub first: u32,
    /// How many cells it has.
    pub length: u32,
    /// How many columns each row has, if its places have two indices, else 0.
    pub columns: u32,
    /// 1 of an array, and 0 of a scalar.
    pub is_array: u32,
}

/// How far the steps of a board are finished.
#[repr(C)]
#[derive(Clone, Copy, Debug, Default, PartialEq, Eq)]
pub struct ks_progress {
    /// All steps up to this one are finished.
    pub step: u32,
    /// How many steps the job has.
    pub steps: u32,
    /// The step that is against the rule, or 0 where none is known.
    pub conflict: u32,
    /// How many cells the job has.
    pub cells: u32,
}

/// What a cell held after a finished step.
#[repr(C)]
#[derive(Clone, Copy, Debug, Default, PartialEq, Eq)]
pub struct ks_reading {
    /// The step.
    pub step: u32,
    /// What the cell held after it.
    pub value: u32,
}

/// After which step all processors had stopped.
#[repr(C)]
#[derive(Clone, Copy, Debug, Default, PartialEq, Eq)]
pub struct ks_stop {
    /// The step.
    pub step: u32,
}

/// A conflict.
#[repr(C)]
#[derive(Clone, Copy, Debug, Default, PartialEq, Eq)]
pub struct ks_fault {
    /// The step that is against the rule, from 1.
    pub step: u32,
    /// The least cell that is disputed in it.
    pub cell: u32,
    /// The least processor that writes the cell.
    pub first: u32,
    /// The one that it disagrees with.
    pub second: u32,
}

/// A board: a job, and the words that its workers share.
#[repr(C)]
#[derive(Debug)]
pub struct ks_board {
    /// What nobody but the library looks behind.
    pub at: *mut c_void,
}

impl ks_board {
    /// The handle of nothing.
    pub const fn none() -> ks_board {
        ks_board { at: null_mut() }
    }
}

/// A reader of a board.
#[repr(C)]
#[derive(Debug)]
pub struct ks_seat {
    /// What nobody but the library looks behind.
    pub at: *mut c_void,
}

impl ks_seat {
    /// The handle of nothing.
    pub const fn none() -> ks_seat {
        ks_seat { at: null_mut() }
    }
}

/// A worker of a board: its number, and where it stands.
#[repr(C)]
#[derive(Debug)]
pub struct ks_worker {
    /// What nobody but the library looks behind.
    pub at: *mut c_void,
}

impl ks_worker {
    /// The handle of nothing.
    pub const fn none() -> ks_worker {
        ks_worker { at: null_mut() }
    }
}

unsafe extern "C" {
    /// The library's version: 65536 * major + 256 * minor + patch.
    pub safe fn ks_version() -> u32;
    /// The version of the library's interface.
    pub safe fn ks_abi_version() -> u32;

    /// Judges a text, as `pramx check`.
    pub fn ks_check(
        text: *const u8,
        text_length: usize,
        request: *const ks_request,
        out: *mut u8,
        room: usize,
        answer: *mut ks_answer,
    ) -> u32;
    /// Prints the job as a text of the machine, as `pramx compile`.
    pub fn ks_compile(
        text: *const u8,
        text_length: usize,
        request: *const ks_request,
        out: *mut u8,
        room: usize,
        answer: *mut ks_answer,
    ) -> u32;
    /// Runs the job step by step, as `pramx plain`.
    pub fn ks_plain(
        text: *const u8,
        text_length: usize,
        request: *const ks_request,
        out: *mut u8,
        room: usize,
        answer: *mut ks_answer,
    ) -> u32;
    /// Says what a run costs, as `pramx cost`.
    pub fn ks_cost(
        text: *const u8,
        text_length: usize,
        request: *const ks_request,
        out: *mut u8,
        room: usize,
        answer: *mut ks_answer,
    ) -> u32;
    /// Shows the steps of a run, as `pramx steps`.
    pub fn ks_steps(
        text: *const u8,
        text_length: usize,
        request: *const ks_request,
        out: *mut u8,
        room: usize,
        answer: *mut ks_answer,
    ) -> u32;
    /// Runs the job by workers in the order of a plan, as `pramx replay`.
    pub fn ks_replay(
        text: *const u8,
        text_length: usize,
        plan: *const u8,
        plan_length: usize,
        request: *const ks_request,
        out: *mut u8,
        room: usize,
        answer: *mut ks_answer,
    ) -> u32;
    /// The final memory by `plain`, as numbers.
    pub fn ks_cells(
        text: *const u8,
        text_length: usize,
        cells: *mut u32,
        room: usize,
        answer: *mut ks_answer,
    ) -> u32;
    /// A plan's rows, as numbers.
    pub fn ks_plan(
        plan: *const u8,
        plan_length: usize,
        workers: u32,
        rows: *mut ks_plan_row,
        room: usize,
        answer: *mut ks_answer,
    ) -> u32;
    /// A text as another one sets names of it, by lines `NAME=V,V,..`.
    pub fn ks_set(
        text: *const u8,
        text_length: usize,
        settings: *const u8,
        settings_length: usize,
        out: *mut u8,
        room: usize,
        answer: *mut ks_answer,
    ) -> u32;
    /// What is said of a submission by an exercise: a record `yes,,` or `no,INPUT,WHAT`.
    pub fn ks_judge(
        exercise: *const u8,
        exercise_length: usize,
        submission: *const u8,
        submission_length: usize,
        out: *mut u8,
        room: usize,
        answer: *mut ks_answer,
    ) -> u32;
    /// Where a shared array or scalar of a program lies.
    pub fn ks_place_of(
        text: *const u8,
        text_length: usize,
        name: *const u8,
        name_length: usize,
        place: *mut ks_place,
    ) -> u32;

    /// Opens a board for a job and so many workers.
    pub fn ks_open(
        text: *const u8,
        text_length: usize,
        workers: u32,
        grain: u32,
        board: *mut ks_board,
    ) -> u32;
    /// The same, and a program's steps are not counted before.
    pub fn ks_open_uncounted(
        text: *const u8,
        text_length: usize,
        workers: u32,
        grain: u32,
        board: *mut ks_board,
    ) -> u32;
    /// The same, where shared arrays and scalars start with what is given.
    pub fn ks_open_with(
        text: *const u8,
        text_length: usize,
        workers: u32,
        grain: u32,
        given: *const ks_given,
        given_length: usize,
        board: *mut ks_board,
    ) -> u32;
    /// A new seat of a board.
    pub fn ks_seat_of(board: *mut ks_board, seat: *mut ks_seat) -> u32;
    /// A new worker of a board.
    pub fn ks_worker_of(board: *mut ks_board, number: u32, worker: *mut ks_worker) -> u32;
    /// Makes at most so many atomic steps.
    pub fn ks_work(worker: *mut ks_worker, limit: u64) -> u32;
    /// Makes at least so many atomic steps, at full speed, up to the end of a phase.
    pub fn ks_turns(worker: *mut ks_worker, least: u64) -> u32;
    /// Has the worker lose all that it knew, and come back from its position word.
    pub fn ks_back(worker: *mut ks_worker) -> u32;
    /// How far the steps are finished.
    pub fn ks_progress(seat: *mut ks_seat, progress: *mut ks_progress) -> u32;
    /// What a cell held after a finished step.
    pub fn ks_read(seat: *mut ks_seat, cell: u32, reading: *mut ks_reading) -> u32;
    /// The final memory, as much as there is room for.
    pub fn ks_memory(seat: *mut ks_seat, cells: *mut u32, room: usize) -> u32;
    /// After which step all processors had stopped, each at its end.
    pub fn ks_stop(seat: *mut ks_seat, stop: *mut ks_stop) -> u32;
    /// The first conflict.
    pub fn ks_fault(seat: *mut ks_seat, fault: *mut ks_fault) -> u32;
    /// Closes a member; the handle then has none.
    pub fn ks_close(board: *mut ks_board);
    /// Closes a member; the handle then has none.
    pub fn ks_close_seat(seat: *mut ks_seat);
    /// Closes a member; the handle then has none.
    pub fn ks_close_worker(worker: *mut ks_worker);
}

// The layouts of the header, on 64 bits.
const _: () = {
    assert!(size_of::<ks_request>() == 88 && align_of::<ks_request>() == 4);
    assert!(size_of::<ks_answer>() == 224 && align_of::<ks_answer>() == 8);
    assert!(size_of::<ks_plan_row>() == 12 && size_of::<ks_progress>() == 16);
    assert!(size_of::<ks_reading>() == 8 && size_of::<ks_fault>() == 16);
    assert!(size_of::<ks_stop>() == 4 && size_of::<ks_place>() == 16);
    assert!(size_of::<ks_given>() == 32 && align_of::<ks_given>() == 8);
    assert!(size_of::<ks_board>() == 8 && size_of::<ks_seat>() == 8);
};

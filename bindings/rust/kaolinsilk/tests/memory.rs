//! Memory that is refused, and handles that are closed. The three calls that the library makes of
//! its host are those of this file, as is the allocator of Rust: both count, and refuse in turn.
mod shared;

use kaolinsilk::{Board, Job, Plan, Result, Subject, judge, run};
use shared::example;
use std::alloc::{GlobalAlloc, Layout, System};
use std::cell::Cell;
use std::ffi::c_void;
use std::ptr;
use std::sync::atomic::{AtomicI64, Ordering};
use std::sync::{Mutex, MutexGuard, PoisonError};
use std::thread;
use std::time::Duration;

thread_local! {
    /// How many requests of this thread are granted before one is refused.
    static GRANTED: Cell<u64> = const { Cell::new(u64::MAX) };
    /// Whether all later ones are refused, too.
    static LASTS: Cell<bool> = const { Cell::new(false) };
    /// Whether those of Rust count.
    static COUNTS_RUST: Cell<bool> = const { Cell::new(false) };
}

/// How many blocks the library has.
static BLOCKS: AtomicI64 = AtomicI64::new(0);

/// The tests of this file count blocks, so they go one after the other.
static TURN: Mutex<()> = Mutex::new(());

/// Waits for its turn, and for the last threads of a run, which may go after its answer.
fn turn() -> MutexGuard<'static, ()> {
    let turn = TURN.lock().unwrap_or_else(PoisonError::into_inner);
    while BLOCKS.load(Ordering::Relaxed) != 0 {
        thread::sleep(Duration::from_millis(1));
    }
    turn
}

fn is_refused() -> bool {
    match GRANTED.get() {
        u64::MAX => false,
        0 => {
            if !LASTS.get() {
                GRANTED.set(u64::MAX - 1);
            }
            true
        }
        granted => {
            GRANTED.set(granted - 1);
            false
        }
    }
}

#[repr(C)]
struct Block {
    is_there: usize,
    at: *mut c_void,
}

unsafe extern "C" {
    fn malloc(bytes: usize) -> *mut c_void;
    fn realloc(at: *mut c_void, bytes: usize) -> *mut c_void;
    fn free(at: *mut c_void);
}

// SAFETY: the library calls a function of this name in this way, and no other one is linked.
#[unsafe(no_mangle)]
extern "C" fn rattle_alloc(bytes: usize, _alignment: usize) -> Block {
    let at = if is_refused() {
        ptr::null_mut()
    } else {
        // SAFETY: any size may be asked for.
        unsafe { malloc(bytes) }
    };
    BLOCKS.fetch_add((!at.is_null()).into(), Ordering::Relaxed);
    Block {
        is_there: (!at.is_null()).into(),
        at,
    }
}

// SAFETY: the library calls a function of this name in this way, and no other one is linked.
#[unsafe(no_mangle)]
unsafe extern "C" fn rattle_realloc(
    at: *mut c_void,
    _kept: usize,
    bytes: usize,
    _alignment: usize,
) -> Block {
    let at = if is_refused() {
        ptr::null_mut()
    } else {
        // SAFETY: the library has the block of `rattle_alloc`.
        unsafe { realloc(at, bytes) }
    };
    Block {
        is_there: (!at.is_null()).into(),
        at,
    }
}

// SAFETY: the library calls a function of this name in this way, and no other one is linked.
#[unsafe(no_mangle)]
unsafe extern "C" fn rattle_dealloc(at: *mut c_void) {
    BLOCKS.fetch_sub(1, Ordering::Relaxed);
    // SAFETY: the library has the block of `rattle_alloc`, and gives it back once.
    unsafe { free(at) };
}

struct Refusing;

#[global_allocator]
static ALLOCATOR: Refusing = Refusing;

// SAFETY: what is not refused is the system's.
unsafe impl GlobalAlloc for Refusing {
    unsafe fn alloc(&self, layout: Layout) -> *mut u8 {
        if COUNTS_RUST.get() && is_refused() {
            return ptr::null_mut();
        }
        // SAFETY: the caller's promise.
        unsafe { System.alloc(layout) }
    }

    unsafe fn realloc(&self, at: *mut u8, layout: Layout, bytes: usize) -> *mut u8 {
        if COUNTS_RUST.get() && is_refused() {
            return ptr::null_mut();
        }
        // SAFETY: the caller's promise.
        unsafe { System.realloc(at, layout, bytes) }
    }

    unsafe fn dealloc(&self, at: *mut u8, layout: Layout) {
        // SAFETY: the caller's promise.
        unsafe { System.dealloc(at, layout) }
    }
}

/// Makes the call with the Nth request for memory refused, for each N in turn, until none is. How
/// many were.
fn refuse_each<T: PartialEq + std::fmt::Debug>(
    counts_rust: bool,
    lasts: bool,
    call: impl Fn() -> Result<T>,
) -> u64 {
    let (wanted, blocks) = (call().unwrap(), BLOCKS.load(Ordering::Relaxed));
    for granted in 0.. {
        COUNTS_RUST.set(counts_rust);
        LASTS.set(lasts);
        GRANTED.set(granted);
        let result = call();
        let left = GRANTED.replace(u64::MAX);
        COUNTS_RUST.set(false);
        let was_refused = if lasts { left == 0 } else { left > granted };
        match result {
            Ok(value) => assert_eq!(value, wanted),
            Err(error) => assert_eq!((was_refused, error.subject()), (true, Subject::Memory)),
        }
        assert_eq!(BLOCKS.load(Ordering::Relaxed), blocks, "{granted} granted");
        if !was_refused {
            return granted;
        }
    }
    unreachable!()
}

/// The same of the library's requests and Rust's, and of those alone where Rust's must not fail.
fn refuse<T: PartialEq + std::fmt::Debug>(with_rust: bool, call: impl Fn() -> Result<T>) {
    for lasts in [false, true] {
        assert!(refuse_each(false, lasts, &call) > 0);
        if with_rust {
            refuse_each(true, lasts, &call);
        }
    }
}

const JOBS: [&str; 3] = ["conflict.pardo", "squares.pram", "leader_crew.pram"];

#[test]
fn of_a_command() {
    let _turn = turn();
    let plan = Plan::new().go(0, 9).back(0).stop(1);
    let plan_text = plan.to_string();
    for text in JOBS.map(example) {
        let job = Job::parse(&text).unwrap();
        refuse(true, || Ok(Job::parse(&text)?.check()));
        refuse_each(true, false, || job.compile());
        refuse(true, || job.plain());
        refuse(true, || job.plain_text());
        refuse(true, || job.plain_text_with_why());
        refuse(true, || job.cost());
        refuse(true, || job.steps(2..=3));
        refuse(true, || job.replay(&plan, 2));
    }
    refuse(true, || Plan::parse(&plan_text, 2));
    refuse(true, || plan.check(2));
}

#[test]
fn of_a_refusal() {
    let _turn = turn();
    let text = "pram 3\ncells 2\nprocs x\n";
    let plan = Plan::new().stop(0).stop(0);
    refuse(true, || match Job::parse(text) {
        Err(error) if error.subject() == Subject::Text => Ok(error.line()),
        Err(error) => Err(error),
        Ok(job) => panic!("{job:?}"),
    });
    refuse(true, || match plan.check(1) {
        Err(error) if error.subject() == Subject::Plan => Ok(error.line()),
        Err(error) => Err(error),
        Ok(()) => panic!("a plan"),
    });
}

#[test]
fn of_a_verdict() {
    let _turn = turn();
    let exercise = "exercise 1\ntitle t\nwant s\ngiven\n pardo 1\n rule crew\n procs i < 1\n \
        shared s\nstart\n code\ninput -> s=1\n";
    let header = "pardo 1\nrule crew\nprocs i < 1\nshared s\ncode\n";
    for line in ["s := 1\n", "s := 2\n", "s = 1\n"] {
        let submission = format!("{header}{line}");
        refuse(false, || judge(exercise, &submission));
    }
    refuse(true, || match judge("exercise 2\n", "") {
        Err(error) if error.subject() == Subject::Exercise => Ok(error.line()),
        Err(error) => Err(error),
        Ok(verdict) => panic!("{verdict:?}"),
    });
}

#[test]
fn of_a_board() {
    let _turn = turn();
    for job in JOBS.map(|name| Job::parse(example(name)).unwrap()) {
        let board = Board::open(&job, 3).unwrap();
        board.worker(1).unwrap().finish();
        refuse(false, || Ok(Board::open(&job, 3)?.workers()));
        refuse(false, || Ok(board.worker(2)?.number()));
        refuse(false, || Ok(board.seat()?.progress()));
        // Not all of these need memory.
        for lasts in [false, true] {
            refuse_each(false, lasts, || board.seat()?.memory());
            refuse_each(false, lasts, || board.seat()?.fault());
        }
    }
}

#[test]
fn handles_are_closed() {
    let _turn = turn();
    let blocks = BLOCKS.load(Ordering::Relaxed);
    let job = Job::parse(example("prefix.pardo")).unwrap();
    let board = Board::open(&job, 3).unwrap();
    let (mut worker, mut seat) = (board.worker(0).unwrap(), board.seat().unwrap());
    // The worker and the seat keep the words alive.
    drop(board);
    worker.work(100);
    thread::spawn(move || worker.finish()).join().unwrap();
    assert_eq!(seat.outcome().unwrap(), Some(job.plain().unwrap()));
    assert!(BLOCKS.load(Ordering::Relaxed) > blocks);
    drop(seat);
    assert_eq!(BLOCKS.load(Ordering::Relaxed), blocks);
    run(&job, 3, &Plan::new().stop(0).stop(1)).unwrap();
}

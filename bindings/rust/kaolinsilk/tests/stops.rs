//! Runs and workers that are told to stop.
use kaolinsilk::{Board, Ended, Job, Outcome, Plan, RunAnswer, Stay, run_until, run_within};
use std::sync::atomic::{AtomicBool, Ordering};
use std::thread;
use std::time::{Duration, Instant};

/// Sixty-four processors that add for some seconds.
const LONG: &str = "pram 1\ncells 64\nprocs 64\nsteps 4000000\ncode\n\
                    pid r0\nset r1 1\nagain: ld r2 r0\nadd r2 r2 r1\nst r0 r2\njmp again\n";

fn soon(began: Instant, most: Duration) {
    assert!(began.elapsed() < most + Duration::from_millis(100));
}

#[test]
fn a_run_ends_in_time() {
    let job = Job::parse(LONG).unwrap();
    let (most, began) = (Duration::from_millis(50), Instant::now());
    let answer = run_within(&job, 4, &Plan::new(), most).unwrap();
    soon(began, most);
    assert!(matches!(answer, RunAnswer::Unfinished { step } if step < 4_000_000));
}

#[test]
fn a_plan_that_goes_far_is_stopped() {
    let job = Job::parse(LONG).unwrap();
    let plan = Plan::new().go(0, u32::MAX).go(1, u32::MAX);
    let began = Instant::now();
    let mut asked = 0;
    let answer = run_until(&job, 2, &plan, || {
        asked += 1;
        asked > 3
    });
    soon(began, Duration::from_millis(20));
    assert!(matches!(answer, Ok(RunAnswer::Unfinished { .. })));
}

#[test]
fn an_end_that_is_known_is_told() {
    let job = Job::parse("pram 1\ncells 1\nprocs 1\nsteps 1\ncode\nset r0 7\n").unwrap();
    let answer = run_within(&job, 2, &Plan::new(), Duration::from_secs(60)).unwrap();
    assert_eq!(answer, RunAnswer::Ended(Outcome::Done(vec![0])));
}

#[test]
fn a_worker_stops_and_goes_on() {
    let job = Job::parse(LONG.replace("4000000", "20000")).unwrap();
    let board = Board::open(&job, 1).unwrap();
    let mut worker = board.worker(0).unwrap();
    let stop = AtomicBool::new(true);
    assert_eq!(worker.work_until(&stop), Stay::Stopped);
    assert_eq!(worker.turns(0), Stay::Stopped);
    stop.store(false, Ordering::Relaxed);
    thread::scope(|scope| {
        scope.spawn(|| {
            thread::sleep(Duration::from_millis(2));
            stop.store(true, Ordering::Relaxed);
        });
        worker.work_until(&stop);
    });
    stop.store(false, Ordering::Relaxed);
    assert_eq!(worker.work_until(&stop), Stay::Ended(Ended::Done));
    let outcome = board.seat().unwrap().outcome().unwrap().unwrap();
    assert_eq!(outcome, job.plain().unwrap());
}

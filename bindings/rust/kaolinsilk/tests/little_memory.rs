//! Memory that the system refuses, and threads. A process of its own runs in so little of it.
mod shared;

use kaolinsilk::{Board, Error, Job, Outcome, Plan, RunAnswer, Subject, run};
use shared::example;
use std::env;
use std::process::Command;

/// The memory of the processes, in KB.
const LIMITS: [u32; 4] = [40_000, 60_000, 120_000, 240_000];

/// A job whose board has more than a megabyte.
const LARGE: &str = "pram 3\ncells 65536\nprocs 1024\nsteps 1\nrule crew\ncode\npid r0\n";

#[test]
fn it_is_an_error() {
    let program = env::current_exe().unwrap();
    for limit in LIMITS {
        let line = format!("ulimit -v {limit}; exec \"$0\" --ignored --exact in_little_memory");
        let mut command = Command::new("sh");
        let ran = command.args(["-c", &line]).arg(&program).output().unwrap();
        let [told, said] = [&ran.stdout, &ran.stderr].map(|it| String::from_utf8_lossy(it));
        assert!(ran.status.success(), "{limit} KB: {told}{said}");
        assert!(told.contains("1 passed"), "{limit} KB: {told}{said}");
    }
}

#[test]
#[ignore = "it takes all memory of its process: the other test starts it"]
fn in_little_memory() {
    take_all_memory();
    let job = Job::parse(example("prefix.pardo")).unwrap();
    let plain = job.plain().unwrap();
    for workers in [1, 2, 4, 8, 16, 32, 64] {
        tell_or_be_refused(run(&job, workers, &Plan::new()), &plain);
        if workers > 2 {
            let plan = Plan::new().go(0, 20).stop(0).stop(workers - 1);
            tell_or_be_refused(run(&job, workers, &plan), &plain);
        }
    }
}

/// Opens boards until memory is refused, and then makes calls that need some.
fn take_all_memory() {
    let (large, small) = (
        Job::parse(LARGE).unwrap(),
        Job::parse(example("sort.pardo")).unwrap(),
    );
    let (plain, mut boards) = (small.plain().unwrap(), Vec::with_capacity(1000));
    let error = loop {
        match Board::open(&large, 64) {
            Ok(board) => boards.push(board),
            Err(error) => break error,
        }
    };
    assert_eq!(error.subject(), Subject::Memory);
    assert!(boards.len() < 1000);
    for _ in 0..20 {
        match small.plain() {
            Ok(outcome) => assert_eq!(outcome, plain),
            Err(error) => assert_eq!(error.subject(), Subject::Memory),
        }
        if let Err(error) = large.plain_text() {
            assert_eq!(error.subject(), Subject::Memory);
        }
    }
}

fn tell_or_be_refused(answer: Result<RunAnswer, Error>, plain: &Outcome) {
    match answer {
        Ok(answer) => assert_eq!(answer.outcome(), Some(plain)),
        Err(error) => assert_eq!(error.subject(), Subject::Memory),
    }
}

//! What is refused, and how that is told.
mod shared;

use kaolinsilk::{Act, Board, Error, Job, Plan, Settings, Subject, run};
use shared::example;
use std::error::Error as _;

const JOB: &str = "pram 3\ncells 2\nprocs 2\nsteps 2\nrule crew\ncode\npid r0\nst r0 7\n";

fn job() -> Job {
    JOB.parse().unwrap()
}

fn told(error: &Error) -> (Subject, Option<u64>, &str) {
    (error.subject(), error.line(), error.kind())
}

#[test]
fn a_text() {
    let error = Job::parse("pram 3\ncells 2\nprocs 2\nsteps x\n").unwrap_err();
    assert_eq!(told(&error), (Subject::Text, Some(4), "BadNumber"));
    assert_eq!(
        error.to_string(),
        "line 4, column 7: a number must stand here, in digits alone"
    );
    assert!(error.source().is_none());
    let error = Job::parse(b"\xff").unwrap_err();
    assert_eq!(told(&error), (Subject::Text, Some(1), "NotAscii"));
    let error = Job::parse("").unwrap_err();
    assert_eq!(told(&error), (Subject::Text, Some(1), "BadHeader"));
}

#[test]
fn a_program() {
    let text = String::from_utf8(example("conflict.pardo")).unwrap();
    let error = Job::parse(text.replace(":=", "=")).unwrap_err();
    assert_eq!(told(&error), (Subject::Program, Some(12), "BadLine"));
    assert_eq!(error.column(), Some(5));
    let text = "pardo 1\nrule crew\nprocs i < 2\nprivate x\ncode\nwhile 1\nx := 1\nend\n";
    let error = Job::parse(text).unwrap_err();
    assert_eq!(
        (error.subject(), error.kind()),
        (Subject::Program, "Endless")
    );
}

#[test]
fn a_plan() {
    for (rows, row, kind) in [
        ("", 2, "BadRow"),
        ("2,go,1\n", 2, "BadWorker"),
        ("0,go,1\n1,run,1\n", 3, "BadAct"),
        ("0,go,4294967296\n", 2, "BadNumber"),
        ("0,back,1\n", 2, "BadNumber"),
        ("1,stop,0\n0,go,1\n1,back,0\n", 4, "AfterStop"),
    ] {
        let text = if rows.is_empty() {
            "worker,act,ticks\nx\n".into()
        } else {
            format!("worker,act,ticks\n{rows}")
        };
        let error = Plan::parse(text, 2).unwrap_err();
        assert_eq!(told(&error), (Subject::Plan, Some(row), kind));
        assert!(error.to_string().starts_with(&format!("row {row}: ")));
    }
    let plan = Plan::new().stop(1).with(1, Act::Back);
    for error in [
        plan.check(2).unwrap_err(),
        job().replay(&plan, 2).unwrap_err(),
        run(&job(), 2, &plan).unwrap_err(),
    ] {
        assert_eq!(told(&error), (Subject::Plan, Some(3), "AfterStop"));
    }
}

#[test]
fn plans_that_are_none() {
    assert_eq!(Plan::parse("", 1).unwrap(), Plan::new());
    assert_eq!(Plan::parse("worker,act,ticks\n", 1).unwrap(), Plan::new());
    assert_eq!(Plan::new().to_string(), "");
    assert!(Plan::new().check(64).is_ok());
}

#[test]
fn a_setting() {
    let text = "pardo 1\nrule crew\nconst n = 2\nprocs i < n\nshared A[n]\ncode\nA[i] := i\n";
    let fitting = || Settings::new().set("n", [3]);
    for (settings, number, kind) in [
        (fitting().set("A", [1, 2]), 2, "WrongLength"),
        (fitting().set("B", [1]), 2, "UnknownName"),
        (fitting().set("i", [1]), 2, "WrongKind"),
        (fitting().set("n", [1]), 2, "DuplicateName"),
        (fitting().set("A", []), 2, "BadSetting"),
        (Settings::new().set("n\nA", [1]), 1, "BadSetting"),
        (Settings::new().set("n", [1, 2]), 1, "WrongLength"),
    ] {
        let error = Job::parse_with(text, &settings).unwrap_err();
        assert_eq!(told(&error), (Subject::Setting, Some(number), kind));
        assert!(
            error
                .to_string()
                .starts_with(&format!("setting {number}: "))
        );
    }
    let error = Job::parse_with(JOB, &fitting()).unwrap_err();
    assert_eq!(told(&error), (Subject::Setting, Some(1), "UnknownName"));
    assert_eq!(Job::parse_with(JOB, &Settings::new()).unwrap().text(), JOB);
    let error = Job::parse_with("pardo 1\nconst n = 1\nx\n", &fitting()).unwrap_err();
    assert_eq!(error.subject(), Subject::Program);
}

#[test]
fn a_step() {
    let error = job().steps(3..).unwrap_err();
    assert_eq!(error.subject(), Subject::Step);
    assert_eq!(job().steps(1..).unwrap(), job().steps(..).unwrap());
    assert_eq!(job().steps(2..=2).unwrap().rows().count(), 2);
    assert_eq!(job().steps(2..=u32::MAX).unwrap().rows().count(), 2);
    let (two, three) = (2, 3);
    for error in [
        job().steps(0..1).unwrap_err(),
        job().steps(2..2).unwrap_err(),
        job().steps(three..two).unwrap_err(),
        job().steps(..0).unwrap_err(),
    ] {
        assert_eq!((error.subject(), error.line()), (Subject::Request, None));
    }
}

#[test]
fn a_size() {
    let most = "\n".repeat(67_108_864);
    let error = Job::parse(&most).unwrap_err();
    assert_eq!(
        (error.subject(), error.kind()),
        (Subject::Text, "BadHeader")
    );
    let error = Job::parse(most.clone() + "\n").unwrap_err();
    assert_eq!(error.subject(), Subject::Size);
    let error = Plan::parse(most + "\n", 1).unwrap_err();
    assert_eq!(error.subject(), Subject::Size);
}

#[test]
fn a_request() {
    let job = job();
    let board = Board::open(&job, 3).unwrap();
    for error in [
        Board::open(&job, 0).unwrap_err(),
        Board::open(&job, 65).unwrap_err(),
        Board::open_with_blocks(&job, 1, 0).unwrap_err(),
        Board::open_with_blocks(&job, 1, 3).unwrap_err(),
        Board::open_with_blocks(&job, 1, 128).unwrap_err(),
        board.worker(3).unwrap_err(),
        board.worker(u32::MAX).unwrap_err(),
        job.replay(&Plan::new(), 0).unwrap_err(),
        job.replay(&Plan::new(), 65).unwrap_err(),
        run(&job, 0, &Plan::new()).unwrap_err(),
        run(&job, 65, &Plan::new()).unwrap_err(),
        Plan::parse("", 0).unwrap_err(),
        Plan::parse("", 65).unwrap_err(),
    ] {
        assert_eq!(error.subject(), Subject::Request, "{error}");
        assert!(!error.to_string().is_empty());
    }
    assert_eq!(board.seat().unwrap().read(2), None);
    assert_eq!(board.seat().unwrap().read(u32::MAX), None);
}

#[test]
fn what_comes_before_the_end() {
    let board = Board::open(&job(), 1).unwrap();
    let mut seat = board.seat().unwrap();
    assert_eq!(seat.memory().unwrap(), None);
    assert_eq!(seat.fault().unwrap(), None);
    assert_eq!(seat.outcome().unwrap(), None);
    assert_eq!(seat.progress().step, 0);
}

//! The gallery of the repository, beside what the program prints of it.
mod shared;

use kaolinsilk::{Board, Ended, Job, Outcome, Plan, RunAnswer, run};
use shared::{beside, example, gallery};
use std::time::Instant;

#[test]
fn answers_are_the_programs() {
    for name in gallery() {
        let job = Job::parse(example(&name)).unwrap();
        assert_eq!(job.plain_text().unwrap(), beside(&name, "out"), "{name}");
        let is_conflict = beside(&name, "out").starts_with("conflict");
        assert_eq!(
            job.plain().unwrap().fault().is_some(),
            is_conflict,
            "{name}"
        );
    }
}

#[test]
fn costs_are_the_programs() {
    for name in gallery() {
        let job = Job::parse(example(&name)).unwrap();
        let cost = job.cost().unwrap();
        assert_eq!(cost.to_string(), beside(&name, "cost"), "{name}");
        assert_eq!(
            cost.product,
            u64::from(cost.steps) * u64::from(cost.processors),
            "{name}"
        );
        let told = [cost.same_read(), cost.same_write(), cost.other_value()];
        let lines = cost.text().lines().filter(|line| line.contains(" step="));
        let is_conflict = cost.ended == Ended::Conflict;
        assert_eq!(
            told.iter().flatten().count() + usize::from(is_machine_fault(&cost.to_string())),
            lines.count(),
            "{name}"
        );
        assert_eq!(
            job.plain().unwrap().fault().is_some(),
            is_conflict,
            "{name}"
        );
    }
}

fn is_machine_fault(text: &str) -> bool {
    text.contains("\nconflict step=")
}

#[test]
fn cells_are_those_of_the_answer() {
    for name in gallery().iter().filter(|name| name.ends_with(".pram")) {
        let job = Job::parse(example(name)).unwrap();
        let told = match job.plain().unwrap() {
            Outcome::Conflict(fault) => format!("{fault}\n"),
            Outcome::Done(cells) => {
                let lines = cells
                    .iter()
                    .enumerate()
                    .map(|(cell, value)| format!("{cell}: {value}\n"));
                format!("done steps={}\n", job.check().steps) + &lines.collect::<String>()
            }
        };
        assert_eq!(told, job.plain_text().unwrap(), "{name}");
    }
}

#[test]
fn programs_are_their_jobs() {
    for name in gallery() {
        let job = Job::parse(example(&name)).unwrap();
        let text = job.compile().unwrap();
        let compiled = Job::parse(&text).unwrap();
        assert_eq!(compiled.check(), job.check(), "{name}");
        let text = compiled.compile().unwrap();
        assert_eq!(
            Job::parse(&text).unwrap().compile().unwrap(),
            text,
            "{name}"
        );
        assert_eq!(compiled.plain().unwrap(), job.plain().unwrap(), "{name}");
    }
}

#[test]
fn windows_are_parts_of_all_steps() {
    for name in gallery() {
        let job = Job::parse(example(&name)).unwrap();
        let all = job.steps(..).unwrap();
        assert_eq!(all.answer(), job.plain_text().unwrap(), "{name}");
        assert_eq!(
            all.records().lines().count(),
            all.rows().count() + 1,
            "{name}"
        );
        let window = job.steps(2..5).unwrap();
        let wanted = all.rows().filter(|row| (2..5).contains(&row.step));
        assert!(window.rows().eq(wanted), "{name}");
        assert_eq!(window.answer(), all.answer(), "{name}");
        assert_eq!(window.ended(), all.ended(), "{name}");
    }
}

#[test]
fn replays_and_runs_have_the_same_answer() {
    let plan = Plan::new()
        .go(0, 9)
        .stop(0)
        .sleep(1, 3)
        .go(1, 50)
        .back(1)
        .go(2, 7)
        .stop(2);
    for name in gallery() {
        let job = Job::parse(example(&name)).unwrap();
        let replay = job.replay(&plan, 3).unwrap();
        assert_eq!(replay.answer(), job.plain_text().unwrap(), "{name}");
        assert_eq!(
            replay.records().lines().count(),
            replay.rows().count() + 1,
            "{name}"
        );
        assert!(
            replay.rows().zip(1..).all(|(row, tick)| row.tick == tick),
            "{name}"
        );
        let outcome = job.plain().unwrap();
        for workers in [1, 2, 3, 7, 64] {
            let plan = if workers < 3 {
                Plan::new()
            } else {
                plan.clone()
            };
            let answer = run(&job, workers, &plan).unwrap();
            assert_eq!(answer.outcome(), Some(&outcome), "{name} by {workers}");
        }
    }
}

#[test]
fn where_all_stop_it_is_unfinished() {
    let job = Job::parse(example("sort.pram")).unwrap();
    let plan = Plan::new().go(0, 900).stop(0).stop(1);
    let replay = job.replay(&plan, 2).unwrap();
    let Some(step) = replay.unfinished() else {
        panic!("{}", replay.answer())
    };
    assert_eq!(replay.ended(), None);
    assert!(step > 0 && step < job.check().steps);
    let answer = run(&job, 2, &plan).unwrap();
    let RunAnswer::Unfinished { step } = answer else {
        panic!("{answer:?}")
    };
    assert!(step > 0 && step < job.check().steps);
}

#[test]
fn a_board_runs_nothing() {
    let text = "pardo 1\nrule crew\nprocs i < 64\nshared A[64]\ncode\n\
                for h = 1 to 5000\n  A[i] := A[i] + h\nend\n";
    let began = Instant::now();
    let job = Job::parse(text).unwrap();
    let parsed = began.elapsed();
    let least = (0..5).map(|_| {
        let began = Instant::now();
        Board::open(&job, 2).unwrap();
        began.elapsed()
    });
    assert!(least.min().unwrap() * 4 < parsed);
}

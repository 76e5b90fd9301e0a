//! Threads that are lost, come back and read, beside the plain answer. `KAOLINSILK_STORMS` says how
//! many storms there are.
mod shared;

use kaolinsilk::{Act, Board, Job, Outcome, Plan, Seat, Stay, Worker, run};
use shared::{Random, example, gallery, random_job};
use std::env;
use std::sync::atomic::{AtomicBool, AtomicU64, Ordering};
use std::thread;

/// A job, its answer, and what its cells hold after each step that it reaches.
struct Known {
    name: String,
    job: Job,
    answer: Outcome,
    states: Vec<Vec<u32>>,
}

impl Known {
    fn new(name: String, text: &[u8]) -> Known {
        let job = Job::parse(text).unwrap();
        let (answer, compiled) = (job.plain().unwrap(), job.compile().unwrap());
        let reached = match &answer {
            Outcome::Done(_) => job.check().steps,
            Outcome::Conflict(fault) => fault.step - 1,
        };
        let whole = format!("\nsteps {}\n", job.check().steps);
        let state = |step| {
            let part = compiled.replacen(&whole, &format!("\nsteps {step}\n"), 1);
            match Job::parse(part).unwrap().plain().unwrap() {
                Outcome::Done(cells) => cells,
                Outcome::Conflict(fault) => panic!("{name}, step {step}: {fault}"),
            }
        };
        let states = (0..=reached).map(state).collect();
        Known {
            job,
            answer,
            states,
            name,
        }
    }
}

/// One of the threads' lives: pieces of work, losses, returns.
fn live(mut worker: Worker, mut random: Random, survives: bool) -> bool {
    let lives = if survives { u32::MAX } else { random.below(6) };
    for _ in 0..lives {
        let most = *random.of(&[3, 60, 400, 4000]);
        let limit = 1 + random.below(most);
        if let Stay::Ended(_) = worker.work(limit.into()) {
            return true;
        }
        if random.once_in(if survives { 40 } else { 4 }) {
            worker.back();
        }
        if random.once_in(8) {
            thread::yield_now();
        }
    }
    false
}

/// Reads until the workers are over. How many reads there were.
fn watch(mut seat: Seat, known: &Known, mut random: Random, over: &AtomicBool) -> u64 {
    let (mut reads, mut last) = (0, 0);
    while !over.load(Ordering::Relaxed) || reads < 10 {
        let cell = random.below(known.job.check().cells);
        let reading = seat.read(cell).unwrap();
        assert!(reading.step >= last, "{}: the step fell", known.name);
        let held = known.states[reading.step as usize][cell as usize];
        assert_eq!(
            reading.value, held,
            "{}, cell {cell} after {}",
            known.name, reading.step
        );
        let progress = seat.progress();
        assert!(
            progress.step >= reading.step,
            "{}: the step fell",
            known.name
        );
        last = progress.step;
        reads += 1;
    }
    reads
}

/// One board, and threads on it of which all but one are lost.
fn storm(known: &Known, mut random: Random, reads: &AtomicU64) {
    let workers = 1 + random.below(8);
    let board = match *random.of(&[0, 0, 1, 2, 4, 8, 64]) {
        0 => Board::open(&known.job, workers).unwrap(),
        grain => Board::open_with_blocks(&known.job, workers, grain).unwrap(),
    };
    let survivor = random.below(workers);
    let over = &AtomicBool::new(false);
    thread::scope(|scope| {
        let seat = board.seat().unwrap();
        let seed = Random::new(u64::from(random.below(u32::MAX)));
        let reader = scope.spawn(move || watch(seat, known, seed, over));
        let mut threads = Vec::new();
        for number in 0..workers {
            let worker = board.worker(number).unwrap();
            let seed = Random::new(u64::from(random.below(u32::MAX)));
            let life = move || live(worker, seed, number == survivor);
            threads.push(scope.spawn(life));
            if random.once_in(4) {
                // A twin, which is lost.
                let (twin, seed) = (board.worker(number).unwrap(), Random::new(number.into()));
                scope.spawn(move || live(twin, seed, false));
            }
        }
        let ended: Vec<bool> = threads.into_iter().map(|it| it.join().unwrap()).collect();
        assert!(ended[survivor as usize]);
        over.store(true, Ordering::Relaxed);
        reads.fetch_add(reader.join().unwrap(), Ordering::Relaxed);
    });
    let outcome = board.seat().unwrap().outcome().unwrap();
    assert_eq!(
        outcome.as_ref(),
        Some(&known.answer),
        "{} by {workers}",
        known.name
    );
}

/// How many storms there are, and what chooses them.
fn wanted() -> (u32, Random) {
    let number = |name, other| env::var(name).map_or(other, |it| it.parse().unwrap());
    (
        number("KAOLINSILK_STORMS", 200) as u32,
        Random::new(number("KAOLINSILK_SEED", 1)),
    )
}

#[test]
fn all_but_one_are_lost() {
    let (storms, mut random) = wanted();
    let of_gallery = gallery().into_iter().map(|name| {
        let text = example(&name);
        Known::new(name, &text)
    });
    let known: Vec<Known> = of_gallery.collect();
    let reads = AtomicU64::new(0);
    for number in 0..storms {
        let one = Random::new(u64::from(random.below(u32::MAX)));
        if number % 2 == 0 {
            storm(random.of(&known), one, &reads);
        } else {
            let text = random_job(&mut random);
            storm(&Known::new(text.clone(), text.as_bytes()), one, &reads);
        }
    }
    println!("{storms} storms, {} reads", reads.into_inner());
}

/// A plan for so many workers. All of them may stop.
fn random_plan(random: &mut Random, workers: u32) -> Plan {
    let mut going: Vec<u32> = (0..workers).collect();
    let mut plan = Plan::new();
    for _ in 0..random.below(12) {
        let Some(at) = going
            .len()
            .checked_sub(1)
            .map(|it| random.below(it as u32 + 1))
        else {
            break;
        };
        let worker = going[at as usize];
        let most = *random.of(&[3, 60, 400]);
        plan = match random.below(5) {
            0 => plan.back(worker),
            1 => plan.sleep(worker, random.below(9)),
            2 => {
                going.swap_remove(at as usize);
                plan.stop(worker)
            }
            _ => plan.go(worker, random.below(most)),
        };
    }
    plan
}

#[test]
fn runs_and_replays_obey_plans() {
    let (storms, mut random) = wanted();
    for _ in 0..storms {
        let text = random_job(&mut random);
        let (job, workers) = (Job::parse(&text).unwrap(), 1 + random.below(5));
        let plan = random_plan(&mut random, workers);
        let stopped = plan
            .rows()
            .iter()
            .filter(|row| row.act == Act::Stop)
            .count();
        let all_stop = stopped == workers as usize;
        let answer = run(&job, workers, &plan).unwrap();
        match answer.outcome() {
            Some(outcome) => assert_eq!(*outcome, job.plain().unwrap(), "{text}{plan}"),
            None => assert!(all_stop, "{text}{plan}"),
        }
        let replay = job.replay(&plan, workers).unwrap();
        match replay.ended() {
            Some(_) => assert_eq!(replay.answer(), job.plain_text().unwrap(), "{text}{plan}"),
            None => assert!(all_stop && replay.unfinished().is_some(), "{text}{plan}"),
        }
        assert_eq!(Plan::parse(plan.to_string(), workers).unwrap(), plan);
    }
}

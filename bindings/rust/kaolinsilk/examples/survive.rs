//! Runs a program on four threads, three of which are lost in the midst of their work.
use kaolinsilk::{Board, Job, Result, Worker};
use std::thread;

/// Prefix sums, after Hillis and Steele.
const PREFIX: &str = "
    pardo 1
    rule common
    const n = 8
    procs i < n
    shared A[n] = 3, 1, 4, 1, 5, 9, 2, 6
    code
    for h = 0 to lg(n) - 1
       if i >= 1 << h
          A[i] := A[i] + A[i - 1 << h]
       end
    end
";

/// After how many atomic steps each worker is lost, if it is.
const LIVES: [Option<u64>; 4] = [Some(0), Some(40), Some(7), None];

fn main() -> Result<()> {
    let job = Job::parse(PREFIX)?;
    let board = Board::open(&job, 4)?;
    let workers: Vec<Worker> = (0..4)
        .map(|number| board.worker(number))
        .collect::<Result<_>>()?;
    thread::scope(|scope| {
        for (worker, steps) in workers.into_iter().zip(LIVES) {
            scope.spawn(move || live(worker, steps));
        }
    });

    let outcome = board
        .seat()?
        .outcome()?
        .expect("a worker has come to the end");
    assert_eq!(outcome, job.plain()?);
    println!(
        "A = {:?}",
        &outcome.cells().expect("there is no conflict")[..8]
    );
    Ok(())
}

fn live(mut worker: Worker, steps: Option<u64>) {
    let number = worker.number();
    match steps {
        Some(steps) => {
            worker.work(steps);
            println!("worker {number} is lost after at most {steps} atomic steps");
        }
        None => println!(
            "worker {number} goes on, and knows the end: {:?}",
            worker.finish()
        ),
    }
}

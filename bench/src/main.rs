//! Compares the proved shape check with the plain one on many batches, then times both.
mod plain;
mod programs;
mod proved;

use plain::{Fault, MAX_NODES, Node};
use programs::{Rng, damage, program};
use std::fs;
use std::hint::black_box;
use std::process::ExitCode;
use std::time::{Duration, Instant};

type Check = fn(&[Node]) -> Result<(), Fault>;

/// How many programs are compared, and how many damaged variants of each.
const PROGRAMS: usize = 6_000;
const VARIANTS: usize = 9;

/// What is timed: full tables, all of them so many times over in each round.
const TIMED: usize = 32;
const PASSES: usize = 50;
const ROUNDS: usize = 41;

/// Where the batch goes on which the checks differ, as a job.
const DIFFERENCE: &str = "target/bench/difference.job";

/// How many answers of each kind there were: accepted, then refusals 1 to 4.
#[derive(Default)]
struct Tally([usize; 5]);

impl Tally {
    fn count(&mut self, answer: Result<(), Fault>) {
        let number = match answer {
            Ok(()) => 0,
            Err(Fault::Length) => 1,
            Err(Fault::Layout(_)) => 2,
            Err(Fault::Word(_)) => 3,
            Err(Fault::Depth(_)) => 4,
        };
        self.0[number] += 1;
    }
}

/// Holds the two checks to each other on one batch.
fn compare(batch: &[Node], tally: &mut Tally) -> Result<(), String> {
    let (plain, proved) = (plain::check_shape(batch), proved::check_shape(batch));
    tally.count(plain);
    if plain == proved {
        return Ok(());
    }
    let mut job = String::new();
    for node in batch {
        job += &format!("node {} {} {}\n", node.kind, node.size, node.word);
    }
    job += "shape\n";
    fs::write(DIFFERENCE, job).map_err(|e| format!("{DIFFERENCE}: {e}"))?;
    Err(format!(
        "the checks differ on the batch in {DIFFERENCE}: plain {plain:?}, proved {proved:?}"
    ))
}

/// Programs of all sizes, each as it is and in damaged variants with one to three faults.
fn compare_all() -> Result<Tally, String> {
    let mut rng = Rng(1);
    let mut tally = Tally::default();
    compare(&[], &mut tally)?;
    for round in 0..PROGRAMS {
        let size = match round % 4 {
            0 => MAX_NODES - rng.below(4),
            _ => 32 + rng.below(MAX_NODES - 31),
        };
        let sound = program(&mut rng, size);
        if plain::check_shape(&sound) != Ok(()) || sound.len() != size {
            return Err(format!("program {round} is not a program of {size} nodes"));
        }
        compare(&sound, &mut tally)?;
        for _ in 0..VARIANTS {
            let mut batch = sound.clone();
            for _ in 0..1 + rng.below(3) {
                damage(&mut rng, &mut batch);
            }
            compare(&batch, &mut tally)?;
        }
    }
    Ok(tally)
}

/// The time of `PASSES` checks of every batch.
fn time(check: Check, batches: &[Vec<Node>]) -> Duration {
    let start = Instant::now();
    for _ in 0..PASSES {
        for batch in batches {
            black_box(check(black_box(batch))).expect("a program is accepted");
        }
    }
    start.elapsed()
}

fn report(name: &str, times: &mut [Duration], nodes: usize) -> f64 {
    times.sort();
    let speed = |t: Duration| nodes as f64 / t.as_secs_f64() / 1e6;
    let (best, median) = (speed(times[0]), speed(times[times.len() / 2]));
    println!("{name:8} {best:8.1} million nodes/s at best, {median:8.1} in the median round");
    best
}

fn run() -> Result<(), String> {
    let tally = compare_all()?;
    println!(
        "both checks agree on {} batches: {} accepted, {} refused 1, {} refused 2, {} refused 3, {} refused 4",
        tally.0.iter().sum::<usize>(),
        tally.0[0],
        tally.0[1],
        tally.0[2],
        tally.0[3],
        tally.0[4],
    );

    let mut rng = Rng(2);
    let batches: Vec<_> = (0..TIMED).map(|_| program(&mut rng, MAX_NODES)).collect();
    let used = |kind| batches.iter().flatten().any(|node| node.kind == kind);
    if let Some(kind) = (1..=48).find(|&kind| !used(kind)) {
        return Err(format!("no program to be timed has a node of kind {kind}"));
    }

    let (mut plain, mut proved) = (Vec::new(), Vec::new());
    for _ in 0..ROUNDS {
        plain.push(time(plain::check_shape, &batches));
        proved.push(time(proved::check_shape, &batches));
    }
    let nodes = TIMED * MAX_NODES * PASSES;
    println!("{TIMED} programs of {MAX_NODES} nodes, {ROUNDS} rounds of {PASSES} passes, in turn:");
    let plain = report("plain", &mut plain, nodes);
    let proved = report("proved", &mut proved, nodes);
    println!(
        "ratio    {:8.2} (proved / plain, best rounds)",
        proved / plain
    );
    Ok(())
}

fn main() -> ExitCode {
    match run() {
        Ok(()) => ExitCode::SUCCESS,
        Err(text) => {
            eprintln!("{text}");
            ExitCode::FAILURE
        }
    }
}

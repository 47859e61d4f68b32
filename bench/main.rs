//! The benchmark: the proved simulator, linked as a static library, beside plain Rust of the same rules, in one process. Times
//! are told, never judged: only a difference in what the two answer is an error.
use std::error::Error;
use std::hint::black_box;

mod library;
mod random;
mod reports;
mod rules;
mod schedule;
mod texts;

use rules::{Level, MOST_STEPS};
use schedule::Kind;

const ROUNDS: usize = 15;
const REPORT_ROUNDS: usize = 300;
const DAMAGED: u64 = 400;
/// More than any report of 65,536 bytes: at most 8,192 steps, each told in fewer than 32 bytes.
const ROOM: usize = 1 << 18;

/// A direct level of 2 lines on 2 sets of 2 ways.
fn two_levels() -> Vec<Level> {
    vec![Level::new(2, 1), Level::new(2, 2)]
}

/// The same on 4 sets of 4 ways on 8 sets of 4 ways.
fn four_levels() -> Vec<Level> {
    let mut levels = two_levels();
    levels.extend([Level::new(4, 4), Level::new(8, 4)]);
    levels
}

const KINDS: [Kind; 2] = [
    Kind {
        name: "two cores, two levels",
        cores: 2,
        blocks: 16,
        caches: two_levels,
        proved: library::two_cores,
    },
    Kind {
        name: "eight cores, four levels",
        cores: 8,
        blocks: 64,
        caches: four_levels,
        proved: library::eight_cores,
    },
];

/// The seconds of one piece of work.
fn time(work: &mut impl FnMut()) -> f64 {
    let start = library::seconds();
    work();
    library::seconds() - start
}

/// The least seconds of many rounds for each of the two, which take turns, so that a disturbance falls on both.
fn fastest(rounds: usize, mut proved: impl FnMut(), mut plain: impl FnMut()) -> (f64, f64) {
    let mut best = (f64::INFINITY, f64::INFINITY);
    for _ in 0..rounds {
        best.0 = best.0.min(time(&mut proved));
        best.1 = best.1.min(time(&mut plain));
    }
    best
}

/// The least seconds of each of the two for a schedule, once they came to the same.
fn play(kind: &Kind, steps: u32, blocks: u16, rounds: usize) -> Result<(f64, f64), String> {
    let requests = kind.requests(steps, blocks);
    let proved = (kind.proved)(blocks, &requests);
    let plain = kind.plain(blocks, &requests);
    if proved != Some(plain) {
        let name = kind.name;
        return Err(format!(
            "{name}, {steps} steps, {blocks} blocks: Rattle comes to {proved:?}, Rust to {plain:?}"
        ));
    }
    Ok(fastest(
        rounds,
        || _ = black_box((kind.proved)(blocks, &requests)),
        || _ = black_box(kind.plain(blocks, &requests)),
    ))
}

fn compare_schedules() -> Result<(), String> {
    let mut sizes = 0;
    for kind in &KINDS {
        for steps in [0, 1, 1_000, MOST_STEPS] {
            for blocks in [1, 3, 16, 100, 4_096] {
                play(kind, steps, blocks, 0)?;
                sizes += 1;
            }
        }
    }
    println!("The two come to the same accesses and totals at {sizes} sizes.");
    Ok(())
}

fn time_schedules() -> Result<(), String> {
    println!("\nmillion steps a second       Rattle    Rust    ratio of times");
    for kind in &KINDS {
        let (proved, plain) = play(kind, MOST_STEPS, kind.blocks, ROUNDS)?;
        let speed = |seconds: f64| f64::from(MOST_STEPS) / seconds / 1e6;
        println!(
            "{:<25}{:>10.1}{:>8.1}{:>18.2}",
            kind.name,
            speed(proved),
            speed(plain),
            proved / plain
        );
    }
    Ok(())
}

fn time_steps(title: &str, sizes: impl Fn(&Kind) -> [(u32, u16); 3]) -> Result<(), String> {
    println!("\nnanoseconds a step, {title}");
    println!("                             steps   blocks    Rattle    Rust");
    for kind in &KINDS {
        for (steps, blocks) in sizes(kind) {
            let (proved, plain) = play(kind, steps, blocks, ROUNDS)?;
            let each = |seconds: f64| seconds / f64::from(steps) * 1e9;
            println!(
                "{:<25}{steps:>9}{blocks:>9}{:>10.1}{:>8.1}",
                kind.name,
                each(proved),
                each(plain)
            );
        }
    }
    Ok(())
}

fn compare_reports(wholes: &[Vec<u8>], buffer: &mut [u8]) -> Result<(), Box<dyn Error>> {
    let mut all = texts::odd(&wholes[0]);
    all.extend(
        (0..DAMAGED).map(|seed| texts::damaged(&wholes[seed as usize % wholes.len()], seed)),
    );
    for (number, text) in wholes.iter().chain(&all).enumerate() {
        let mut plain = Vec::new();
        reports::report(text, &mut plain)?;
        if library::report(text, buffer) != Some(&plain[..]) {
            return Err(format!("the two write different reports of text {number}").into());
        }
    }
    let count = wholes.len() + all.len();
    println!("\nThe two write the same reports of {count} texts.");
    Ok(())
}

fn time_reports() -> Result<(), Box<dyn Error>> {
    let wholes: Vec<Vec<u8>> = (0..4).map(texts::whole).collect();
    let mut buffer = vec![0; ROOM];
    compare_reports(&wholes, &mut buffer)?;
    let text = &wholes[0];
    let mut written = Vec::with_capacity(ROOM);
    let (proved, plain) = fastest(
        REPORT_ROUNDS,
        || _ = black_box(library::report(text, &mut buffer)),
        || {
            written.clear();
            _ = black_box(reports::report(text, &mut written));
        },
    );
    println!("\nmilliseconds a scenario      Rattle    Rust    ratio of times");
    println!(
        "{:<25}{:>10.3}{:>8.3}{:>18.2}",
        format!("of {} bytes, reported", text.len()),
        proved * 1e3,
        plain * 1e3,
        proved / plain
    );
    Ok(())
}

fn main() -> Result<(), Box<dyn Error>> {
    compare_schedules()?;
    time_schedules()?;
    time_steps("as steps grow", |kind| {
        [250_000, 500_000, MOST_STEPS].map(|steps| (steps, kind.blocks))
    })?;
    time_steps("as memory grows, and with it the share of misses", |_| {
        [16, 256, 4_096].map(|blocks| (MOST_STEPS, blocks))
    })?;
    time_reports()
}

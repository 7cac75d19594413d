//! Holds libvlomdar.a and night_report against the second implementation. See README.md in tests/ for how to run it.

mod cases;
mod chance;
mod library;
mod make;
mod night;
mod refusals;
mod tally;

use library::Program;
use second::random::Random;
use std::process::ExitCode;
use std::time::{Duration, Instant, SystemTime};
use tally::{in_parallel, Tally};

const FIXED_SEED: u64 = 0x766c_6f6d_6461_7221;

const USAGE: &str = "\
against                          every group, with a fixed seed and then with a fresh one
against seed N                   the random groups with a seed
against fuzz seconds|count N [seed N]
                                 damaged inputs of both entries and the report, until the time or the count is reached
against short                    a few calls of each kind on one core, buffers without guards: for valgrind";

fn main() -> ExitCode {
    let arguments: Vec<String> = std::env::args().skip(1).collect();
    let words: Vec<&str> = arguments.iter().map(String::as_str).collect();
    let number = |text: &str| text.parse::<u64>().ok();
    let agreed = match words[..] {
        [] => everything(),
        ["seed", n] => number(n).map(random_groups_with),
        ["fuzz", bound @ ("seconds" | "count"), n] => number(n).map(|n| fuzz(bound, n, fresh_seed())),
        ["fuzz", bound @ ("seconds" | "count"), n, "seed", seed] => number(n).zip(number(seed)).map(|(n, seed)| fuzz(bound, n, seed)),
        ["short"] => Some(short()),
        _ => None,
    };
    match agreed {
        Some(true) => ExitCode::SUCCESS,
        Some(false) => {
            println!("there are disagreements");
            ExitCode::FAILURE
        }
        None => {
            eprintln!("{USAGE}");
            ExitCode::from(2)
        }
    }
}

fn fresh_seed() -> u64 {
    let now = SystemTime::now().duration_since(SystemTime::UNIX_EPOCH).unwrap_or_default();
    let seed = Random::new(now.as_nanos() as u64).next();
    println!("seed {seed}");
    seed
}

/// One group on one core.
fn group(name: &str, run: impl FnOnce(&mut Tally)) -> bool {
    let mut tally = Tally::default();
    run(&mut tally);
    tally.close(name)
}

/// The program, or the disagreement that it is not there.
fn program() -> (Option<Program>, bool) {
    match Program::find() {
        Ok(found) => (found, true),
        Err(text) => {
            println!("{text}");
            (None, false)
        }
    }
}

fn everything() -> Option<bool> {
    let start = Instant::now();
    let (program, there) = program();
    let mut agreed = vec![
        there,
        group("cases 1 to 13 and 15", cases::through_the_entries),
        group("case 14, second implementation alone", cases::modulo_97),
        group("refusals of lists", refusals::of_lists),
        group("refusals of messages", refusals::of_messages),
        group("refusals of reconciling", refusals::of_reconciling),
        chance::one_sample(131).close("one sample"),
        group("stored reports", |tally| night::stored(tally, program.as_ref())),
        group("limits of the report", |tally| night::limits(tally, program.as_ref())),
    ];
    agreed.push(random_groups(FIXED_SEED, program.as_ref(), 3));
    agreed.push(random_groups(fresh_seed(), program.as_ref(), 1));
    println!("{} s", start.elapsed().as_secs());
    Some(agreed.iter().all(|&agreed| agreed))
}

fn random_groups_with(seed: u64) -> bool {
    let (program, there) = program();
    random_groups(seed, program.as_ref(), 1) & there
}

/// An item's input follows from the seed and its index, so a run of one share repeats the first third of a run of three.
fn random_groups(seed: u64, program: Option<&Program>, shares: u64) -> bool {
    let mut agreed = vec![
        chance::sketches(seed, 400 * shares).close("random sketches"),
        chance::differences(seed, 250 * shares).close("random differences"),
        chance::values_of_no_set(seed, 100 * shares).close("values of no set"),
        chance::damaged(seed, 4_000 * shares).close("damaged calls"),
    ];
    if let Some(program) = program {
        agreed.push(night::texts(seed, 1_000 * shares, program).close("random reports"));
    }
    agreed.iter().all(|&agreed| agreed)
}

fn fuzz(bound: &str, n: u64, seed: u64) -> bool {
    let (program, there) = program();
    let end = Instant::now() + Duration::from_secs(n);
    let mut sum = Tally::default();
    let (mut done, mut batch) = (0, 0);
    while sum.wrong == 0 && if bound == "count" { done < n } else { Instant::now() < end } {
        let items = if bound == "count" { (n - done).min(1_000) } else { 1_000 };
        sum.add(in_parallel(items, |index, tally| {
            let random = &mut Random::item(seed, 6 + batch, index);
            match (&program, random.below(8)) {
                (Some(program), 0) => night::text(random, tally, program),
                (_, 1) => chance::values_of_one(random, tally, (index % 16) as usize, batch),
                _ => chance::damaged_call(random, tally),
            }
        }));
        done += items;
        batch += 1;
    }
    sum.close(&format!("fuzz, {done} inputs")) & there
}

fn short() -> bool {
    let mut tally = Tally::new(true);
    cases::through_the_entries(&mut tally);
    for plan in 0..16 {
        let random = &mut Random::item(FIXED_SEED, 7, plan);
        chance::sketch_of_a_set(random, &mut tally, plan as u32);
        chance::difference_of_a_pair(random, &mut tally, plan as usize, 5);
        chance::values_of_one(random, &mut tally, plan as usize, plan);
        for _ in 0..10 {
            chance::damaged_call(random, &mut tally);
        }
    }
    tally.close("short run")
}

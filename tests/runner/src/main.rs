//! `runner DIR [SEED]`: every case file of DIR on every engine, then the properties from a printed seed.
//! One line for each failure, and `N passed, M failed` last; the exit status is 1 where anything failed.

use runner::cases::read_cases;
use runner::engine::engines;
use runner::judge::{judge, judge_twice, Judged};
use runner::properties;
use runner::random::Random;
use std::path::Path;
use std::process::ExitCode;

const SEED: u64 = 20_011;

#[derive(Default)]
struct Count {
    passed: usize,
    failed: usize,
    skipped: usize,
}

impl Count {
    fn add(&mut self, what: &str, judged: Judged) {
        match judged {
            Judged::Passed => self.passed += 1,
            Judged::Skipped => self.skipped += 1,
            Judged::Failed(why) => {
                self.failed += 1;
                println!("FAILED {what}: {why}");
            }
        }
    }
}

fn main() -> ExitCode {
    let words: Vec<String> = std::env::args().skip(1).collect();
    let (dir, seed) = match words.as_slice() {
        [dir] => (dir, SEED),
        [dir, seed] => match seed.parse() {
            Ok(seed) => (dir, seed),
            Err(_) => {
                eprintln!("'{seed}' is no seed");
                return ExitCode::from(2);
            }
        },
        _ => {
            eprintln!("usage: runner DIR [SEED]");
            return ExitCode::from(2);
        }
    };
    let cases = match read_cases(Path::new(dir)) {
        Ok(cases) => cases,
        Err(why) => {
            println!("{why}");
            println!("0 passed, 1 failed");
            return ExitCode::FAILURE;
        }
    };
    let mut total = Count::default();
    let mut given_twice = Count::default();
    for twice in &cases.twice {
        given_twice.add(&twice.name, judge_twice(twice));
    }
    println!("given in words and in bytes: {} agree, {} differ", given_twice.passed, given_twice.failed);
    total.passed += given_twice.passed;
    total.failed += given_twice.failed;
    for engine in engines() {
        let mut count = Count::default();
        for case in &cases.cases {
            count.add(&format!("{} [{}] ({})", case.name, engine.name(), case.from), judge(case, engine.as_ref()));
        }
        let Count { passed, failed, skipped } = count;
        println!("{}: {passed} cases passed, {failed} failed, {skipped} skipped (not landed)", engine.name());
        total.passed += passed;
        total.failed += failed;
    }
    println!("properties, seed {seed}");
    for (number, property) in properties::all().iter().enumerate() {
        let judged = match (property.holds)(&mut Random::new(seed.wrapping_add(number as u64))) {
            Ok(()) => Judged::Passed,
            Err(why) => Judged::Failed(format!("seed {seed}: {why}")),
        };
        total.add(property.name, judged);
    }
    println!("{} passed, {} failed", total.passed, total.failed);
    if total.failed == 0 {
        ExitCode::SUCCESS
    } else {
        ExitCode::FAILURE
    }
}

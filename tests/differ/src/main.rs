//! `differ [full|self] [guarded|blocks] [soak SECONDS] [seed N] [share N] [only TEXT] [times] [trace]`: the proved
//! library against the oracle, on drawn and damaged inputs.
//!
//! Without a word the minimums of functions that have not landed are waived; `full` waives none. `self` holds the
//! oracle against itself, which shows what the draws reach and nothing else. `only` runs the groups whose names hold
//! the text, with the seeds they have in the whole run, to draw a failure again; the minimums are then not asked for.
//! `times` prints what each group took. `trace` prints each call before it is made, for one that does not come back.
//!
//! `guarded` makes a share of the calls three times over: each slice ending at a page that cannot be touched, then
//! beginning at one, then at an odd address; empty slices are given in every way there is. `blocks` gives each slice in
//! a block of the heap just as long, for memcheck. `share` draws one call in so many.
//!
//! `soak` goes on with successive seeds until the time is over or something differs. It asks for no minimums.
//!
//! Each group is one test, and so is each minimum. The last line is `N passed, M failed`.

mod books;
mod compare;
mod damage;
mod empties;
mod groups;
mod minimums;

use compare::{Compare, FUNCTIONS};
use groups::Group;
use guard::guarded::{Empties, Guarded, Stand};
use guard::watch;
use runner::engine::{proved, proved_with_null, Engine, Oracle};
use runner::random::Random;
use std::process::ExitCode;
use std::time::{Duration, Instant};

const SEED: u64 = 4_711;

/// The share of the calls that is made in guarded memory.
const GUARDED_SHARE: usize = 8;

struct Wanted {
    full: bool,
    itself: bool,
    /// Where slices stand, round for round; nowhere in particular where there is none.
    stands: Vec<Stand>,
    soak: Option<Duration>,
    seed: Option<u64>,
    share: Option<usize>,
    only: Option<String>,
    times: bool,
    trace: bool,
}

fn wanted() -> Result<Wanted, String> {
    let mut wanted = Wanted {
        full: false,
        itself: false,
        stands: Vec::new(),
        soak: None,
        seed: None,
        share: None,
        only: None,
        times: false,
        trace: false,
    };
    let mut words = std::env::args().skip(1);
    while let Some(word) = words.next() {
        let mut number = || words.next().and_then(|number| number.parse::<u64>().ok());
        match word.as_str() {
            "full" => wanted.full = true,
            "self" => wanted.itself = true,
            "guarded" => wanted.stands = vec![Stand::Ending, Stand::Beginning, Stand::Odd],
            "blocks" => wanted.stands = vec![Stand::Block],
            "times" => wanted.times = true,
            "trace" => wanted.trace = true,
            "soak" => wanted.soak = Some(Duration::from_secs(number().ok_or("soak wants seconds")?)),
            "seed" => wanted.seed = Some(number().ok_or("seed wants a number")?),
            "share" => {
                let share = number().filter(|share| *share > 0).ok_or("share wants a number of 1 or more")?;
                wanted.share = Some(share as usize);
            }
            "only" => wanted.only = Some(words.next().ok_or("only wants a text")?),
            _ => return Err(format!("'{word}' is not known; see the head of this program")),
        }
    }
    Ok(wanted)
}

/// An engine, and the same engine given null for what is empty.
fn engines(wanted: &Wanted) -> Option<(Box<dyn Engine>, Box<dyn Engine>)> {
    if wanted.itself {
        return Some((Box::new(Oracle), Box::new(Oracle)));
    }
    proved().zip(proved_with_null())
}

#[derive(Default)]
struct Count {
    passed: usize,
    failed: usize,
    not_landed: usize,
}

/// Every group once. In a soak the first failure ends it, and so does the end of its time: false then.
fn draw_groups(
    compare: &mut Compare,
    groups: &[Group],
    wanted: &Wanted,
    seed: u64,
    until: Option<Instant>,
    count: &mut Count,
) -> bool {
    let pool = groups::Pool::draw(&mut Random::new(seed), |whole| compare.times(whole));
    for (number, group) in groups.iter().enumerate() {
        if wanted.only.as_ref().is_some_and(|text| !group.name.contains(text.as_str())) {
            continue;
        }
        if until.is_some_and(|until| count.failed > 0 || Instant::now() >= until) {
            return false;
        }
        // A group's seed hangs on its place in the list alone, so that one group can be run without the others.
        let seed = seed + 1_000 * (number as u64 + 1);
        compare.begin(&group.name, seed);
        if !compare.landed(group.function) {
            count.not_landed += 1;
            continue;
        }
        let from = Instant::now();
        (group.draw)(compare, &pool, &mut Random::new(seed));
        if wanted.times {
            println!("{:6.2}s {}", from.elapsed().as_secs_f64(), group.name);
        }
        match compare.differences() {
            0 => count.passed += 1,
            differences => {
                count.failed += 1;
                println!("FAILED {}: {differences} calls differ", group.name);
            }
        }
    }
    true
}

/// One seed, in every stand that is wanted. False where it was not drawn to its end.
fn draw_rounds(
    compare: &mut Compare,
    groups: &[Group],
    wanted: &Wanted,
    seed: u64,
    until: Option<Instant>,
    count: &mut Count,
    empties: &Empties,
) -> bool {
    if wanted.stands.is_empty() {
        return draw_groups(compare, groups, wanted, seed, until, count);
    }
    let mut whole = true;
    for (round, stand) in wanted.stands.iter().enumerate() {
        let (engine, with_null) = engines(wanted).expect("there were engines before");
        compare.hold(Box::new(Guarded::new(engine, with_null, *stand, empties.clone())), stand.name());
        let calls = compare.calls();
        // Other draws in each round: a hundred thousand is past the seeds of all groups.
        whole &= draw_groups(compare, groups, wanted, seed + 100_000 * round as u64, until, count);
        if wanted.soak.is_none() {
            println!("slices {}: {} calls", stand.name(), compare.calls() - calls);
        }
    }
    whole
}

fn show_tallies(compare: &Compare) {
    for function in FUNCTIONS {
        let tally = compare.tally(function);
        if tally.calls > 0 {
            let refusals: Vec<String> = (1..26)
                .filter(|number| tally.refusals[*number] > 0)
                .map(|number| format!("{number}: {}", tally.refusals[number]))
                .collect();
            let name = function.name();
            let (calls, successes) = (tally.calls, tally.successes);
            println!("{name:>12} {calls:>7} calls {successes:>7} not refused; {}", refusals.join(", "));
        }
    }
}

fn main() -> ExitCode {
    let wanted = match wanted() {
        Ok(wanted) => wanted,
        Err(why) => {
            eprintln!("{why}");
            return ExitCode::from(2);
        }
    };
    let Some((engine, _)) = engines(&wanted) else {
        println!("nothing has landed");
        println!("0 passed, 1 failed");
        return ExitCode::FAILURE;
    };
    watch::begin();
    let began = Instant::now();
    // A soak begins past the seed of the daily run.
    let first_seed = wanted.seed.unwrap_or(if wanted.soak.is_some() { SEED + 1 } else { SEED });
    let share = wanted.share.unwrap_or(if wanted.stands.is_empty() { 1 } else { GUARDED_SHARE });
    println!("differ: {} against the oracle, seed {first_seed}", engine.name());
    let mut compare = Compare::new(engine, wanted.trace, share);
    let mut groups = groups::all();
    if !wanted.stands.is_empty() {
        groups.extend(empties::all());
    }
    let empties = Empties::default();
    let mut count = Count::default();
    let until = wanted.soak.map(|seconds| began + seconds);
    let mut seed = first_seed;
    loop {
        let (from, calls) = (Instant::now(), compare.calls());
        let whole = draw_rounds(&mut compare, &groups, &wanted, seed, until, &mut count, &empties);
        let Some(until) = until else { break };
        let (calls, seconds) = (compare.calls() - calls, from.elapsed().as_secs_f64());
        println!("seed {seed}: {calls} calls, {seconds:.1} seconds{}", if whole { "" } else { ", not to its end" });
        seed += u64::from(whole);
        if count.failed > 0 || Instant::now() >= until {
            println!("soak: from seed {first_seed}, to be gone on with from seed {seed}");
            break;
        }
    }
    let Count { mut passed, mut failed, not_landed } = count;
    if compare.calls() == 0 {
        // Nothing differs where nothing is called.
        failed += 1;
        println!("FAILED: no call was made");
    }
    println!("groups: {passed} agree, {failed} differ, {not_landed} skipped (not landed)");
    show_tallies(&compare);
    let kinds = &compare.kinds;
    println!(
        "{} calls; {} images of over 50 places, {} of over 500; {} runs with records and steps, {} of them cut by room \
         ({} runs cut by room in all); {:.1} seconds",
        compare.calls(),
        kinds.images_over_50,
        kinds.images_over_500,
        kinds.runs_with_records_and_steps,
        kinds.of_these_cut_by_room,
        kinds.runs_cut_by_room,
        began.elapsed().as_secs_f64()
    );
    if !wanted.stands.is_empty() {
        println!("{} calls had an empty slice, each made untouchable, dangling and null", empties.get());
    }
    if wanted.only.is_none() && wanted.soak.is_none() {
        let rows = if wanted.stands.is_empty() {
            minimums::rows(&compare, wanted.full)
        } else {
            minimums::guarded_rows(&compare, wanted.full, empties.get(), share, wanted.stands.len())
        };
        for row in rows {
            if row.waived {
                continue;
            }
            if row.got >= row.least {
                passed += 1;
            } else {
                failed += 1;
                println!("FAILED minimum: {} {}, at least {} are wanted", row.got, row.what, row.least);
            }
        }
    }
    println!("{passed} passed, {failed} failed");
    if failed == 0 {
        ExitCode::SUCCESS
    } else {
        ExitCode::FAILURE
    }
}

//! Compares the library with the model, an independent program written from the papers.
//! See README.md for how it is run.

mod abi;
#[cfg(test)]
mod faults;
mod ffi;
mod judge;
mod kinds;
mod model;
mod reckonings;
mod rng;
mod side;
#[cfg(test)]
mod tests;

use judge::{Difference, Judge};
use kinds::{Kind, KINDS};
use rng::Rng;
use side::{Model, Side};
use std::panic::{catch_unwind, AssertUnwindSafe};
use std::process::exit;
use std::time::{Duration, Instant};

/// A number from the environment.
fn setting(name: &str) -> Option<u64> {
    let text = std::env::var(name).ok().filter(|text| !text.is_empty())?;
    Some(text.parse().unwrap_or_else(|_| panic!("{name}={text} is not a number")))
}

/// How far a kind is run: a time, an exact count, or one iteration alone.
#[derive(Clone, Copy)]
enum Extent {
    Time(Duration),
    Count(u64),
    Only(u64),
}

#[cfg(library)]
fn library() -> Option<Box<dyn Side>> {
    Some(Box::new(ffi::Library { loglist: std::env::var("HONEYGIMLET_LOGLIST").ok() }))
}

#[cfg(not(library))]
fn library() -> Option<Box<dyn Side>> {
    None
}

fn main() {
    let itself = std::env::args().skip(1).any(|word| word == "--self");
    let side: Box<dyn Side> = if itself {
        println!("the model is compared with itself");
        Box::new(Model)
    } else {
        library().unwrap_or_else(|| {
            eprintln!("built without the library: set HONEYGIMLET_LIB and build again, or use --self");
            exit(2)
        })
    };
    let seed = setting("COMPARE_SEED").unwrap_or(20_150_120);
    let only = std::env::var("COMPARE_KIND").ok().filter(|name| !name.is_empty());
    let chosen: Vec<usize> =
        (0..KINDS.len()).filter(|index| only.as_deref().is_none_or(|name| name == KINDS[*index].name)).collect();
    if chosen.is_empty() {
        eprintln!("no such kind; kinds are {}", KINDS.iter().map(|kind| kind.name).collect::<Vec<_>>().join(", "));
        exit(2);
    }
    let seconds = setting("COMPARE_SECONDS").unwrap_or(60);
    let extent = match (setting("COMPARE_ITERATION"), setting("COMPARE_COUNT")) {
        (Some(iteration), _) => Extent::Only(iteration),
        (None, Some(count)) => Extent::Count(count),
        (None, None) => Extent::Time(Duration::from_millis(1000 * seconds / chosen.len() as u64)),
    };

    let wrong = reckonings::failures(side.as_ref());
    if !wrong.is_empty() {
        println!("reckonings of papers 01 and 02 that differ:\n{}", wrong.join("\n"));
        exit(1);
    }
    println!("reckonings of papers 01 and 02: {} right", reckonings::all(side.as_ref()).len());

    for index in chosen {
        run_kind(&KINDS[index], index as u64, side.as_ref(), seed, extent);
    }
}

/// Runs one kind and prints its line; on a difference prints that and ends the program.
fn run_kind(kind: &Kind, index: u64, side: &dyn Side, seed: u64, extent: Extent) {
    let trace = setting("COMPARE_TRACE").is_some();
    let mut judge = Judge::new(side);
    let started = Instant::now();
    let mut iterations = 0;
    let mut next = if let Extent::Only(iteration) = extent { iteration } else { 0 };
    loop {
        let over = match extent {
            Extent::Time(time) => started.elapsed() >= time,
            Extent::Count(count) => iterations >= count,
            Extent::Only(_) => iterations >= 1,
        };
        if over {
            break;
        }
        if trace {
            eprintln!("{} seed {seed} iteration {next}", kind.name);
        }
        let mut rng = Rng::new(seed, index, next);
        match catch_unwind(AssertUnwindSafe(|| (kind.run)(&mut rng, &mut judge))) {
            Ok(Ok(())) => {}
            Ok(Err(Difference(text))) => {
                println!("DIFFERENCE in {} seed {seed} iteration {next}: {text}", kind.name);
                exit(1);
            }
            Err(_) => {
                println!("PANIC in {} seed {seed} iteration {next}", kind.name);
                exit(1);
            }
        }
        if judge.compared == 0 {
            println!("{}: NOT COMPARED, this side does not offer it", kind.name);
            return;
        }
        iterations += 1;
        next += 1;
    }
    println!("{}: {iterations} inputs, {} comparisons, no difference", kind.name, judge.compared);
    if setting("COMPARE_VERBOSE").is_some() {
        let mut call = "";
        for ((name, number), count) in &judge.tally {
            if *name != call {
                print!("{}    {name}:", if call.is_empty() { "" } else { "\n" });
                call = name;
            }
            print!(" {number}={count}");
        }
        println!();
    }
}

//! differential [SEED [COUNT [LARGEST]]]: generated images, this library against the original Rust and the reading.
//! differential record FILE [SEED [COUNT]]: writes the list of recorded answers that the crate `replay` replays.

use std::time::Instant;

use differential::calls::Calls;
use differential::compare::Compare;
use differential::counts::Counts;
use differential::inputs::input;
#[cfg(not(feature = "library"))]
use differential::reading::Reading;
use differential::record::records;

const SEED: u64 = 1;
const COUNT: u64 = 40_000;

fn number(arg: Option<String>, or: u64) -> u64 {
    match arg {
        Some(text) => text.replace(['_', ','], "").parse().expect("a number"),
        None => or,
    }
}

fn subject() -> (Box<dyn Calls>, bool) {
    #[cfg(feature = "library")]
    return (Box::new(differential::calls::Library), false);
    #[cfg(not(feature = "library"))]
    return (Box::new(Reading), true);
}

/// The list that the crate `replay` has as its data was made by `record FILE` with these.
const RECORD_SEED: u64 = 2026;
const RECORDS: u64 = 300;

fn write_records(mut args: impl Iterator<Item = String>) -> bool {
    let file = args.next().expect("a file");
    let seed = number(args.next(), RECORD_SEED);
    let count = number(args.next(), RECORDS);
    if !original::PRESENT {
        println!("no list is written: the original sources were not there when this was built (EQLOG_SRC)");
        return true;
    }
    match records(seed, count) {
        Ok(bytes) => {
            std::fs::write(&file, &bytes).expect("the file");
            println!("{count} records from seed {seed}, {} bytes", bytes.len());
            true
        }
        Err(why) => {
            println!("the reading and the original differ: {why}");
            false
        }
    }
}

/// The deepest images of each form, every call in the stack that the header promises to be enough: too little ends the process.
#[cfg(feature = "library")]
fn deepest() {
    use differential::calls::{Answer, STRICT};
    use differential::inputs::{deep, DEEP};
    use differential::random::Random;
    use differential::reading::layout::{index_words, rows_words, table_words};
    use differential::reading::tests::{sizes, verdict};
    for form in DEEP {
        let image = (2000..=2048)
            .rev()
            .map(|nodes| deep(form, nodes, &mut Random::new(SEED, 0)))
            .map(|s| s.parts(&s.natural()).encode())
            .find(|image| verdict(image).is_none())
            .expect("an image that is accepted");
        let calls = move || {
            let (subject, _) = subject();
            let mut table = vec![0; table_words(2048)];
            let mut rows = vec![0; rows_words(2048)];
            if let Answer::Result(scopes, _) = subject.resolve(&image, &mut table) {
                let mut index = vec![0; index_words(2048, 1024)];
                subject.index(&image, &table, &mut index);
                // from the last scope, of every name: the longest way up
                for name in 0..sizes(&image).s as u32 {
                    let (start, len) = subject.name(&image, name);
                    let bytes = &image[start..start + len];
                    subject.lookup(&image, &table, scopes.saturating_sub(1), bytes);
                    subject.lookup_indexed(&image, &table, &index, scopes.saturating_sub(1), bytes);
                }
            }
            subject.errors(&image, &mut table, &mut rows, STRICT);
            subject.sorted(&image, &mut table, &mut rows, STRICT);
            subject.occurrences(&image, &mut table, &mut rows);
            // the first row's binding, to another name or its own
            let binding = rows[1 + sizes(&image).n];
            let mut out = vec![0; image.len()];
            for name in 0..2 {
                subject.rename(&image, &mut table, &mut rows, binding, name, &mut out);
            }
            subject.once(&image, &mut table);
            subject.name(&image, 0);
        };
        let thread = std::thread::Builder::new().stack_size(eqlog_scopes::STACK_BYTES).spawn(calls).expect("a thread");
        thread.join().expect("the deepest images");
    }
    println!("the deepest images ran in {} KiB of stack", eqlog_scopes::STACK_BYTES / 1024);
}

#[cfg(not(feature = "library"))]
fn deepest() {}

fn run() -> bool {
    let mut args = std::env::args().skip(1).peekable();
    if args.peek().is_some_and(|a| a == "record") {
        args.next();
        return write_records(args);
    }
    let seed = number(args.next(), SEED);
    let count = number(args.next(), COUNT);
    let largest = number(args.next(), 2048) as usize;
    let (subject, alone) = subject();
    let compare = Compare { subject: &*subject, alone };
    let mut counts = Counts::default();
    let mut failures = 0u64;
    let mut smallest: Option<(usize, String)> = None;
    let started = Instant::now();
    deepest();
    match differential::grid::compare(&*subject) {
        Ok((tried, admitted)) => println!("every kind of child in every field of every kind: {tried} images, {admitted} of them admitted"),
        Err(why) => {
            println!("{why}");
            return false;
        }
    }
    if let Some(what) = differential::grid::misprint() {
        println!("not as the reading has it: {what}");
        return false;
    }
    println!("docs/GRID.md: as the reading has the kinds");
    println!("seed {seed}, {count} images");
    for i in 0..count {
        let (input, mut r) = input(seed, i, 50, largest);
        if input.shuffled {
            counts.see("shuffled node order");
        }
        if let Err(why) = compare.image(&input.image, &mut r, &mut counts) {
            failures += 1;
            if smallest.as_ref().is_none_or(|s| input.image.len() < s.0) {
                let bytes: Vec<String> = input.image.iter().map(|b| b.to_string()).collect();
                let text = format!("image {i} ({}), {} bytes: {why}\n  {}", input.what, bytes.len(), bytes.join(" "));
                smallest = Some((bytes.len(), text));
            }
            if failures == 1000 {
                println!("1,000 differences: no more images are tried");
                break;
            }
        }
    }
    counts.print();
    println!("{:.1} seconds", started.elapsed().as_secs_f64());
    for what in counts.missing() {
        println!("never reached: {what}");
    }
    if !original::PRESENT {
        println!("NOT COMPARED WITH THE RUST: its sources were not there when this was built (EQLOG_SRC)");
    }
    if alone {
        println!("NOT COMPARED WITH THE LIBRARY: built without it");
    }
    if let Some((_, text)) = smallest {
        println!("{failures} differences; the smallest: {text}");
        return false;
    }
    println!("no difference on {count} images from seed {seed}");
    true
}

fn main() {
    // nesting is as deep as an image allows
    let child = std::thread::Builder::new().stack_size(256 << 20).spawn(run).expect("a thread");
    let good = child.join().unwrap_or(false);
    std::process::exit(if good { 0 } else { 1 });
}

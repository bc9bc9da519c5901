//! Compares libtwine.a, through its C interface, with the second program in `../reference`.

#![deny(unsafe_code)]

mod compare;
mod difference;
mod edges;
#[cfg(test)]
mod faults;
mod ffi;
mod guarded;
mod labels;
mod make;
mod options;
mod padded;
mod product;
mod prune;
mod random;
mod sections;
mod text;

use std::process::ExitCode;
use std::time::Instant;

use compare::{Asked, Comparer};
use options::{Options, Parsed};
use product::{Archive, Product};
use random::Random;
use reference::ErrorKind;
use sections::{Case, Section};

/// The errors of a file that ends too early.
const ENDS: [ErrorKind; 3] = [ErrorKind::Trunc, ErrorKind::LongBody, ErrorKind::LongList];

fn main() -> ExitCode {
    let options = match Options::parse(std::env::args().skip(1)) {
        Ok(Parsed::Run(options)) => options,
        Ok(Parsed::Help) => {
            print!("{}", options::HELP);
            return ExitCode::SUCCESS;
        }
        Err(message) => {
            eprintln!("differential: {message}");
            return ExitCode::from(2);
        }
    };
    match run(Archive, &options) {
        Ok(()) => ExitCode::SUCCESS,
        Err(Failed { .. }) => ExitCode::FAILURE,
    }
}

/// A difference was found and printed.
#[derive(Clone, Copy, Debug, PartialEq, Eq)]
struct Failed {
    /// The case of its section.
    case: u64,
}

/// Runs the sections that are asked for, and prints a line for each.
fn run<P: Product>(product: P, options: &Options) -> Result<(), Failed> {
    println!("seed {}; version {} of the C interface", options.seed, ffi::version());
    let mut comparer = Comparer::new(product);
    let sections = sections::all().into_iter();
    let sections: Vec<Section<P>> =
        sections.filter(|section| options.only.as_deref().is_none_or(|only| only == section.name)).collect();
    let end = Instant::now() + options.time;
    let mut shares: u32 = sections.iter().map(|section| section.share).sum();
    for section in &sections {
        let begin = Instant::now();
        // What a section leaves of its time is for those after it.
        let time = end.saturating_duration_since(begin) * section.share / shares;
        shares -= section.share;
        let cases = run_section(&mut comparer, section, options, begin + time)?;
        let of = match section.cases {
            Some(all) if all > cases && options.case.is_none() => format!(" of {all}"),
            _ => String::new(),
        };
        println!("{:8} {cases}{of} cases, {:.1} s", section.name, begin.elapsed().as_secs_f64());
    }
    let answers = 0..compare::ANSWERS as u32;
    let met: Vec<String> = answers.map(|number| format!("{} {}", difference::name(number), comparer.met(number))).collect();
    println!("answers: {}", met.join(", "));
    // Which end was hit, and that a padded number was read, by each call that has to pass it on.
    for (kind, number) in ENDS.map(|kind| (kind, kind.number().into())) {
        if comparer.met(number) > 0 {
            let times = |asked: Asked| format!("{} {}", asked.name(), comparer.met_by(asked, number));
            println!("{kind}: {}", Asked::OF_FILES.map(times).join(", "));
        }
    }
    let padded = Asked::IN_MODES.map(|asked| format!("{} {}", asked.name(), comparer.padded_by(asked)));
    println!("OVERLONG, and OK in the tolerant mode: {}", padded.join(", "));
    Ok(())
}

/// Runs a section until its time is over or its cases are, and returns how many there were.
fn run_section<P: Product>(
    comparer: &mut Comparer<P>,
    section: &Section<P>,
    options: &Options,
    end: Instant,
) -> Result<u64, Failed> {
    let Options { seed, case: only, .. } = *options;
    let mut repeat = Repeat { seed, section: section.name, case: only.unwrap_or(0) };
    let first = repeat.case;
    loop {
        let case = Case { number: repeat.case, random: Random::new(seed, section.name, repeat.case) };
        if let Err(difference) = (section.run)(comparer, case) {
            println!("DIFFERENT: {difference}");
            repeat.print();
            return Err(Failed { case: repeat.case });
        }
        repeat.case += 1;
        let is_over = repeat.case >= section.least && Instant::now() >= end;
        if only.is_some() || section.cases == Some(repeat.case) || is_over {
            return Ok(repeat.case - first);
        }
    }
}

/// The case that is compared. Its command is printed also if one of the programs panics.
#[derive(Debug)]
struct Repeat {
    seed: u64,
    section: &'static str,
    case: u64,
}

impl Repeat {
    fn print(&self) {
        let Self { seed, section, case } = self;
        println!("to repeat it: cargo run --release --offline -- --seed {seed} --only {section} --case {case}");
    }
}

impl Drop for Repeat {
    fn drop(&mut self) {
        if std::thread::panicking() {
            self.print();
        }
    }
}

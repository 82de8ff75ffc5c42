//! The port against the Rust. Stops at the first difference with what shows it and exit status 1.
use compare::{cases, cost, differences, lists, numbers, packets, ranking, record, walls};

const USAGE: &str = "\
  compare numbers [SEED]         floats: sqrt, abs, round on all 2^32 patterns, the others on many millions of values
  compare scenes [COUNT [SEED]]  generated scenes, 2,000 unless said: refusals, triangles, areas, tree, hits, planes, single paths, searches, whole calls
  compare lists [COUNT [SEED]]   lists of generated scenes, 2,000 unless said, at lengths up to 1,024 and beyond, each against the longer ones
  compare ranking [COUNT [SEED]] generated lists of candidates, 2,000 unless said: which are kept, and their order
  compare packets [COUNT [SEED]] generated packets, sound and damaged, 20,000 unless said: read, written again, and taps written
  compare walls                  every number of an image of small rooms, and of large ones up to 250,000: its walls against those of a walk over all of them
  compare cost [COUNT [SEED]]    forecasts against an enumeration: all of up to 6 planes and order 6, and 2,000 others unless said
  compare file FILE ..           the cases of files (FORMAT.md)
  compare differences            the smallest input of each intended difference, against the table of docs/DIFFERENCES.md
  compare slips [COUNT [SEED]]   plants slips into the port's answers to generated scenes, and counts those found
  compare record FOLDER COUNT FILE ..
                                 what the Rust answers to the cases of files and to COUNT generated ones of each kind, for the program in FOLDER";

fn main() {
    let args: Vec<String> = std::env::args().skip(1).collect();
    let words: Vec<&str> = args.iter().map(String::as_str).collect();
    match words[..] {
        ["numbers", ref rest @ ..] => numbers::run(number(rest.first(), 1)),
        ["scenes", ref rest @ ..] => cases::generated(number(rest.first(), 2000), number(rest.get(1), 1)),
        ["lists", ref rest @ ..] => lists::run(number(rest.first(), 2000), number(rest.get(1), 1)),
        ["ranking", ref rest @ ..] => ranking::run(number(rest.first(), 2000), number(rest.get(1), 1)),
        ["packets", ref rest @ ..] => packets::run(number(rest.first(), 20_000), number(rest.get(1), 1)),
        ["walls"] => walls::run(),
        ["cost", ref rest @ ..] => cost::run(number(rest.first(), 2000), number(rest.get(1), 1)),
        ["file", ref names @ ..] if !names.is_empty() => cases::files(names),
        ["differences"] => differences::run(),
        ["differences", direction] => differences::trace_none(direction), // a part of the above, which does not end
        ["slips", ref rest @ ..] => cases::slips(number(rest.first(), 500), number(rest.get(1), 1)),
        ["record", folder, count, ref names @ ..] => record::run(folder, number(Some(&count), 0) as usize, names),
        _ => usage("say what to compare"),
    }
}

fn number(word: Option<&&str>, unsaid: u64) -> u64 {
    word.map_or(unsaid, |w| w.parse().unwrap_or_else(|_| usage(&format!("{w} is no whole number"))))
}

fn usage(why: &str) -> ! {
    eprintln!("compare: {why}\n{USAGE}");
    std::process::exit(2)
}

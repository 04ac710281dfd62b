//! bench ROUNDS CHART NAME=LIBRARY..: measures Headreader's C functions and each library in turns.
//!
//! Every library has the two functions of through/lib.rs; the first is what the others are held to.
//! The table goes to standard output, the chart to the file CHART.

mod chart;
mod contestants;
mod heads;
mod machine;
mod rounds;
mod statistics;
mod table;
mod words;

use contestants::Contestant;
use std::{env, fs, process};

fn main() {
    let arguments: Vec<String> = env::args().skip(1).collect();
    let [rounds, chart, libraries @ ..] = &arguments[..] else {
        fail("bench ROUNDS CHART NAME=LIBRARY..");
    };
    let rounds = rounds.parse().ok().filter(|&rounds| rounds > 0);
    let rounds: usize = rounds.unwrap_or_else(|| fail("ROUNDS is a number from 1 on"));
    let contestants = contestants(libraries).unwrap_or_else(|error| fail(&error));
    let sets = heads::sets();
    println!("{}", machine::line());
    println!("{}\n", rounds::line(rounds, &sets));
    let samples = rounds::measure(rounds, &sets, &contestants);
    let results = statistics::results(&sets, &contestants, &samples);
    print!("{}", table::text(&results));
    fs::write(chart, chart::svg(&results))
        .unwrap_or_else(|error| fail(&format!("{chart}: {error}")));
    println!("\nthe chart is in {chart}");
}

fn fail(sentence: &str) -> ! {
    eprintln!("{sentence}");
    process::exit(2);
}

/// Those that are loaded, and behind them those that are linked in.
fn contestants(libraries: &[String]) -> Result<Vec<Contestant>, String> {
    let mut contestants = Vec::new();
    for library in libraries {
        let (name, path) = library
            .split_once('=')
            .ok_or(format!("`{library}` is not of the form NAME=LIBRARY"))?;
        contestants.push(Contestant::load(name, path)?);
    }
    contestants.push(Contestant::headreader_through_c());
    Ok(contestants)
}

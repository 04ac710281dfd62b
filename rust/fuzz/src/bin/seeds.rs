//! seeds FOLDER RECORDED EXAMPLE..: writes what fuzzing begins with to a folder, a file for each call.
//!
//! RECORDED is a file of recorded answers, of which the queries are taken; each EXAMPLE is read by
//! every call. To these come new heads of every shape, with the settings that each needs and with all.

use answers::bits::DEFAULT;
use answers::recorded::rows;
use compare::{Case, Random, CALLS};
use fuzz::{heads, write, SETTINGS};
use std::path::{Path, PathBuf};
use std::{env, fs, process};

const SEED: u64 = 9112;

/// No new head is longer.
const LONGEST: usize = 4_000;

/// How many slots are lent for an example.
const SLOTS: usize = 16;

fn main() {
    let arguments: Vec<PathBuf> = env::args_os().skip(1).map(PathBuf::from).collect();
    let [folder, recorded, examples @ ..] = &arguments[..] else {
        fail("seeds FOLDER RECORDED EXAMPLE..");
    };
    let seeds = seeds(recorded, examples).unwrap_or_else(|error| fail(&error));
    for (number, seed) in seeds.iter().enumerate() {
        let file = folder.join(format!("seed-{number:04}"));
        fs::write(&file, seed).unwrap_or_else(|error| fail(&at(&file, &error)));
    }
    println!("{} seeds", seeds.len());
}

fn fail(sentence: &str) -> ! {
    eprintln!("{sentence}");
    process::exit(2);
}

fn at(file: &Path, error: &dyn std::fmt::Display) -> String {
    format!("{}: {error}", file.display())
}

fn seeds(recorded: &Path, examples: &[PathBuf]) -> Result<Vec<Vec<u8>>, String> {
    let mut seeds = recorded_calls(recorded)?;
    for example in examples {
        let input = fs::read(example).map_err(|error| at(example, &error))?;
        seeds.extend(CALLS.map(|call| {
            write(&Case {
                call,
                slots: SLOTS,
                remainder: 0,
                settings: DEFAULT,
                input: &input,
            })
        }));
    }
    for (head, needed) in heads(LONGEST, &mut Random::new(SEED)) {
        seeds.extend([needed, SETTINGS].map(|settings| {
            write(&Case {
                call: head.call,
                slots: head.headers,
                remainder: 0,
                settings,
                input: &head.bytes,
            })
        }));
    }
    Ok(seeds)
}

/// The recorded queries.
fn recorded_calls(recorded: &Path) -> Result<Vec<Vec<u8>>, String> {
    let text = fs::read_to_string(recorded).map_err(|error| at(recorded, &error))?;
    let rows = rows(&text).map_err(|error| at(recorded, &error))?;
    let call = |query: &answers::Query| {
        write(&Case {
            call: query.call,
            slots: query.slots,
            remainder: 0,
            settings: query.settings.bits(),
            input: &query.input,
        })
    };
    Ok(rows.iter().map(|row| call(&row.query)).collect())
}

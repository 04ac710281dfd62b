//! What the numbers were measured on.

use std::fs;
use std::num::NonZero;
use std::thread::available_parallelism;

/// The processor, the load of the machine at the start, and the compiler.
pub fn line() -> String {
    let cores = available_parallelism().map_or(1, NonZero::get);
    format!(
        "{}, {cores} cores, load {} at the start; {}",
        field("/proc/cpuinfo", "model name"),
        load(),
        env!("RUSTC_VERSION")
    )
}

/// What stands behind a name in a file of lines `name : text`.
fn field(file: &str, name: &str) -> String {
    let text = fs::read_to_string(file).unwrap_or_default();
    let line = text.lines().find(|line| line.starts_with(name));
    let behind = line.and_then(|line| line.split_once(": "));
    behind.map_or("unknown processor".to_string(), |(_, text)| {
        text.to_string()
    })
}

/// The average number of busy processes over the last minute.
fn load() -> String {
    let text = fs::read_to_string("/proc/loadavg").unwrap_or_default();
    text.split(' ').next().unwrap_or("unknown").to_string()
}

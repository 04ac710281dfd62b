//! The results as bars: how long each contestant takes where the first takes one.

use crate::statistics::Result;
use std::fmt::Write;

const WIDTH: usize = 960;
const HEIGHT: usize = 420;

/// The lines where a ratio of 0 and the largest ratio stand.
const BOTTOM: f64 = 340.0;
const TOP: f64 = 70.0;

/// Where the bars begin, and what is left free between two sets.
const LEFT: f64 = 60.0;
const GAP: f64 = 24.0;

const COLOURS: [&str; 5] = ["#4477aa", "#66ccee", "#228833", "#ccbb44", "#ee6677"];

pub fn svg(results: &[Result]) -> String {
    let contestants = results
        .iter()
        .take_while(|result| result.set == results[0].set)
        .count();
    let largest = results.iter().map(|result| result.ratio.third);
    let largest = largest.fold(1.0, f64::max).ceil();
    let mut svg = format!(
        "<svg xmlns=\"http://www.w3.org/2000/svg\" viewBox=\"0 0 {WIDTH} {HEIGHT}\" font-family=\"sans-serif\" font-size=\"12\">\n\
         <rect width=\"{WIDTH}\" height=\"{HEIGHT}\" fill=\"white\"/>\n"
    );
    svg += &text(
        LEFT,
        24.0,
        "start",
        &format!(
            "Time to read a head, where {} takes 1: median of all rounds, with quartiles",
            results[0].contestant
        ),
    );
    svg += &scale(largest);
    let sets = results.chunks(contestants);
    let width = (WIDTH as f64 - LEFT) / sets.len() as f64;
    for (number, set) in sets.enumerate() {
        svg += &group(set, LEFT + number as f64 * width, width - GAP, largest);
    }
    svg += &legend(&results[..contestants]);
    svg + "</svg>\n"
}

fn height(ratio: f64, largest: f64) -> f64 {
    BOTTOM - ratio / largest * (BOTTOM - TOP)
}

fn text(x: f64, y: f64, anchor: &str, text: &str) -> String {
    format!("<text x=\"{x:.1}\" y=\"{y:.1}\" text-anchor=\"{anchor}\">{text}</text>\n")
}

/// A line at every whole ratio.
fn scale(largest: f64) -> String {
    let mut svg = String::new();
    for ratio in 0..=largest as usize {
        let y = height(ratio as f64, largest);
        let right = WIDTH as f64 - GAP;
        let _ = writeln!(
            svg,
            "<path d=\"M{LEFT} {y:.1}H{right}\" stroke=\"#dddddd\"/>"
        );
        svg += &text(LEFT - 8.0, y + 4.0, "end", &ratio.to_string());
    }
    svg
}

/// The bars of one set of heads, with its name below them.
fn group(set: &[Result], left: f64, width: f64, largest: f64) -> String {
    let mut svg = String::new();
    let bar = width / set.len() as f64;
    for (number, result) in set.iter().enumerate() {
        let x = left + number as f64 * bar;
        let top = height(result.ratio.second, largest);
        let colour = COLOURS[number % COLOURS.len()];
        let _ = writeln!(
            svg,
            "<rect x=\"{x:.1}\" y=\"{top:.1}\" width=\"{:.1}\" height=\"{:.1}\" fill=\"{colour}\"/>",
            bar - 2.0,
            BOTTOM - top
        );
        let middle = x + bar / 2.0 - 1.0;
        let [low, high] =
            [result.ratio.first, result.ratio.third].map(|ratio| height(ratio, largest));
        let _ = writeln!(
            svg,
            "<path d=\"M{middle:.1} {low:.1}V{high:.1}\" stroke=\"black\"/>"
        );
        svg += &text(
            middle,
            high - 4.0,
            "middle",
            &format!("{:.2}", result.ratio.second),
        );
    }
    svg + &text(left + width / 2.0, BOTTOM + 18.0, "middle", &set[0].set)
}

/// The colour of each contestant.
fn legend(contestants: &[Result]) -> String {
    let mut svg = String::new();
    let width = (WIDTH as f64 - LEFT) / contestants.len() as f64;
    for (number, result) in contestants.iter().enumerate() {
        let x = LEFT + number as f64 * width;
        let colour = COLOURS[number % COLOURS.len()];
        let _ = writeln!(
            svg,
            "<rect x=\"{x:.1}\" y=\"382\" width=\"12\" height=\"12\" fill=\"{colour}\"/>"
        );
        svg += &text(x + 18.0, 392.0, "start", &result.contestant);
    }
    svg
}

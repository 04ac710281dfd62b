//! The results as a table, in a form that is Markdown too.

use crate::statistics::Result;
use std::array;

pub fn text(results: &[Result]) -> String {
    let mut rows = vec![HEADINGS.map(String::from)];
    rows.extend(results.iter().map(row));
    let widths: [usize; COLUMNS] = array::from_fn(|column| {
        let widths = rows.iter().map(|row| row[column].len());
        widths.max().unwrap_or(0)
    });
    rows.insert(1, widths.map(|width| "-".repeat(width)));
    let table: String = rows.iter().map(|row| line(row, &widths)).collect();
    let base = &results[0].contestant;
    format!("ratio: the time divided by that of {base} in the same round\n\n{table}")
}

const COLUMNS: usize = 6;

const HEADINGS: [&str; COLUMNS] = [
    "head",
    "contestant",
    "least ns",
    "median ns",
    "bytes/ns",
    "ratio (quartiles)",
];

fn row(result: &Result) -> [String; COLUMNS] {
    let ratio = &result.ratio;
    [
        result.set.clone(),
        result.contestant.clone(),
        format!("{:.1}", result.least),
        format!("{:.1}", result.median),
        format!("{:.2}", result.length as f64 / result.median),
        format!(
            "{:.2} ({:.2} to {:.2})",
            ratio.second, ratio.first, ratio.third
        ),
    ]
}

fn line(row: &[String], widths: &[usize]) -> String {
    let cells = row.iter().zip(widths);
    let cells: String = cells
        .map(|(cell, &width)| format!(" {cell:width$} |"))
        .collect();
    format!("|{cells}\n")
}

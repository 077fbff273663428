//! The tables, as Markdown that is readable as text.

use crate::measure::{Spread, ROUNDS};
use crate::rows::{thousands, Measured, Row};
use second::pack::USUAL_LIMIT;

/// What the caller knows of the run.
pub struct Run<'a> {
    pub date: &'a str,
    pub compiler: &'a str,
    pub lto: &'a str,
}

/// The measured part of docs/BENCHMARK.md.
pub fn measured_part(measured: &Measured, run: &Run) -> String {
    let rows = &measured.rows;
    [
        how_measured(run, rows[0].passes.len()),
        summary(rows),
        table(&COLUMNS, rows.iter().map(row_cells).collect()),
        "![The ratio of each row](benchmark.svg)\n".to_string(),
        deferred_part(&measured.deferred),
        growth_part(rows),
    ]
    .join("\n")
}

fn how_measured(run: &Run, passes: usize) -> String {
    format!(
        "Measured {} on {}. The second program is built by {} with `opt-level = 3`, one codegen unit, \
         link-time optimisation {} and the usual target, the archive by `rt lib`. Repeat it with \
         `bench/run --write`.\n\n\
         Both sides run in one process on the same input, in turn, in {} rounds, in each of them twice. The \
         time of a pass is the median of its turns. There are {} passes, and a time below is the median of the \
         passes. Where code lies in the 64-octet lines of memory changes its time, that of a short loop most; \
         so the passes take turns with four executables, in which the code of both sides is shifted by 0, 16, \
         32 and 48 octets. Ratio is the second program's time divided by the archive's in the same pass: from 1 on \
         the archive is at least as fast. Control is the second program's time at its first turns divided by \
         that at its other turns in the same pass: what it is away from 1 is other work on the machine. Of \
         both the table has the median of the passes and their middle half, from the lower to the upper \
         quartile. Where the middle halves of ratio and control meet, the row does not tell the two programs \
         apart.\n\n\
         Each row also checks that both sides give the same answers and octets. Buffers are not cleared \
         between calls. A train's time is that of all its calls, the last one, which finds nothing left, too; \
         its octets are those of all its messages. At limit {} its calls pass 0, which is read as that \
         limit; any other limit they pass as it is. In a row named refuse the last field of the octets, the last \
         entry of a list or the last pair of a sheet is at fault, so that all before it is read and its place is \
         found; multicast says that it is a source in 224.0.0.0/4, or in ff00::/8. In a row of seldom sources they \
         are from 240.0.0.0 to 247.255.255.255, and 0 in every other 32 records of the simple message; elsewhere \
         they are from 1.0.0.0 to 223.255.255.255, or of 2001:db8::/32, and seldom 0. Rows of IPv6 are named so, \
         all others are IPv4 or of no family; the checksums of IPv6 include the pseudo-header. A row with a number \
         of rows is a call on a table with so many in use, its records; the table goes to both sides by value, \
         whole. A full sheet has as many entries as its form allows, and no form is named where it is the one that \
         is written. A row named report reads a file \
         in memory, of good messages, each after its length; 1,000 divided by its ns/octet is megabytes a second.\n",
        run.date,
        machine(),
        run.compiler,
        run.lto,
        ROUNDS,
        passes,
        USUAL_LIMIT
    )
}

/// Processor and cores, as far as the system tells.
fn machine() -> String {
    let text = std::fs::read_to_string("/proc/cpuinfo").unwrap_or_default();
    let model =
        text.lines().find(|line| line.starts_with("model name")).and_then(|line| line.split_once(':'));
    let model = model.map_or("a processor without a name", |(_, model)| model.trim());
    let cores = std::thread::available_parallelism().map_or(1, |n| n.get());
    format!("{model}, {cores} cores, {}", std::env::consts::ARCH)
}

/// The rows under 1, as two digits after the point show it.
fn summary(rows: &[Row]) -> String {
    let under: Vec<&Row> = rows.iter().filter(|row| row.ratio().median < 0.995).collect();
    if under.is_empty() {
        return format!("All {} rows have a median ratio of at least 1.00.\n", rows.len());
    }
    let apart = under.iter().filter(|row| row.ratio().is_apart_from(&row.control())).count();
    let lines: Vec<String> = under.iter().map(|row| summary_line(row)).collect();
    format!(
        "{} of {} rows have a median ratio under 1.00; in {apart} of them the middle halves of ratio and \
         control do not meet:\n\n{}",
        under.len(),
        rows.len(),
        lines.concat()
    )
}

fn summary_line(row: &Row) -> String {
    let (ratio, control) = (row.ratio(), row.control());
    format!(
        "- {}: {:.2} ({}), control {:.2} ({})\n",
        row.name(),
        ratio.median,
        middle_half(&ratio),
        control.median,
        middle_half(&control)
    )
}

/// From the lower to the upper quartile.
fn middle_half(spread: &Spread) -> String {
    format!("{:.2}–{:.2}", spread.lower, spread.upper)
}

const COLUMNS: [&str; 11] = [
    "row",
    "octets",
    "records",
    "archive ns/octet",
    "second ns/octet",
    "archive ns/record",
    "second ns/record",
    "ratio, median",
    "ratio, middle half",
    "control, median",
    "control, middle half",
];

fn row_cells(row: &Row) -> Vec<String> {
    let records = if row.records == 0 { "–".to_string() } else { thousands(row.records) };
    let mut cells = vec![
        row.name(),
        thousands(row.octets),
        records,
        each(row.archive(), row.octets, 3),
        each(row.second(), row.octets, 3),
        each(row.archive(), row.records, 2),
        each(row.second(), row.records, 2),
    ];
    cells.extend(spread_cells(row));
    cells
}

/// The last four columns.
fn spread_cells(row: &Row) -> Vec<String> {
    let cells = |spread: Spread| [format!("{:.2}", spread.median), middle_half(&spread)];
    [cells(row.ratio()), cells(row.control())].concat()
}

/// Nanoseconds for each of `n`, with so many digits.
fn each(ns: f64, n: usize, digits: usize) -> String {
    if n == 0 {
        return "–".to_string();
    }
    format!("{:.digits$}", ns / n as f64)
}

fn deferred_part(rows: &[Row]) -> String {
    let cells = rows.iter().map(|row| {
        let times = [each(row.archive(), row.octets, 3), each(row.second(), row.octets, 3)];
        [vec![row.name()], times.to_vec(), spread_cells(row)].concat()
    });
    let columns = [&["row", "archive ns/octet", "deferred ns/octet"], &COLUMNS[7..]].concat();
    format!(
        "## The checksum's limit\n\n\
         In all rows above both sides add the carry after each word. The second program can also fold all \
         carries in at the end; this deferred sum is the limit that the word by word sum gives up.\n\n{}",
        table(&columns, cells.collect())
    )
}

/// A line for each two neighbouring sizes of a series.
fn growth_part(rows: &[Row]) -> String {
    let cells: Vec<Vec<String>> =
        rows.windows(2).filter(|pair| pair[0].series == pair[1].series).map(growth_cells).collect();
    let columns = ["series", "from", "to", "octets", "entries looked at", "archive time", "second time"];
    format!(
        "## How time grows with size\n\n\
         Each line goes from one size of a series to the next, and each number says how many times as much \
         the larger row has. A single call looks at each octet a fixed number of times, so its time should \
         grow as its octets do, or less where the fixed part of a call still counts; more, with mixed runs, \
         is likely the branch predictor, which learns a short message by heart and a long one not. A train \
         of n entries is not linear in n: refusal 7 makes each packing call look at every entry from its \
         start on, so a train of m messages looks at some n(m + 1) / 2 entries. The smaller the limit, the \
         more messages, and the more this pass counts; at one message for the whole list it is n. A table is \
         always as large; a call on it looks at every row, and whether its address is there twice.\n\n{}",
        table(&columns, cells)
    )
}

fn growth_cells(pair: &[Row]) -> Vec<String> {
    let (from, to) = (&pair[0], &pair[1]);
    let looked_at = match (from.looked_at, to.looked_at) {
        (Some(a), Some(b)) => times(b as f64 / a as f64),
        _ => "–".to_string(),
    };
    vec![
        from.series.clone(),
        from.size.clone(),
        to.size.clone(),
        times(to.octets as f64 / from.octets as f64),
        looked_at,
        times(to.archive() / from.archive()),
        times(to.second() / from.second()),
    ]
}

fn times(n: f64) -> String {
    format!("{n:.1}")
}

/// A Markdown table, its columns as wide as their widest cell; all but the first stand to the right.
fn table(columns: &[&str], rows: Vec<Vec<String>>) -> String {
    let width =
        |i: usize| rows.iter().map(|row| row[i].chars().count()).chain([columns[i].len()]).max().unwrap_or(0);
    let widths: Vec<usize> = (0..columns.len()).map(width).collect();
    let head: Vec<String> = columns.iter().map(|name| name.to_string()).collect();
    let mut text = line(&head, &widths);
    text.push_str(&rule(&widths));
    for row in &rows {
        text.push_str(&line(row, &widths));
    }
    text
}

fn line(cells: &[String], widths: &[usize]) -> String {
    let mut text = String::from("|");
    for (i, (cell, &width)) in cells.iter().zip(widths).enumerate() {
        if i == 0 {
            text.push_str(&format!(" {cell:<width$} |"));
        } else {
            text.push_str(&format!(" {cell:>width$} |"));
        }
    }
    text.push('\n');
    text
}

fn rule(widths: &[usize]) -> String {
    let mut text = String::from("|");
    for (i, width) in widths.iter().enumerate() {
        let end = if i == 0 { '-' } else { ':' };
        text.push_str(&format!("{}{end}|", "-".repeat(width + 1)));
    }
    text.push('\n');
    text
}

//! What passes measured, as lines of text: one line for each row and pass, its fields parted by tabs.

use crate::measure::Times;
use crate::rows::{Measured, Row};
use std::str::FromStr;

const ROW: &str = "row";
const DEFERRED: &str = "deferred";
const NOTHING: &str = "-";

pub fn text(measured: &Measured) -> String {
    let rows = measured.rows.iter().flat_map(|row| lines(ROW, row));
    let deferred = measured.deferred.iter().flat_map(|row| lines(DEFERRED, row));
    rows.chain(deferred).collect()
}

fn lines<'a>(part: &'a str, row: &'a Row) -> impl Iterator<Item = String> + 'a {
    let looked_at = row.looked_at.map_or(NOTHING.to_string(), |entries| entries.to_string());
    let Row { series, size, octets, records, .. } = row;
    row.passes.iter().map(move |times| {
        let Times { archive, second, turns: [first, other] } = times;
        format!(
            "{part}\t{series}\t{size}\t{octets}\t{records}\t{looked_at}\t{archive}\t{second}\t{first}\t{other}\n"
        )
    })
}

/// All passes, rows in the order of the first one; nothing where a line is not one of these, or there is none.
pub fn read(text: &str) -> Option<Measured> {
    let mut measured = Measured { rows: Vec::new(), deferred: Vec::new() };
    for line in text.lines() {
        let fields: Vec<&str> = line.split('\t').collect();
        let (part, fields) = fields.split_first()?;
        let rows = match *part {
            ROW => &mut measured.rows,
            DEFERRED => &mut measured.deferred,
            _ => return None,
        };
        add(rows, row(fields)?);
    }
    (!measured.rows.is_empty()).then_some(measured)
}

fn row(fields: &[&str]) -> Option<Row> {
    let [series, size, octets, records, looked_at, archive, second, first, other] = *fields else {
        return None;
    };
    let looked_at = if looked_at == NOTHING { None } else { Some(number(looked_at)?) };
    let turns = [number(first)?, number(other)?];
    let times = Times { archive: number(archive)?, second: number(second)?, turns };
    Some(Row {
        series: series.to_string(),
        size: size.to_string(),
        octets: number(octets)?,
        records: number(records)?,
        looked_at,
        passes: vec![times],
    })
}

fn number<N: FromStr>(text: &str) -> Option<N> {
    text.parse().ok()
}

/// A pass more of a row, or a new row.
fn add(rows: &mut Vec<Row>, next: Row) {
    match rows.iter_mut().find(|row| row.name() == next.name()) {
        Some(row) => row.passes.extend(next.passes),
        None => rows.push(next),
    }
}

#[cfg(test)]
mod tests {
    use super::*;

    const PASS: &str = "row\tread\tlimit 38\t38\t1\t-\t1.5\t2\t3\t4\n\
                        row\tpack\t2 entries\t76\t2\t3\t5\t6\t7\t8.25\n\
                        deferred\tchecksum\t38 octets\t38\t0\t-\t1\t2\t3\t4\n";

    #[test]
    fn one_pass_and_two() {
        assert_eq!(text(&read(PASS).unwrap()), PASS);
        let two = read(&PASS.repeat(2)).unwrap();
        assert_eq!((two.rows.len(), two.deferred.len()), (2, 1));
        assert!(two.rows.iter().chain(&two.deferred).all(|row| row.passes.len() == 2));
        assert_eq!((two.rows[1].looked_at, two.rows[1].passes[1].turns), (Some(3), [7.0, 8.25]));
    }

    #[test]
    fn faults() {
        for text in [
            "",
            "row",
            "other\tread\tlimit 38\t38\t1\t-\t1\t2\t3\t4",
            "row\tread\tlimit\tx\t1\t-\t1\t2\t3\t4",
        ] {
            assert!(read(text).is_none(), "{text}");
        }
    }
}

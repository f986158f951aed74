//! An earlier output of this program, read from a file: its tables, or a text
//! that quotes them.

use crate::table::COLUMNS;
use std::fs;
use std::path::Path;

struct Row {
    cells: Vec<String>,
    library: f64,
    ratio: f64,
    taken: bool,
}

pub struct Earlier {
    rows: Vec<Row>,
}

/// The cells of a line of a table.
fn cells(line: &str) -> Option<Vec<String>> {
    let inner = line.trim().strip_prefix('|')?.strip_suffix('|')?;
    Some(inner.split('|').map(|cell| cell.trim().into()).collect())
}

fn is_rule(cells: &[String]) -> bool {
    let is_dashes = |cell: &String| {
        let dashes = cell.trim_matches(':');
        !dashes.is_empty() && dashes.bytes().all(|byte| byte == b'-')
    };
    cells.iter().all(is_dashes)
}

/// A figure: it may be shown as 0.
fn figure(cell: &str) -> Option<f64> {
    let figure = cell.parse().ok()?;
    (0.0..1e15).contains(&figure).then_some(figure)
}

fn row(cells: Vec<String>) -> Option<Row> {
    let [name, library, other, ratio] = cells.get(..COLUMNS.len())? else {
        return None;
    };
    figure(other)?;
    let (library, ratio) = (figure(library)?, figure(ratio)?);
    (!name.is_empty()).then_some(Row {
        library,
        ratio,
        taken: false,
        cells: cells[..COLUMNS.len()].to_vec(),
    })
}

impl Earlier {
    pub fn read(file: &Path) -> Result<Earlier, String> {
        let text = fs::read_to_string(file)
            .map_err(|error| format!("{} cannot be read: {error}", file.display()))?;
        Earlier::of(&text).map_err(|why| format!("{}{why}", file.display()))
    }

    fn of(text: &str) -> Result<Earlier, String> {
        let mut earlier = Earlier { rows: Vec::new() };
        let mut lines = (1..).zip(text.lines());
        while let Some((number, line)) = lines.next() {
            let found =
                cells(line).is_some_and(|cells| cells.starts_with(&COLUMNS.map(String::from)));
            if found {
                let rule = lines.next().and_then(|(_, line)| cells(line));
                if !rule.is_some_and(|cells| is_rule(&cells)) {
                    return Err(format!(", line {number}: no table stands below this line"));
                }
                earlier.add_rows(&mut lines)?;
            }
        }
        if earlier.rows.is_empty() {
            return Err(" has no table of bench/run".to_string());
        }
        Ok(earlier)
    }

    /// The rows of a table, to the first line that is none of a table.
    fn add_rows<'a>(
        &mut self,
        lines: &mut impl Iterator<Item = (usize, &'a str)>,
    ) -> Result<(), String> {
        for (number, line) in lines {
            let Some(cells) = cells(line) else {
                break;
            };
            let row = row(cells).ok_or(format!(", line {number}: not a row of bench/run"))?;
            if self.rows.iter().any(|seen| seen.cells[0] == row.cells[0]) {
                return Err(format!(", line {number}: this row stands there twice"));
            }
            self.rows.push(row);
        }
        Ok(())
    }

    /// The library's figure and the ratio of a row.
    pub fn take(&mut self, name: &str) -> Option<(f64, f64)> {
        let row = self.rows.iter_mut().find(|row| row.cells[0] == name)?;
        row.taken = true;
        Some((row.library, row.ratio))
    }

    /// The rows that were not taken.
    pub fn rest(self) -> Vec<Vec<String>> {
        let rest = self.rows.into_iter().filter(|row| !row.taken);
        rest.map(|row| row.cells).collect()
    }
}

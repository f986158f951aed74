//! The tables, in Markdown, on standard output: a row for each comparison.
//! Beside an earlier output a row has the earlier figure and the change too.

use crate::earlier::Earlier;
use std::hint::black_box;
use std::time::{Duration, Instant};

/// The columns that every table has. Rows are known by their names.
pub const COLUMNS: [&str; 4] = ["row", "library", "other", "ratio"];

#[derive(Clone, Copy, PartialEq)]
pub enum Unit {
    Milliseconds,
    Microseconds,
    Nanoseconds,
    Instructions,
}

impl Unit {
    fn of(self, time: Duration) -> f64 {
        let scale = match self {
            Unit::Milliseconds => 1e3,
            Unit::Microseconds => 1e6,
            Unit::Nanoseconds => 1e9,
            Unit::Instructions => unreachable!("no time is counted in instructions"),
        };
        time.as_secs_f64() * scale
    }

    fn show(self, figure: f64) -> String {
        match self {
            Unit::Milliseconds | Unit::Microseconds => format!("{figure:.2}"),
            Unit::Nanoseconds => format!("{figure:.1}"),
            Unit::Instructions => format!("{figure:.0}"),
        }
    }
}

/// Three digits, or three places behind the point.
fn show_ratio(ratio: f64) -> String {
    match ratio {
        r if r < 1.0 => format!("{r:.3}"),
        r if r < 10.0 => format!("{r:.2}"),
        r => format!("{r:.1}"),
    }
}

fn show_change(before: f64, after: f64) -> String {
    let change = 100.0 * (after / before - 1.0);
    match change.is_finite() {
        true if change.abs() < 0.05 => "0.0 %".to_string(),
        true => format!("{change:+.1} %"),
        false => "-".to_string(),
    }
}

struct Row {
    name: String,
    library: f64,
    other: f64,
}

impl Row {
    fn ratio(&self) -> f64 {
        self.library / self.other
    }
}

/// A table with its heading.
pub struct Table {
    heading: String,
    unit: Unit,
    passes: u32,
    rows: Vec<Row>,
}

fn time<T>(work: impl FnOnce() -> T) -> Duration {
    let begin = Instant::now();
    black_box(work());
    begin.elapsed()
}

impl Table {
    pub fn new(heading: &str, unit: Unit, passes: u32) -> Table {
        Table {
            heading: heading.to_string(),
            unit,
            passes,
            rows: Vec::new(),
        }
    }

    pub fn add(&mut self, name: String, library: f64, other: f64) {
        self.rows.push(Row {
            name,
            library,
            other,
        });
    }

    /// Times both sides in turns, so many calls in a pass.
    pub fn compare<A, B>(
        &mut self,
        name: String,
        calls: usize,
        mut library: impl FnMut() -> A,
        mut other: impl FnMut() -> B,
    ) {
        let mut least = (Duration::MAX, Duration::MAX);
        for _ in 0..self.passes {
            least.0 = least.0.min(time(&mut library));
            least.1 = least.1.min(time(&mut other));
        }
        let each = |time: Duration| self.unit.of(time) / calls as f64;
        self.add(name, each(least.0), each(least.1));
    }

    fn cells(&self, row: &Row) -> Vec<String> {
        vec![
            row.name.clone(),
            self.unit.show(row.library),
            self.unit.show(row.other),
            show_ratio(row.ratio()),
        ]
    }

    /// The earlier figure and the change: of the library's instructions, which
    /// are the same in every run, or else of the ratio.
    fn beside(&self, row: &Row, earlier: &mut Earlier) -> [String; 2] {
        let Some((library, ratio)) = earlier.take(&row.name) else {
            return ["-".to_string(), "new".to_string()];
        };
        if self.unit == Unit::Instructions {
            let change = show_change(library, row.library.round());
            [self.unit.show(library), change]
        } else {
            [show_ratio(ratio), show_change(ratio, row.ratio())]
        }
    }

    fn print(&self, begun: bool, earlier: &mut Option<Earlier>) {
        let mut columns = COLUMNS.to_vec();
        if earlier.is_some() {
            let what = if self.unit == Unit::Instructions {
                "earlier library"
            } else {
                "earlier ratio"
            };
            columns.extend([what, "change"]);
        }
        let cells = |row: &Row| {
            let mut cells = self.cells(row);
            if let Some(earlier) = earlier.as_mut() {
                cells.extend(self.beside(row, earlier));
            }
            cells
        };
        let rows: Vec<_> = self.rows.iter().map(cells).collect();
        print_table(begun, &self.heading, &columns, &rows);
    }
}

/// A line of cells as wide as their columns, the first to the left.
fn print_line(cells: &[String], widths: &[usize]) {
    print!("|");
    for (place, (cell, &width)) in cells.iter().zip(widths).enumerate() {
        if place == 0 {
            print!(" {cell:<width$} |");
        } else {
            print!(" {cell:>width$} |");
        }
    }
    println!();
}

/// A blank line parts the table from what was begun before it.
fn print_table(begun: bool, heading: &str, columns: &[&str], rows: &[Vec<String>]) {
    let columns: Vec<String> = columns.iter().map(|column| column.to_string()).collect();
    let width = |place: usize| {
        let rows = rows.iter().chain([&columns]);
        rows.map(|row| row[place].chars().count())
            .max()
            .unwrap_or(0)
    };
    let widths: Vec<usize> = (0..columns.len()).map(width).collect();
    if begun {
        println!();
    }
    println!("### {heading}\n");
    print_line(&columns, &widths);
    print!("|");
    for (place, width) in widths.iter().enumerate() {
        let end = if place == 0 { "-" } else { ":" };
        print!("{}{end}|", "-".repeat(width + 1));
    }
    println!();
    for row in rows {
        print_line(row, &widths);
    }
}

/// The tables as they are printed, beside an earlier output if there is one.
pub struct Output {
    earlier: Option<Earlier>,
    begun: bool,
}

impl Output {
    pub fn new(earlier: Option<Earlier>) -> Output {
        Output {
            earlier,
            begun: false,
        }
    }

    /// Prints a table, unless it has no row.
    pub fn print(&mut self, table: &Table) {
        if !table.rows.is_empty() {
            table.print(self.begun, &mut self.earlier);
            self.begun = true;
        }
    }

    /// Prints the rows of the earlier output that this one does not have. The
    /// first column's name tells them from rows.
    pub fn end(self) {
        let gone = self.earlier.map_or(Vec::new(), Earlier::rest);
        if !gone.is_empty() {
            let mut columns = COLUMNS;
            columns[0] = "gone";
            print_table(
                self.begun,
                "Rows of the earlier output alone",
                &columns,
                &gone,
            );
        }
    }
}

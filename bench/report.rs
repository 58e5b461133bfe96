//! Prints figures as text, and as tables for a page.
use crate::measure::{Figures, Plan, measure};
use crate::operations::{Operation, PROVED};
use std::fs::read_to_string;
use std::time::{SystemTime, UNIX_EPOCH};

/// Returns a number with a comma before each three digits.
pub fn grouped(number: usize) -> String {
    let digits = number.to_string();
    let mut text = String::new();
    for (i, digit) in digits.chars().enumerate() {
        if i > 0 && (digits.len() - i).is_multiple_of(3) {
            text.push(',');
        }
        text.push(digit);
    }
    text
}

/// Returns a time with about three digits.
fn nanoseconds(time: f64) -> String {
    match time {
        100.0.. => format!("{time:.0}"),
        10.0.. => format!("{time:.1}"),
        0.0.. => format!("{time:.2}"),
        _ => "?".to_string(),
    }
}

/// Returns the name of the map with this many keys.
pub fn map_name(keys: usize) -> &'static str {
    match keys {
        1 => "IdHashMap",
        2 => "BiHashMap",
        _ => "TriHashMap",
    }
}

/// The figures of one map, for each operation at each size.
pub struct Map {
    name: &'static str,
    /// The names of the other sides, from the side 1 on.
    others: Vec<&'static str>,
    sizes: Vec<usize>,
    rows: Vec<(&'static str, Vec<Figures>)>,
}

/// Measures the map with this name. There is at least one operation, and all have the same other sides.
pub fn measured<const N: usize>(
    name: &'static str,
    operations: &[Operation<N>],
    sizes: &[usize],
    plan: Plan,
) -> Map {
    let names = operations.iter().map(|operation| operation.name);
    let others = operations[0].others.iter();
    Map {
        name,
        others: others.map(|(name, _)| *name).collect(),
        sizes: sizes.to_vec(),
        rows: names.zip(measure(operations, sizes, plan)).collect(),
    }
}

/// Returns the ratio for a table, with a mark if the rounds differ much.
fn marked(figures: &Figures, side: usize) -> String {
    if !figures.has(side) {
        return "-".to_string();
    }
    figures.ratio(side).map_or("?".to_string(), |ratio| {
        let differs = ratio.highest > 1.5 * ratio.lowest;
        format!("{}{:.2}", if differs { "~" } else { "" }, ratio.median)
    })
}

/// Returns the place of the size at which a table has the time too: 1,000 items, or else the size in the middle.
fn place_of_time(sizes: &[usize]) -> usize {
    let thousand = sizes.iter().position(|items| *items == 1_000);
    thousand.unwrap_or(sizes.len() / 2)
}

impl Map {
    /// Prints the times of all sides and their ratios at each size, for a terminal.
    pub fn print_text(&self) {
        for (at, items) in self.sizes.iter().enumerate() {
            let title = format!("{}, {} items", self.name, grouped(*items));
            print!("{title:<36}{:>9}", "here ns");
            for name in &self.others {
                print!(
                    "{:>9}{:>8}  {:<12}",
                    format!("{name} ns"),
                    "ratio",
                    "spread"
                );
            }
            println!();
            for (name, figures) in &self.rows {
                let figures = &figures[at];
                print!("{name:<36}{:>9}", nanoseconds(figures.time(0)));
                for side in 1..=self.others.len() {
                    let (time, ratio) = (nanoseconds(figures.time(side)), marked(figures, side));
                    let spread = figures.ratio(side).map_or(String::new(), |ratio| {
                        format!("{:.2}..{:.2}", ratio.lowest, ratio.highest)
                    });
                    print!("{time:>9}{ratio:>8}  {spread:<12}");
                }
                println!();
            }
            println!();
        }
    }

    /// Prints a row for each operation: its time here at one size, and for each of these sides its ratio at each size.
    fn print(&self, sides: &[usize]) {
        let widths = self.sizes.iter().map(|items| grouped(*items).len() + 1);
        let column = widths.fold(8, usize::max);
        let wide = self.rows.iter().map(|(name, _)| name.len()).max();
        let wide = wide.unwrap_or_default().max(28);
        let line = |first: &str, time: &str, cell: &dyn Fn(usize, usize) -> String| {
            print!("{first:<wide$}{time:>7}");
            for side in sides {
                for at in 0..self.sizes.len() {
                    print!("{:>column$}", cell(*side, at));
                }
            }
            println!();
        };
        print!("{:<wide$}{:>7}", format!("{}:", self.name), "");
        for side in sides {
            let head = format!("beside {}", self.others[side - 1]);
            print!("{head:>width$}", width = column * self.sizes.len());
        }
        println!();
        line("", "ns", &|_, at| grouped(self.sizes[at]));
        for (name, figures) in &self.rows {
            let time = nanoseconds(figures[place_of_time(&self.sizes)].time(0));
            line(name, &time, &|side, at| marked(&figures[at], side));
        }
    }

    /// Prints the times here at each size, as a table for a page.
    pub fn print_times(&self) {
        let heads = self.sizes.iter().map(|items| grouped(*items)).collect();
        print_head(format!("`{}`, ns an item", self.name), heads);
        for (name, figures) in &self.rows {
            let cells = figures.iter().map(|figures| nanoseconds(figures.time(0)));
            print_row([name.to_string()].into_iter().chain(cells));
        }
        println!();
    }

    /// Returns the rows with a ratio above a limit at some size, each with the highest of these ratios and its size.
    fn above(&self, limit: f64, side: usize) -> String {
        let named = self.rows.iter().filter_map(|(name, figures)| {
            let ratios = figures.iter().zip(&self.sizes);
            let ratios = ratios.filter_map(|(it, items)| Some((it.ratio(side)?.median, items)));
            let (highest, items) = ratios.max_by(|a, b| a.0.total_cmp(&b.0))?;
            (highest > limit).then(|| format!("{name} ({highest:.2} at {})", grouped(*items)))
        });
        named.collect::<Vec<String>>().join("; ")
    }
}

pub fn print_row(cells: impl Iterator<Item = String>) {
    let cells: Vec<String> = cells.collect();
    println!("| {} |", cells.join(" | "));
}

/// Prints the head of a table: its first cell, and those after it.
pub fn print_head(first: String, others: Vec<String>) {
    let line = vec!["---".to_string(); others.len() + 1];
    print_row([first].into_iter().chain(others));
    println!("|{}|", line.join("|"));
}

/// Prints the ratios of the maps in the form of a page: a table for each map and each other side, or, if these are
/// to be together, one for each map with its first two.
pub fn print_table(maps: &[Map], together: bool) {
    let Some(sizes) = maps.first().map(|map| &map.sizes) else {
        return;
    };
    let at = grouped(sizes[place_of_time(sizes)]);
    println!("`ns`: here, at {at}. `~`: a round's ratio is over 1.5 times another's.");
    println!("`?`: lost in noise. `-`: no such call, or not timed.\n\n```");
    for (i, map) in maps.iter().enumerate() {
        let sides: Vec<usize> = (1..=map.others.len()).collect();
        let parts: Vec<&[usize]> = if together {
            vec![&sides[..sides.len().min(2)]]
        } else {
            sides.chunks(1).collect()
        };
        for (j, part) in parts.into_iter().enumerate() {
            if i + j > 0 {
                println!();
            }
            map.print(part);
        }
    }
    println!("```\n");
    let all = maps
        .iter()
        .flat_map(|map| map.others.iter().zip(1..).map(move |it| (map, it)));
    for (map, (name, side)) in all {
        let limit = match *name {
            "crate" if !together => 1.2,
            PROVED => 1.15,
            _ => continue,
        };
        let above = map.above(limit, side);
        if !above.is_empty() {
            println!(
                "`{}`, rows above {limit} of {name}, each with its highest ratio: {above}.\n",
                map.name
            );
        }
    }
}

/// Returns the date, from the number of days since 1 January 1970.
fn date(days: i64) -> String {
    let months = [
        "March",
        "April",
        "May",
        "June",
        "July",
        "August",
        "September",
        "October",
        "November",
        "December",
        "January",
        "February",
    ];
    // Here a year begins in March, so that the leap day is its last day.
    let since = days + 719_468;
    let (era, day) = (since / 146_097, since % 146_097);
    let year = (day - day / 1_460 + day / 36_524 - day / 146_096) / 365;
    let day = day - (365 * year + year / 4 - year / 100);
    let month = (5 * day + 2) / 153;
    let year = era * 400 + year + i64::from(month >= 10);
    format!(
        "{} {} {year}",
        day - (153 * month + 2) / 5 + 1,
        months[month as usize]
    )
}

fn load() -> String {
    let text = read_to_string("/proc/loadavg").unwrap_or_default();
    text.split(' ').next().unwrap_or_default().to_string()
}

/// Returns when and on what machine the figures were measured.
pub fn machine() -> String {
    let seconds = SystemTime::now()
        .duration_since(UNIX_EPOCH)
        .map_or(0, |t| t.as_secs());
    let processors = std::thread::available_parallelism().map_or(1, usize::from);
    let text = read_to_string("/proc/cpuinfo").unwrap_or_default();
    let name = text
        .lines()
        .find_map(|line| line.strip_prefix("model name"));
    let name = name.map_or("an unknown processor", |name| {
        name.trim_matches(['\t', ' ', ':'])
    });
    format!(
        "On {}, {name} ({processors} to run on), load {} when it began",
        date((seconds / 86_400) as i64),
        load(),
    )
}

/// Returns how the figures were measured, after what `machine` returned when that began.
pub fn circumstances(began: &str, how: &str) -> String {
    format!("{began}, {} when it ended: {how}.", load())
}

//! Draws a picture of the time an item by the number of items, with a panel for each of some operations and a row for
//! each map.
use crate::measure::{Figures, Plan, measure};
use crate::operations::{self, Operation};
use crate::report::{grouped, map_name};
use std::fmt::Write;

/// The numbers of items. The tables of std have the same load at each of them, 0.78.
pub const SIZES: [usize; 8] = [100, 400, 1_600, 6_400, 25_600, 102_400, 409_600, 819_200];

/// The operations of the panels, and the title of each panel.
const PANELS: [(&str, &str); 5] = [
    ("insert without room", "insert, growing"),
    ("look-up, hit", "look-up that hits"),
    ("look-up, miss", "look-up that misses"),
    ("removal", "removal"),
    ("overwrite, one a key", "overwrite, one item a key goes"),
];

const HERE: &str = "#1d5fa6";
const BY_HAND: &str = "#c4620d";
const INK: &str = "#2b2b2b";
const AXIS: &str = "#8a8a86";
const FAINT: &str = "#e3e3e0";

const PANEL: (f64, f64) = (196.0, 220.0);
const GAP: (f64, f64) = (30.0, 78.0);
const LEFT: f64 = 66.0;
const TOP: f64 = 120.0;

/// A panel: nanoseconds at each size.
struct Panel {
    keys: usize,
    title: &'static str,
    here: Vec<f64>,
    by_hand: Vec<f64>,
}

/// What one axis shows, on a logarithmic scale.
struct Span {
    from: f64,
    to: f64,
}

impl Span {
    /// Returns the place of a number on the axis, from 0 to 1.
    fn part(&self, number: f64) -> f64 {
        (number / self.from).log10() / (self.to / self.from).log10()
    }

    /// Returns the powers of ten, times this factor, that the axis shows.
    fn ticks(&self, times: f64) -> Vec<f64> {
        let powers = (0..=9).map(|power| times * 10f64.powi(power));
        let (from, to) = (self.from * 0.999, self.to * 1.001);
        powers.filter(|tick| (from..=to).contains(tick)).collect()
    }
}

/// The scales that all panels share.
struct Scales {
    items: Span,
    time: Span,
}

fn panels<const N: usize>(all: Vec<Operation<N>>, sizes: &[usize], plan: Plan) -> Vec<Panel> {
    let shown = |name: &str| PANELS.iter().find(|(shown, _)| *shown == name);
    let picked: Vec<Operation<N>> = all
        .into_iter()
        .filter(|o| shown(o.name).is_some())
        .collect();
    let figures = measure(&picked, sizes, plan);
    let panel = |(operation, figures): (&Operation<N>, &Vec<Figures>)| Panel {
        keys: N,
        title: shown(operation.name).map_or("", |(_, title)| title),
        here: figures.iter().map(|figures| figures.time(0)).collect(),
        by_hand: figures.iter().map(|figures| figures.time(1)).collect(),
    };
    picked.iter().zip(&figures).map(panel).collect()
}

fn text(out: &mut String, at: (f64, f64), anchor: &str, size: f64, bold: bool, words: &str) {
    let weight = if bold { "600" } else { "400" };
    let _ = writeln!(
        out,
        "<text x=\"{:.1}\" y=\"{:.1}\" text-anchor=\"{anchor}\" font-size=\"{size}\" \
         font-weight=\"{weight}\">{words}</text>",
        at.0, at.1
    );
}

fn line(out: &mut String, from: (f64, f64), to: (f64, f64), colour: &str, width: f64) {
    let _ = writeln!(
        out,
        "<line x1=\"{:.1}\" y1=\"{:.1}\" x2=\"{:.1}\" y2=\"{:.1}\" stroke=\"{colour}\" \
         stroke-width=\"{width}\"/>",
        from.0, from.1, to.0, to.1
    );
}

/// Draws a mark of a side: a disc for the maps here, a square for the others.
fn mark(out: &mut String, at: (f64, f64), colour: &str) {
    let (x, y) = at;
    let _ = if colour == HERE {
        writeln!(
            out,
            "<circle cx=\"{x:.1}\" cy=\"{y:.1}\" r=\"3.2\" fill=\"{colour}\"/>"
        )
    } else {
        let (x, y) = (x - 2.9, y - 2.9);
        writeln!(
            out,
            "<rect x=\"{x:.1}\" y=\"{y:.1}\" width=\"5.8\" height=\"5.8\" fill=\"{colour}\"/>"
        )
    };
}

/// Returns a number of items in few letters.
fn short(items: f64) -> String {
    match items {
        1e6.. => format!("{}M", items / 1e6),
        1e3.. => format!("{}k", items / 1e3),
        _ => items.to_string(),
    }
}

impl Scales {
    /// Returns the place of a time at a number of items in a panel.
    fn place(&self, corner: (f64, f64), items: f64, time: f64) -> (f64, f64) {
        let (part, height) = (self.items.part(items), self.time.part(time));
        (
            corner.0 + PANEL.0 * part,
            corner.1 + PANEL.1 * (1.0 - height),
        )
    }

    fn grid(&self, out: &mut String, corner: (f64, f64), has_times: bool) {
        for (i, tick) in self.items.ticks(1.0).into_iter().enumerate() {
            let (x, bottom) = self.place(corner, tick, self.time.from);
            line(out, (x, corner.1), (x, bottom), FAINT, 1.0);
            // There is only space for the name of every second tick.
            if i % 2 == 0 {
                text(out, (x, bottom + 17.0), "middle", 12.0, false, &short(tick));
            }
        }
        for step in [1.0, 2.0, 5.0] {
            for tick in self.time.ticks(step) {
                let (_, y) = self.place(corner, self.items.from, tick);
                let width = if step == 1.0 { 1.6 } else { 0.7 };
                line(out, (corner.0, y), (corner.0 + PANEL.0, y), FAINT, width);
                if has_times {
                    let label = grouped(tick as usize);
                    text(out, (corner.0 - 8.0, y + 4.0), "end", 12.0, false, &label);
                }
            }
        }
        let bottom = corner.1 + PANEL.1;
        line(
            out,
            (corner.0, bottom),
            (corner.0 + PANEL.0, bottom),
            AXIS,
            1.2,
        );
    }

    /// Draws a panel. The first one of a row has the name of the map and the times.
    fn panel(
        &self,
        out: &mut String,
        corner: (f64, f64),
        sizes: &[usize],
        panel: &Panel,
        is_first: bool,
    ) {
        let (x, y) = corner;
        self.grid(out, corner, is_first);
        if is_first {
            let name = format!("{}, nanoseconds", map_name(panel.keys));
            text(out, (14.0, y - 30.0), "start", 14.0, true, &name);
        }
        text(out, (x, y - 8.0), "start", 13.0, false, panel.title);
        self.curve(out, corner, sizes, (&panel.by_hand, BY_HAND));
        self.curve(out, corner, sizes, (&panel.here, HERE));
    }

    fn curve(&self, out: &mut String, corner: (f64, f64), sizes: &[usize], side: (&[f64], &str)) {
        let (times, colour) = side;
        let sound = sizes.iter().zip(times).filter(|(_, time)| **time > 0.0);
        let places: Vec<(f64, f64)> = sound
            .map(|(items, time)| self.place(corner, *items as f64, *time))
            .collect();
        let points = places.iter().map(|(x, y)| format!("{x:.1},{y:.1}"));
        let points: Vec<String> = points.collect();
        let _ = writeln!(
            out,
            "<polyline points=\"{}\" fill=\"none\" stroke=\"{colour}\" stroke-width=\"2\" \
             stroke-linejoin=\"round\"/>",
            points.join(" ")
        );
        for at in places {
            mark(out, at, colour);
        }
    }
}

/// Returns the span from the least to the greatest time, each rounded outwards to 1, 2 or 5 times a power of ten.
fn times_span(panels: &[Panel]) -> Span {
    let times = panels
        .iter()
        .flat_map(|panel| panel.here.iter().chain(&panel.by_hand));
    let sound: Vec<f64> = times.copied().filter(|time| *time > 0.0).collect();
    let (least, most) = (
        sound.iter().copied().fold(1e9, f64::min),
        sound.iter().copied().fold(1.0, f64::max),
    );
    let steps = (0..9).flat_map(|power| [1.0, 2.0, 5.0].map(|step| step * 10f64.powi(power)));
    let steps: Vec<f64> = steps.collect();
    let below = steps.iter().rev().find(|step| **step <= least);
    let above = steps.iter().find(|step| **step >= most);
    Span {
        from: below.copied().unwrap_or(1.0),
        to: above.copied().unwrap_or(1e9),
    }
}

fn legend(out: &mut String) {
    text(
        out,
        (14.0, 30.0),
        "start",
        18.0,
        true,
        "Time an item, by the number of items",
    );
    let sides = [
        (14.0, HERE, "the map here"),
        (164.0, BY_HAND, "std hash maps kept by hand"),
    ];
    for (x, colour, words) in sides {
        line(out, (x, 52.0), (x + 26.0, 52.0), colour, 2.0);
        mark(out, (x + 13.0, 52.0), colour);
        text(out, (x + 34.0, 56.5), "start", 13.0, false, words);
    }
}

/// Measures, and returns the picture as text.
pub fn draw(sizes: &[usize], plan: Plan) -> String {
    let mut all = panels(operations::two(), sizes, plan);
    all.extend(panels(operations::three(), sizes, plan));
    let (least, most) = (sizes.iter().min(), sizes.iter().max());
    let scales = Scales {
        items: Span {
            from: least.map_or(100.0, |least| *least as f64),
            to: most.map_or(1e6, |most| (*most as f64).max(1e6)),
        },
        time: times_span(&all),
    };
    let columns = PANELS.len();
    let width = LEFT + columns as f64 * (PANEL.0 + GAP.0);
    let height = TOP + 2.0 * (PANEL.1 + GAP.1) - 34.0;
    let mut out = format!(
        "<svg xmlns=\"http://www.w3.org/2000/svg\" viewBox=\"0 0 {width} {height}\" \
         width=\"{width}\" height=\"{height}\" fill=\"{INK}\" \
         font-family=\"Helvetica, Arial, 'DejaVu Sans', sans-serif\">\n\
         <rect width=\"100%\" height=\"100%\" fill=\"#ffffff\"/>\n"
    );
    legend(&mut out);
    for (i, panel) in all.iter().enumerate() {
        let x = LEFT + (i % columns) as f64 * (PANEL.0 + GAP.0);
        let y = TOP + (i / columns) as f64 * (PANEL.1 + GAP.1);
        scales.panel(&mut out, (x, y), sizes, panel, i % columns == 0);
    }
    out.push_str("</svg>\n");
    out
}

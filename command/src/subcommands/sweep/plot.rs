//! A plot as SVG, in black and grey, so that it is read in print: upper as a full line with dots, lower as a dashed line with rings, what lies
//! between them in grey. The figures are placed by their logarithms, which doubles hold well enough for a picture.

use super::axis::{Axis, Point};
use super::Answer;
use crate::echo::escaped;
use bounds::Figure;
use std::fmt::Write;

const WIDTH: f64 = 720.0;
const HEIGHT: f64 = 480.0;
/// The frame.
const LEFT: f64 = 90.0;
const RIGHT: f64 = 690.0;
const TOP: f64 = 60.0;
const BOTTOM: f64 = 400.0;
/// Labels stand at least so far apart.
const APART: f64 = 46.0;
const MOST_TICKS: i64 = 10;
/// The room for the model's name in the title, in ems of 14: the rest takes 23 of a wide typeface, and 45 reach the right edge.
const NAME_ROOM: f64 = 21.0;

/// A range of one axis, and where it is drawn.
struct Range {
    least: f64,
    greatest: f64,
    from: f64,
    to: f64,
}

impl Range {
    fn place(&self, at: f64) -> f64 {
        self.from + (at - self.least) / (self.greatest - self.least) * (self.to - self.from)
    }
}

/// A point of the plot; what has no place is not drawn.
struct Mark {
    x: f64,
    lower: Option<f64>,
    upper: Option<f64>,
    refused: bool,
}

pub fn svg(title: &str, axis: &Axis, points: &[Point], answers: &[Answer]) -> String {
    let across = across(points);
    let upward = upward(answers);
    let marks: Vec<Mark> =
        points.iter().zip(answers).map(|(p, a)| mark(&across, &upward, p, a)).collect();
    let mut out = format!(
        "<svg xmlns=\"http://www.w3.org/2000/svg\" width=\"{WIDTH}\" height=\"{HEIGHT}\" viewBox=\"0 0 {WIDTH} {HEIGHT}\" \
         font-family=\"sans-serif\" font-size=\"14\">\n\
         <rect width=\"{WIDTH}\" height=\"{HEIGHT}\" fill=\"white\"/>\n"
    );
    put_text(
        &mut out,
        LEFT,
        24.0,
        "start",
        &format!("{}: probability of failure, lower and upper bound", fitting(&escaped(title))),
    );
    put_ticks_upward(&mut out, &upward);
    put_ticks_across(&mut out, points, &across);
    let scale = if axis.is_logarithmic() { ", logarithmic" } else { "" };
    put_text(
        &mut out,
        (LEFT + RIGHT) / 2.0,
        BOTTOM + 48.0,
        "middle",
        &format!("{}{scale}", axis.name()),
    );
    put_between(&mut out, &marks);
    put_line(&mut out, &marks, |mark| mark.upper, "");
    put_line(&mut out, &marks, |mark| mark.lower, " stroke-dasharray=\"7 4\"");
    put_marks(&mut out, &marks);
    put_legend(&mut out);
    out.push_str("</svg>\n");
    out
}

/// The name, or its end, where there is no room for all of it.
fn fitting(name: &str) -> String {
    if width(name) <= NAME_ROOM {
        return name.into();
    }
    let mut ends = name.char_indices().map(|(at, _)| &name[at..]);
    let end = ends.find(|end| width("..") + width(end) <= NAME_ROOM);
    format!("..{}", end.unwrap_or_default())
}

/// The greatest width of a text in common typefaces, in ems.
fn width(text: &str) -> f64 {
    let of = |c: char| match c {
        'f' | 'i' | 'j' | 'l' | 'r' | 't' | ' ' | '.' | ',' | '/' | '-' => 0.42,
        'm' | 'w' => 1.0,
        'a'..='z' | '0'..='9' | '_' => 0.64,
        _ => 1.0,
    };
    text.chars().map(of).sum()
}

/// The range of the axis across. A zero of a logarithmic axis stands one step before the others.
fn across(points: &[Point]) -> Range {
    let (mut least, mut greatest) =
        ends(points.iter().filter_map(|point| point.at)).unwrap_or((0.0, 1.0));
    if points.iter().any(|point| point.at.is_none()) {
        least -= ((greatest - least) / 4.0).max(1.0);
    }
    if greatest - least < 1e-9 {
        (least, greatest) = (least - 1.0, greatest + 1.0);
    }
    Range { least, greatest, from: LEFT + 20.0, to: RIGHT - 20.0 }
}

/// The range of the upward axis, in whole powers of ten.
fn upward(answers: &[Answer]) -> Range {
    let reports = answers.iter().flatten();
    let figures = reports.flat_map(|report| [report.lower, report.upper]).filter_map(logarithm);
    let (least, greatest) = ends(figures).unwrap_or((0.0, 1.0));
    let (least, greatest) = (least.floor(), greatest.ceil());
    Range { least, greatest: greatest.max(least + 1.0), from: BOTTOM, to: TOP }
}

fn ends(values: impl Iterator<Item = f64>) -> Option<(f64, f64)> {
    values.fold(None, |ends, value| match ends {
        None => Some((value, value)),
        Some((least, greatest)) => Some((value.min(least), value.max(greatest))),
    })
}

fn logarithm(figure: Figure) -> Option<f64> {
    (figure.digits() != 0).then(|| (figure.digits() as f64).log10() + f64::from(figure.power()))
}

fn mark(across: &Range, upward: &Range, point: &Point, answer: &Answer) -> Mark {
    let height = |figure| logarithm(figure).map(|at| upward.place(at));
    let (lower, upper) = match answer {
        Ok(report) => (height(report.lower), height(report.upper)),
        Err(_) => (None, None),
    };
    Mark {
        x: across.place(point.at.unwrap_or(across.least)),
        lower,
        upper,
        refused: answer.is_err(),
    }
}

fn put_text(out: &mut String, x: f64, y: f64, anchor: &str, text: &str) {
    let text = text.replace('&', "&amp;").replace('<', "&lt;").replace('>', "&gt;");
    let _ = writeln!(out, "<text x=\"{x:.1}\" y=\"{y:.1}\" text-anchor=\"{anchor}\">{text}</text>");
}

fn put_stroke(out: &mut String, from: (f64, f64), to: (f64, f64), colour: &str) {
    let ((x1, y1), (x2, y2)) = (from, to);
    let _ = writeln!(
        out,
        "<line x1=\"{x1:.1}\" y1=\"{y1:.1}\" x2=\"{x2:.1}\" y2=\"{y2:.1}\" stroke=\"{colour}\"/>"
    );
}

fn put_ticks_upward(out: &mut String, upward: &Range) {
    let (least, greatest) = (upward.least as i64, upward.greatest as i64);
    let step = ((greatest - least) + MOST_TICKS - 1) / MOST_TICKS;
    for exponent in (least..=greatest).step_by(step.max(1) as usize) {
        let y = upward.place(exponent as f64);
        put_stroke(out, (LEFT, y), (RIGHT, y), "#bbbbbb");
        put_text(out, LEFT - 8.0, y + 5.0, "end", &format!("1E{exponent}"));
    }
    let _ = writeln!(
        out,
        "<rect x=\"{LEFT}\" y=\"{TOP}\" width=\"{}\" height=\"{}\" fill=\"none\" stroke=\"black\"/>",
        RIGHT - LEFT,
        BOTTOM - TOP
    );
}

/// The values that were asked for, as they were spelled, where there is room for them.
fn put_ticks_across(out: &mut String, points: &[Point], across: &Range) {
    let mut labelled: Vec<f64> = Vec::new();
    for point in points {
        let x = across.place(point.at.unwrap_or(across.least));
        put_stroke(out, (x, BOTTOM), (x, BOTTOM + 6.0), "black");
        if labelled.iter().all(|other| (other - x).abs() >= APART) {
            labelled.push(x);
            put_text(out, x, BOTTOM + 22.0, "middle", &point.spelled);
        }
    }
}

/// The marks in their order across.
fn sorted(marks: &[Mark]) -> Vec<&Mark> {
    let mut sorted: Vec<&Mark> = marks.iter().collect();
    sorted.sort_by(|a, b| a.x.total_cmp(&b.x));
    sorted
}

/// What lies between lower and upper, where there are both.
fn put_between(out: &mut String, marks: &[Mark]) {
    let sorted = sorted(marks);
    for run in sorted.split(|mark| mark.lower.is_none() || mark.upper.is_none()) {
        let above = run.iter().map(|mark| (mark.x, mark.upper));
        let below = run.iter().rev().map(|mark| (mark.x, mark.lower));
        let corners: Vec<String> =
            above.chain(below).map(|(x, y)| format!("{x:.1},{:.1}", y.unwrap_or(BOTTOM))).collect();
        if run.len() > 1 {
            let _ = writeln!(out, "<polygon points=\"{}\" fill=\"#e4e4e4\"/>", corners.join(" "));
        }
    }
}

/// A line through the places; it ends where one has none.
fn put_line(out: &mut String, marks: &[Mark], place: fn(&Mark) -> Option<f64>, style: &str) {
    for run in sorted(marks).split(|mark| place(mark).is_none()) {
        let places: Vec<String> = run
            .iter()
            .filter_map(|mark| place(mark).map(|y| format!("{:.1},{y:.1}", mark.x)))
            .collect();
        if places.len() > 1 {
            let places = places.join(" ");
            let _ = writeln!(out, "<polyline points=\"{places}\" fill=\"none\" stroke=\"black\" stroke-width=\"1.5\"{style}/>");
        }
    }
}

fn put_marks(out: &mut String, marks: &[Mark]) {
    for mark in marks {
        let x = mark.x;
        match (mark.refused, mark.lower) {
            (true, _) => put_cross(out, x, BOTTOM - 10.0),
            (false, None) => put_triangle(out, x, BOTTOM - 10.0),
            (false, Some(y)) => put_ring(out, x, y),
        }
        if let Some(y) = mark.upper {
            put_dot(out, x, y);
        }
    }
}

fn put_dot(out: &mut String, x: f64, y: f64) {
    let _ = writeln!(out, "<circle cx=\"{x:.1}\" cy=\"{y:.1}\" r=\"3\"/>");
}

/// Wider than a dot, so that both are seen where they fall together.
fn put_ring(out: &mut String, x: f64, y: f64) {
    let style = "fill=\"none\" stroke=\"black\" stroke-width=\"1.5\"";
    let _ = writeln!(out, "<circle cx=\"{x:.1}\" cy=\"{y:.1}\" r=\"6\" {style}/>");
}

fn put_cross(out: &mut String, x: f64, y: f64) {
    let _ = writeln!(
        out,
        "<path d=\"M {:.1} {:.1} l 10 10 m 0 -10 l -10 10\" stroke=\"black\" stroke-width=\"2\"/>",
        x - 5.0,
        y - 5.0
    );
}

fn put_triangle(out: &mut String, x: f64, y: f64) {
    let _ = writeln!(out, "<path d=\"M {:.1} {:.1} l 10 0 l -5 9 z\" fill=\"white\" stroke=\"black\" stroke-width=\"1.5\"/>", x - 5.0, y - 5.0);
}

/// Below the title.
fn put_legend(out: &mut String) {
    let y = 42.0;
    put_dot(out, LEFT + 5.0, y);
    put_text(out, LEFT + 16.0, y + 5.0, "start", "upper");
    put_ring(out, LEFT + 85.0, y);
    put_text(out, LEFT + 96.0, y + 5.0, "start", "lower");
    put_triangle(out, LEFT + 165.0, y);
    put_text(out, LEFT + 176.0, y + 5.0, "start", "lower is 0");
    put_cross(out, LEFT + 275.0, y);
    put_text(out, LEFT + 286.0, y + 5.0, "start", "refused");
}

#[cfg(test)]
mod tests {
    use super::*;
    use crate::Failure;

    /// Model A: at these times a lower above 0, one of 0 and, with a budget of 0, a refusal.
    const WORDS: [u32; 7] =
        [0x11002001, 0x2000000A, 0x30000000, 0x41801000, 0x50001002, 0x60400001, 0xF0000000];

    fn plotted(times: &str, budget: u64) -> Result<String, Failure> {
        titled("a <&> b", times, budget)
    }

    fn titled(title: &str, times: &str, budget: u64) -> Result<String, Failure> {
        let axis = Axis::of("time", times)?;
        let points = axis.points(&WORDS)?;
        let answers = super::super::answers(&points, budget)?;
        Ok(svg(title, &axis, &points, &answers))
    }

    /// The places of the dots and of the rings, the legend's left out.
    fn heights(plot: &str, radius: &str) -> Vec<f64> {
        let marks = plot.lines().filter(|line| line.contains(&format!("r=\"{radius}\"")));
        let height = |line: &str| line.split("cy=\"").nth(1)?.split('"').next()?.parse().ok();
        let all: Vec<f64> = marks.filter_map(height).collect();
        all[..all.len() - 1].to_vec()
    }

    #[test]
    fn marks() -> Result<(), Failure> {
        let plot = plotted("100000,1,10,100", 1)?;
        let (upper, lower) = (heights(&plot, "3"), heights(&plot, "6"));
        assert_eq!((upper.len(), lower.len()), (4, 3));
        assert!(upper.iter().chain(&lower).all(|y| (TOP..=BOTTOM).contains(y)));
        // higher on the page is a smaller y
        assert!(upper[0] < upper[3] && upper[3] < upper[2] && upper[2] < upper[1]);
        assert!(upper[1..].iter().zip(&lower).all(|(upper, lower)| upper <= lower));
        assert_eq!(plot.matches(" z\"").count(), 2);
        assert_eq!(plot.matches("m 0 -10").count(), 1);
        assert!(plot.contains(">a &lt;&amp;&gt; b: "));
        Ok(())
    }

    #[test]
    fn refusals() -> Result<(), Failure> {
        let plot = plotted("1,10", 0)?;
        assert_eq!(heights(&plot, "3").len(), 0);
        assert_eq!(plot.matches("m 0 -10").count(), 3);
        assert_eq!(plot.matches("<polyline").count(), 0);
        Ok(())
    }

    /// A long name keeps its end, and no control character stands in the XML.
    #[test]
    fn titles() -> Result<(), Failure> {
        let title = |name: &str| -> Result<String, Failure> {
            let plot = titled(name, "1,10", 1)?;
            let text = plot.lines().find_map(|line| line.split_once(": probability of failure"));
            let before = text.map_or("", |(before, _)| before);
            Ok(before.rsplit('>').next().unwrap_or_default().into())
        };
        let fits = "examples/papers/tp2764-ex4-T10.txt";
        assert_eq!(title(fits)?, fits);
        let long = title(&format!("{}models/a-b.txt", "folder/".repeat(100)))?;
        assert!(long.starts_with("..") && long.ends_with("/folder/models/a-b.txt"), "{long}");
        assert!((30..=40).contains(&long.len()), "{long}");
        assert_eq!(title(&"W".repeat(99))?.len(), 2 + 20);
        assert_eq!(title("a\u{1}\n\u{FFFE}b")?, "a\\u{1}\\n\\u{fffe}b");
        Ok(())
    }
}

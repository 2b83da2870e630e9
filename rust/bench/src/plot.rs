//! A plot of lines on two logarithmic axes, as an SVG picture.

use std::fmt::Write;

const WIDTH: f64 = 860.0;
const HEIGHT: f64 = 600.0;
const LEFT: f64 = 80.0;
const RIGHT: f64 = 830.0;
const TOP: f64 = 56.0;
const BOTTOM: f64 = 530.0;

/// Colours that also differ for colour-blind readers; the markers differ too.
const COLOURS: [&str; 6] = [
    "#0072b2", "#d55e00", "#009e73", "#cc79a7", "#444444", "#e69f00",
];

/// What is drawn.
pub struct Plot {
    /// The heading.
    pub title: String,
    /// What the horizontal axis counts.
    pub x_label: String,
    /// What the vertical axis counts.
    pub y_label: String,
    /// The lines, in the order of the legend.
    pub lines: Vec<Line>,
}

/// A line of the plot; every coordinate is above zero.
pub struct Line {
    /// Its name in the legend.
    pub name: String,
    /// Its points, from left to right.
    pub points: Vec<(f64, f64)>,
}

/// A logarithmic axis between two ticks, and where they stand in the picture.
struct Axis {
    ticks: Vec<f64>,
    from: f64,
    to: f64,
}

impl Axis {
    /// The axis from the last tick below all values to the first one above them.
    fn over(values: impl Iterator<Item = f64> + Clone, from: f64, to: f64) -> Axis {
        let least = values.clone().fold(f64::INFINITY, f64::min);
        let most = values.fold(0.0, f64::max);
        let all = (-9..9).flat_map(|power| [1.0, 2.0, 5.0].map(|digit| digit * 10f64.powi(power)));
        let all: Vec<f64> = all.collect();
        let first = all.iter().rposition(|&tick| tick <= least).unwrap_or(0);
        let last = all.iter().position(|&tick| tick >= most);
        let last = last.unwrap_or(all.len() - 1).max(first + 1);
        let ticks = all[first..=last].to_vec();
        Axis { ticks, from, to }
    }

    fn place(&self, value: f64) -> f64 {
        let [low, high] = [self.ticks[0], self.ticks[self.ticks.len() - 1]].map(f64::ln);
        self.from + (value.ln() - low) / (high - low) * (self.to - self.from)
    }
}

/// The picture.
pub fn svg(plot: &Plot) -> String {
    let points = || plot.lines.iter().flat_map(|line| line.points.iter());
    let x = Axis::over(points().map(|point| point.0), LEFT, RIGHT);
    let y = Axis::over(points().map(|point| point.1), BOTTOM, TOP);
    let middle = (LEFT + RIGHT) / 2.0;
    let mut out = format!(
        "<svg xmlns=\"http://www.w3.org/2000/svg\" viewBox=\"0 0 {WIDTH} {HEIGHT}\" \
         font-family=\"sans-serif\" font-size=\"14\" text-anchor=\"middle\">\n\
         <rect width=\"{WIDTH}\" height=\"{HEIGHT}\" fill=\"white\"/>\n"
    );
    text(&mut out, middle, 32.0, "font-size=\"18\"", &plot.title);
    grid(&mut out, &x, &y);
    text(&mut out, middle, BOTTOM + 48.0, "", &plot.x_label);
    let turned = format!("transform=\"rotate(-90 24 {0})\"", (TOP + BOTTOM) / 2.0);
    text(&mut out, 24.0, (TOP + BOTTOM) / 2.0, &turned, &plot.y_label);
    // The first line is drawn last, over the others.
    for (number, line) in plot.lines.iter().enumerate().rev() {
        draw(&mut out, line, number, &x, &y);
    }
    legend(&mut out, &plot.lines);
    out += "</svg>\n";
    out
}

/// The ticks of both axes with their numbers, and the frame around the lines.
fn grid(out: &mut String, x: &Axis, y: &Axis) {
    for &tick in &x.ticks {
        let at = x.place(tick);
        rule(out, [at, TOP, at, BOTTOM]);
        text(out, at, BOTTOM + 20.0, "", &number(tick));
    }
    for &tick in &y.ticks {
        let at = y.place(tick);
        rule(out, [LEFT, at, RIGHT, at]);
        let anchor = "text-anchor=\"end\"";
        text(out, LEFT - 8.0, at + 5.0, anchor, &number(tick));
    }
    let (width, height) = (RIGHT - LEFT, BOTTOM - TOP);
    *out += &format!(
        "<rect x=\"{LEFT}\" y=\"{TOP}\" width=\"{width}\" height=\"{height}\" fill=\"none\" stroke=\"#444444\"/>\n"
    );
}

fn rule(out: &mut String, [x1, y1, x2, y2]: [f64; 4]) {
    *out += &format!(
        "<line x1=\"{x1:.1}\" y1=\"{y1:.1}\" x2=\"{x2:.1}\" y2=\"{y2:.1}\" stroke=\"#dddddd\"/>\n"
    );
}

/// A tick's number, with as many decimals as it needs.
fn number(tick: f64) -> String {
    let decimals = (-tick.log10() - 1e-9).ceil().max(0.0) as usize;
    format!("{tick:.decimals$}")
}

fn text(out: &mut String, x: f64, y: f64, attributes: &str, words: &str) {
    let words = escaped(words);
    *out += &format!("<text x=\"{x:.1}\" y=\"{y:.1}\" {attributes}>{words}</text>\n");
}

/// Text in which nothing is read as a mark of XML.
fn escaped(words: &str) -> String {
    words
        .replace('&', "&amp;")
        .replace('<', "&lt;")
        .replace('>', "&gt;")
}

fn draw(out: &mut String, line: &Line, number: usize, x: &Axis, y: &Axis) {
    let colour = COLOURS[number % COLOURS.len()];
    let places = line
        .points
        .iter()
        .map(|point| (x.place(point.0), y.place(point.1)));
    let mut path = String::new();
    for (x, y) in places.clone() {
        let _ = write!(path, "{x:.1},{y:.1} ");
    }
    let path = path.trim_end();
    *out += &format!(
        "<polyline points=\"{path}\" fill=\"none\" stroke=\"{colour}\" stroke-width=\"2\"/>\n"
    );
    for (x, y) in places {
        marker(out, number, x, y);
    }
}

/// A line's own marker: a disc, a square, a triangle, a diamond, and the same again hollow.
fn marker(out: &mut String, number: usize, x: f64, y: f64) {
    let colour = COLOURS[number % COLOURS.len()];
    let fill = if number < 4 { colour } else { "white" };
    let style = format!("fill=\"{fill}\" stroke=\"{colour}\" stroke-width=\"2\"");
    let corners: &[(f64, f64)] = match number % 4 {
        0 => {
            *out += &format!("<circle cx=\"{x:.1}\" cy=\"{y:.1}\" r=\"4.5\" {style}/>\n");
            return;
        }
        1 => &[(-4.0, -4.0), (4.0, -4.0), (4.0, 4.0), (-4.0, 4.0)],
        2 => &[(0.0, -5.0), (5.0, 4.0), (-5.0, 4.0)],
        _ => &[(0.0, -6.0), (6.0, 0.0), (0.0, 6.0), (-6.0, 0.0)],
    };
    let corners = corners
        .iter()
        .map(|(dx, dy)| format!("{:.1},{:.1}", x + dx, y + dy));
    let corners = corners.collect::<Vec<_>>().join(" ");
    *out += &format!("<polygon points=\"{corners}\" {style}/>\n");
}

/// A box in the upper left corner, where a rising line has not yet come.
fn legend(out: &mut String, lines: &[Line]) {
    let (x, y) = (LEFT + 16.0, TOP + 16.0);
    let height = 24.0 * lines.len() as f64 + 12.0;
    *out += &format!(
        "<rect x=\"{x}\" y=\"{y}\" width=\"240\" height=\"{height}\" fill=\"white\" stroke=\"#bbbbbb\"/>\n"
    );
    for (number, line) in lines.iter().enumerate() {
        let at = y + 18.0 + 24.0 * number as f64;
        let colour = COLOURS[number % COLOURS.len()];
        let (from, to) = (x + 12.0, x + 48.0);
        *out += &format!(
            "<line x1=\"{from}\" y1=\"{at}\" x2=\"{to}\" y2=\"{at}\" stroke=\"{colour}\" stroke-width=\"2\"/>\n"
        );
        marker(out, number, (from + to) / 2.0, at);
        let anchor = "text-anchor=\"start\"";
        text(out, to + 12.0, at + 5.0, anchor, &line.name);
    }
}

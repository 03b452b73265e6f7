//! A chart of lines as the text of an SVG picture: a logarithmic scale upward, each line named at its end.

/// A line: its name and its points, from left to right.
#[derive(Clone, PartialEq, Debug)]
pub struct Line {
    pub name: String,
    pub points: Vec<(f64, f64)>,
}

/// A chart: what it shows, what its axes say, its lines. Every value upward is above 0.
#[derive(Clone, PartialEq, Debug)]
pub struct Chart {
    pub title: &'static str,
    pub across: &'static str,
    pub upward: &'static str,
    pub lines: Vec<Line>,
}

const WIDTH: f64 = 800.0;
const HEIGHT: f64 = 480.0;
/// Where the field of the lines begins and ends.
const LEFT: f64 = 80.0;
const RIGHT: f64 = WIDTH - 140.0;
const TOP: f64 = 56.0;
const BOTTOM: f64 = HEIGHT - 64.0;
/// So far apart are the names of two lines, at the least.
const APART: f64 = 18.0;
/// Colours that are told apart also by those who see fewer of them.
const COLOURS: [&str; 6] = ["#0072b2", "#d55e00", "#009e73", "#cc79a7", "#000000", "#e69f00"];

/// Which values lie at the edges of the field.
struct Scale {
    left: f64,
    right: f64,
    /// The values upward that have a mark, lowest first.
    marks: Vec<f64>,
}

/// The chart as SVG; the lines need a point at the least.
pub fn svg(chart: &Chart) -> String {
    let scale = Scale::of(chart);
    let mut text = format!(
        "<svg xmlns=\"http://www.w3.org/2000/svg\" viewBox=\"0 0 {WIDTH} {HEIGHT}\" width=\"{WIDTH}\" \
         height=\"{HEIGHT}\" font-family=\"sans-serif\" font-size=\"14\">\n\
         <rect width=\"{WIDTH}\" height=\"{HEIGHT}\" fill=\"white\"/>\n"
    );
    text += &words((LEFT + RIGHT) / 2.0, 28.0, "middle", "font-size=\"17\"", chart.title);
    text += &axes(chart, &scale);
    let ends: Vec<f64> = chart.lines.iter().filter_map(|line| line.points.last()).map(|p| scale.up(p.1)).collect();
    for ((at, line), beside) in chart.lines.iter().enumerate().zip(spread(&ends)) {
        let colour = COLOURS[at % COLOURS.len()];
        text += &drawn(line, colour, &scale);
        text += &words(RIGHT + 14.0, beside + 5.0, "start", &format!("fill=\"{colour}\""), &line.name);
    }
    text + "</svg>\n"
}

impl Scale {
    /// The scale on which every point of the chart has a place.
    fn of(chart: &Chart) -> Scale {
        let points = || chart.lines.iter().flat_map(|line| &line.points);
        let lowest = |least: f64, value: f64| least.min(value);
        let highest = |most: f64, value: f64| most.max(value);
        let low = points().map(|point| point.1).fold(f64::INFINITY, lowest);
        let high = points().map(|point| point.1).fold(0.0, highest);
        Scale {
            left: points().map(|point| point.0).fold(f64::INFINITY, lowest),
            right: points().map(|point| point.0).fold(f64::NEG_INFINITY, highest),
            marks: marks(low, high),
        }
    }

    /// How far to the right a value stands.
    fn across(&self, value: f64) -> f64 {
        LEFT + (RIGHT - LEFT) * (value - self.left) / (self.right - self.left).max(1e-9)
    }

    /// How far down a value stands: equal ratios are equal distances.
    fn up(&self, value: f64) -> f64 {
        let (low, high) = (self.marks[0], self.marks[self.marks.len() - 1]);
        BOTTOM - (BOTTOM - TOP) * (value / low).ln() / (high / low).ln().max(1e-9)
    }
}

/// The numbers 1, 2 and 5 times a power of ten, from the last at or below `low` to the first at or above `high`.
pub fn marks(low: f64, high: f64) -> Vec<f64> {
    let (first, last) = (low.log10().floor() as i32, high.log10().ceil() as i32);
    let all: Vec<f64> = (first..=last).flat_map(|ten| [1.0, 2.0, 5.0].map(|step| step * 10f64.powi(ten))).collect();
    let from = all.iter().rposition(|mark| *mark <= low).unwrap_or(0);
    let to = all.iter().position(|mark| *mark >= high).unwrap_or(all.len() - 1);
    all[from..=to.max(from)].to_vec()
}

/// Both axes: a thin line for each mark, its number, and what the numbers are.
fn axes(chart: &Chart, scale: &Scale) -> String {
    let mut text = String::new();
    let thin = |x1: f64, y1: f64, x2: f64, y2: f64| {
        format!("<line x1=\"{x1:.1}\" y1=\"{y1:.1}\" x2=\"{x2:.1}\" y2=\"{y2:.1}\" stroke=\"#cccccc\"/>\n")
    };
    for mark in &scale.marks {
        let y = scale.up(*mark);
        text += &thin(LEFT, y, RIGHT, y);
        text += &words(LEFT - 10.0, y + 5.0, "end", "", &format!("{}", (mark * 1e6).round() / 1e6));
    }
    for (value, _) in chart.lines.first().map(|line| line.points.as_slice()).unwrap_or_default() {
        let x = scale.across(*value);
        text += &thin(x, TOP, x, BOTTOM);
        text += &words(x, BOTTOM + 22.0, "middle", "", &format!("{value}"));
    }
    text += &words((LEFT + RIGHT) / 2.0, BOTTOM + 48.0, "middle", "", chart.across);
    let (x, y) = (24.0, (TOP + BOTTOM) / 2.0);
    text + &words(x, y, "middle", &format!("transform=\"rotate(-90 {x} {y})\""), chart.upward)
}

/// A line with a dot at each of its points.
fn drawn(line: &Line, colour: &str, scale: &Scale) -> String {
    let places: Vec<(f64, f64)> = line.points.iter().map(|point| (scale.across(point.0), scale.up(point.1))).collect();
    let joined: Vec<String> = places.iter().map(|(x, y)| format!("{x:.1},{y:.1}")).collect();
    let points = joined.join(" ");
    let mut text = format!("<polyline points=\"{points}\" fill=\"none\" stroke=\"{colour}\" stroke-width=\"2.5\"/>\n");
    for (x, y) in places {
        text += &format!("<circle cx=\"{x:.1}\" cy=\"{y:.1}\" r=\"4\" fill=\"{colour}\"/>\n");
    }
    text
}

/// Words at a place.
fn words(x: f64, y: f64, anchor: &str, more: &str, words: &str) -> String {
    let words = words.replace('&', "&amp;").replace('<', "&lt;");
    format!("<text x=\"{x:.1}\" y=\"{y:.1}\" text-anchor=\"{anchor}\" {more}>{words}</text>\n")
}

/// The heights moved apart as little as it takes, so that no name stands on another; in the order given.
pub fn spread(heights: &[f64]) -> Vec<f64> {
    let mut order: Vec<usize> = (0..heights.len()).collect();
    order.sort_by(|left, right| heights[*left].total_cmp(&heights[*right]));
    let mut apart = heights.to_vec();
    for pair in order.windows(2) {
        apart[pair[1]] = apart[pair[1]].max(apart[pair[0]] + APART);
    }
    if let Some(last) = order.last() {
        apart[*last] = apart[*last].min(BOTTOM);
    }
    for pair in order.windows(2).rev() {
        apart[pair[0]] = apart[pair[0]].min(apart[pair[1]] - APART);
    }
    apart
}

//! The picture of the benchmark: a well-formed SVG with a line and a name for each version.

use independent::plot::{marks, spread, svg, Chart, Line};

/// A chart of two lines over five points that end close to each other, and one far off.
fn chart() -> Chart {
    let line = |name: &str, first: f64, step: f64| Line {
        name: name.to_string(),
        points: (0..5).map(|at| (2.0 * f64::from(at), first + step * f64::from(at))).collect(),
    };
    let lines = vec![line("one", 6.5, -1.0), line("two & a half", 2.4, 0.02), line("three", 40.0, -3.0)];
    Chart { title: "A title", across: "across", upward: "upward", lines }
}

/// The names of the tags that are open at the end, and how many there were in all; every end closes the last one open.
fn tags(text: &str) -> (Vec<String>, usize) {
    let mut open: Vec<String> = Vec::new();
    let mut count = 0;
    for piece in text.split('<').skip(1) {
        let (tag, _) = piece.split_once('>').expect("a tag ends");
        assert_eq!(tag.matches('"').count() % 2, 0, "quotes in {tag}");
        if let Some(name) = tag.strip_prefix('/') {
            assert_eq!(open.pop().as_deref(), Some(name));
        } else {
            count += 1;
            let name = tag.split(' ').next().unwrap_or_default().to_string();
            open.extend((!tag.ends_with('/')).then_some(name));
        }
    }
    (open, count)
}

/// The points of each line in the picture.
fn drawn(text: &str) -> Vec<Vec<(f64, f64)>> {
    let lines = text.lines().filter_map(|line| line.strip_prefix("<polyline points=\"")?.split('"').next());
    let number = |word: &str| word.parse::<f64>().expect("a number");
    let point = |pair: &str| pair.split_once(',').map(|(x, y)| (number(x), number(y))).expect("a pair");
    lines.map(|points| points.split(' ').map(point).collect()).collect()
}

/// Everything that is opened is closed, and the picture is one element.
#[test]
fn well_formed() {
    let text = svg(&chart());
    assert!(text.starts_with("<svg ") && text.ends_with("</svg>\n"));
    let (open, count) = tags(&text);
    assert_eq!(open, Vec::<String>::new());
    assert!(count > 30);
    assert!(!text.contains("NaN") && !text.contains("inf"));
}

/// A line and a name for each version, within the picture, from left to right; higher values stand higher.
#[test]
fn a_line_for_each_version() {
    let text = svg(&chart());
    let lines = drawn(&text);
    assert_eq!(lines.len(), 3);
    for line in &lines {
        assert_eq!(line.len(), 5);
        assert!(line.iter().all(|(x, y)| (0.0..800.0).contains(x) && (0.0..480.0).contains(y)));
        assert!(line.windows(2).all(|pair| pair[0].0 < pair[1].0));
    }
    assert!(lines[2][0].1 < lines[0][0].1 && lines[0][0].1 < lines[1][0].1);
    assert!(lines[0].windows(2).all(|pair| pair[0].1 < pair[1].1));
    for name in ["one", "two &amp; a half", "three", "A title", "across", "upward", "8", "2", "50"] {
        assert!(text.contains(&format!(">{name}</text>")), "{name}");
    }
}

/// Marks of both scales: all around the values, no further than it takes.
#[test]
fn marks_around() {
    assert_eq!(marks(0.6, 41.0), [0.5, 1.0, 2.0, 5.0, 10.0, 20.0, 50.0]);
    assert_eq!(marks(1.0, 10.0), [1.0, 2.0, 5.0, 10.0]);
    assert_eq!(marks(3.0, 4.0), [2.0, 5.0]);
}

/// Names keep their order and their distance, and stay above the axis.
#[test]
fn names_apart() {
    assert_eq!(spread(&[100.0, 200.0]), [100.0, 200.0]);
    assert_eq!(spread(&[103.0, 100.0]), [118.0, 100.0]);
    let low = spread(&[415.0, 414.0, 300.0]);
    assert!(low[0] <= 416.0 && low[0] - low[1] >= 18.0 && low[2] == 300.0, "{low:?}");
}

/// One value alone, and one point alone, have a place too.
#[test]
fn little_to_draw() {
    let one = Line { name: "one".to_string(), points: vec![(0.0, 5.0)] };
    let text = svg(&Chart { lines: vec![one], ..chart() });
    assert!(!text.contains("NaN") && !text.contains("inf"));
    assert_eq!(drawn(&text).len(), 1);
}

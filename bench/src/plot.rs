//! The rows as a picture (SVG): a line for each work, and on it a mark for each peer.

use crate::table::Row;

/// Pixels. The names of the works end before `LEFT`; the axis keeps `EDGE` from both its sides, so
/// that a mark at its end is whole.
const WIDTH: f64 = 900.0;
const LEFT: f64 = 288.0;
const RIGHT: f64 = 884.0;
const EDGE: f64 = 12.0;
const RADIUS: f64 = 6.0;
const LINE: f64 = 20.0;
const GAP: f64 = 8.0;
const LEGEND: f64 = 76.0;
const LEGEND_COLUMNS: usize = 5;

/// Colours that stand out from white and stay apart for the colour-blind: by at least 18 in CIELAB
/// for each of the three kinds, simulated.
const COLOURS: [&str; 9] = [
    "#332288", "#ee6677", "#117733", "#aa3377", "#999933", "#cc79a7", "#663333", "#000000",
    "#33a0e0",
];

/// Outlines around the middle of a mark. They are one more than the colours, so that a peer beyond
/// the last of either still has a mark of its own.
const SHAPES: [&str; 10] = [
    "M-4.5 0a4.5 4.5 0 1 1 9 0a4.5 4.5 0 1 1-9 0z",
    "M-4-4H4V4H-4z",
    "M0-5.5L5 4H-5z",
    "M0-5.5L5.5 0 0 5.5-5.5 0z",
    "M0 5.5L5-4H-5z",
    "M-1.7-5H1.7V-1.7H5V1.7H1.7V5H-1.7V1.7H-5V-1.7H-1.7z",
    "M-4.5-5H4.5L-4.5 5H4.5z",
    "M0-6.3L1.8-2 6.2-2 2.8.9 4 5.3 0 2.8-4 5.3-2.8.9-6.2-2-1.8-2z",
    "M0-2.2L2.6-4.8 4.8-2.6 2.2 0 4.8 2.6 2.6 4.8 0 2.2-2.6 4.8-4.8 2.6-2.2 0-4.8-2.6-2.6-4.8z",
    "M-5-4.5V4.5L5-4.5V4.5z",
];

const TITLE: &str = "Time of a call: library / peer";
const NOTE: &str = "Mark: the library's median time divided by the peer's. \
                    Bar: 10th to 90th percentile of the rounds' ratios. Logarithmic axis.";

struct Plot<'a> {
    rows: &'a [Row],
    peers: Vec<&'a str>,
    /// Each work, and the middle of its line.
    works: Vec<(&'a str, f64)>,
    /// The ratios at the ends of the axis.
    ends: (f64, f64),
    top: f64,
    bottom: f64,
}

impl<'a> Plot<'a> {
    fn new(rows: &'a [Row]) -> Plot<'a> {
        let (mut peers, mut works) = (Vec::new(), Vec::<(&str, f64)>::new());
        let mut ends = (0.125f64, 2f64);
        for row in rows {
            let (ratio, (low, high)) = (row.times.ratio(), row.times.spread());
            ends = (ends.0.min(low).min(ratio), ends.1.max(high).max(ratio));
            if !peers.contains(&row.peer) {
                peers.push(row.peer);
            }
            if works.iter().all(|(work, _)| *work != row.work) {
                works.push((&row.work, 0.0));
            }
        }
        let top = LEGEND + LINE * peers.len().div_ceil(LEGEND_COLUMNS) as f64 + 50.0;
        let mut bottom = top + GAP;
        let mut last = works.first().map_or("", |(work, _)| group(work));
        for (work, y) in &mut works {
            if last != group(work) {
                bottom += GAP;
            }
            last = group(work);
            *y = bottom + LINE / 2.0;
            bottom += LINE;
        }
        bottom += GAP;
        Plot {
            rows,
            peers,
            works,
            ends,
            top,
            bottom,
        }
    }

    /// Where a ratio stands: equal factors are equal distances.
    fn x(&self, ratio: f64) -> f64 {
        let (low, high) = self.ends;
        let share = (ratio / low).ln() / (high / low).ln();
        LEFT + EDGE + share * (RIGHT - LEFT - 2.0 * EDGE)
    }

    /// The colour and the shape of a peer.
    fn sign(&self, peer: &str) -> (&'static str, &'static str) {
        let index = self.peers.iter().position(|p| *p == peer).unwrap();
        (COLOURS[index % COLOURS.len()], SHAPES[index % SHAPES.len()])
    }

    fn legend(&self) -> String {
        let mut svg = String::new();
        for (index, peer) in self.peers.iter().enumerate() {
            let x = 22.0 + (index % LEGEND_COLUMNS) as f64 * 174.0;
            let y = LEGEND + (index / LEGEND_COLUMNS) as f64 * LINE;
            svg += &mark(self.sign(peer), x, y);
            svg += &text(x + 12.0, y + 4.0, "start", peer);
        }
        svg
    }

    fn names(&self) -> String {
        let mut svg = String::new();
        for (work, y) in &self.works {
            svg += &text(LEFT - 8.0, y + 4.0, "end", work);
            svg += &line((LEFT, *y), (RIGHT, *y), "#eee", 1);
        }
        svg
    }

    /// A line for each power of two, a strong one for 1, and what its sides stand for.
    fn grid(&self) -> String {
        let mut svg = String::new();
        let powers = self.ends.0.log2().ceil() as i32..=self.ends.1.log2().floor() as i32;
        for power in powers {
            let (x, label) = (self.x(2f64.powi(power)), 2f64.powi(power).to_string());
            let (colour, width) = if power == 0 { ("#222", 2) } else { ("#ccc", 1) };
            svg += &line((x, self.top), (x, self.bottom), colour, width);
            svg += &text(x, self.top - 6.0, "middle", &label);
            svg += &text(x, self.bottom + 16.0, "middle", &label);
        }
        let one = self.x(1.0);
        svg += "<g font-weight='bold'>\n";
        for (inner, outward) in [(self.top - 24.0, -18.0), (self.bottom + 34.0, 18.0)] {
            svg += &text(one - 10.0, inner, "end", "← library faster");
            svg += &text(one + 10.0, inner, "start", "peer faster →");
            svg += &text(one, inner + outward, "middle", "as fast as the peer");
        }
        svg + "</g>\n"
    }

    /// The marks with their bars. Those of one line that would overlap stand below each other.
    fn marks(&self) -> String {
        let mut svg = String::new();
        for (work, middle) in &self.works {
            let rows: Vec<_> = self.rows.iter().filter(|row| row.work == *work).collect();
            let mut rooms: Vec<_> = rows.iter().map(|row| self.room(row)).collect();
            rooms.sort_by(|a, b| a.0.total_cmp(&b.0));
            let overlap = rooms.windows(2).any(|pair| pair[1].0 < pair[0].1);
            let height = if overlap { 0.8 * LINE } else { 0.0 };
            for (place, row) in rows.iter().enumerate() {
                let share = (place as f64 + 0.5) / rows.len() as f64 - 0.5;
                svg += &self.row(row, middle + height * share);
            }
        }
        svg
    }

    /// From where to where the mark and the bar of a row reach.
    fn room(&self, row: &Row) -> (f64, f64) {
        let (x, (low, high)) = (self.x(row.times.ratio()), row.times.spread());
        (self.x(low).min(x - RADIUS), self.x(high).max(x + RADIUS))
    }

    fn row(&self, row: &Row, y: f64) -> String {
        let (ratio, (low, high)) = (row.times.ratio(), row.times.spread());
        let (work, peer) = (escaped(&row.work), escaped(row.peer));
        let (colour, shape) = self.sign(row.peer);
        let bar = line((self.x(low), y), (self.x(high), y), colour, 2);
        let mark = mark((colour, shape), self.x(ratio), y);
        let title = format!("{work}, {peer}: {ratio:.2} ({low:.2} to {high:.2})");
        format!("<g><title>{title}</title>\n{bar}{mark}</g>\n")
    }
}

/// What a work stands together with: works that begin alike, or are two sides of one thing.
fn group(work: &str) -> &str {
    match work.split(',').next().unwrap() {
        "write block" => "read block",
        "join" => "split",
        words => words,
    }
}

fn escaped(words: &str) -> String {
    let words = words.replace('&', "&amp;");
    words.replace('<', "&lt;").replace('>', "&gt;")
}

fn text(x: f64, y: f64, anchor: &str, words: &str) -> String {
    let words = escaped(words);
    format!("<text x='{x:.2}' y='{y:.2}' text-anchor='{anchor}'>{words}</text>\n")
}

fn line(from: (f64, f64), to: (f64, f64), colour: &str, width: u32) -> String {
    let ends = format!("M{:.2} {:.2}L{:.2} {:.2}", from.0, from.1, to.0, to.1);
    format!("<path d='{ends}' stroke='{colour}' stroke-width='{width}'/>\n")
}

fn mark((colour, shape): (&str, &str), x: f64, y: f64) -> String {
    let style = format!("fill='{colour}' stroke='#fff' stroke-width='0.8'");
    format!("<path d='{shape}' transform='translate({x:.2} {y:.2})' {style}/>\n")
}

/// The whole picture, on white, since the page may be dark.
pub fn render(rows: &[Row]) -> String {
    let plot = Plot::new(rows);
    let height = plot.bottom + 68.0;
    let faster = rows.iter().filter(|row| row.times.ratio() < 1.0).count();
    let head = format!(
        "<svg xmlns='http://www.w3.org/2000/svg' width='{WIDTH}' height='{height}' \
         viewBox='0 0 {WIDTH} {height}' role='img' aria-labelledby='title desc' \
         font-family='system-ui, Segoe UI, Helvetica, Arial, sans-serif' font-size='12' \
         fill='#222'>\n\
         <title id='title'>{TITLE}</title>\n\
         <desc id='desc'>{NOTE} The library is faster in {faster} of {} rows.</desc>\n\
         <rect width='{WIDTH}' height='{height}' fill='#fff'/>\n\
         <g font-size='17' font-weight='bold'>{}</g>\n{}",
        rows.len(),
        text(16.0, 30.0, "start", TITLE),
        text(16.0, 52.0, "start", NOTE),
    );
    head + &plot.legend() + &plot.names() + &plot.grid() + &plot.marks() + "</svg>\n"
}

#[cfg(test)]
mod tests {
    use super::*;
    use crate::measure::Times;

    /// A row whose rounds have these ratios.
    fn row(work: &str, peer: &'static str, ratios: &[f64]) -> Row {
        Row {
            work: work.to_string(),
            peer,
            times: Times {
                rounds: ratios.iter().map(|ratio| [*ratio, 1.0]).collect(),
            },
            target: None,
        }
    }

    /// The texts that stand between `before` and `behind`.
    fn between<'a>(svg: &'a str, before: &str, behind: &str) -> Vec<&'a str> {
        let parts = svg.split(before).skip(1);
        parts
            .map(|part| part.split(behind).next().unwrap())
            .collect()
    }

    /// Where the marks of the rows stand.
    fn places(rows: &[Row]) -> Vec<(f64, f64)> {
        let svg = render(rows);
        let place = |text: &str| {
            let (x, y) = text.split_once(' ').unwrap();
            (x.parse().unwrap(), y.parse().unwrap())
        };
        let (_, marks) = svg.split_once("<g><title>").unwrap();
        let places = between(marks, "translate(", ")");
        places.into_iter().map(place).collect()
    }

    #[test]
    fn equal_factors_are_equal_distances_from_the_line_of_one() {
        let rows = [0.02, 0.1, 0.5, 1.0, 2.5].map(|ratio| row(&ratio.to_string(), "p", &[ratio]));
        let x: Vec<f64> = places(&rows).iter().map(|place| place.0).collect();
        assert!(x[1] - x[0] > 100.0, "{x:?}");
        assert!((x[2] - x[1] - (x[1] - x[0])).abs() < 0.03, "{x:?}");
        assert!((x[4] - x[2] - (x[1] - x[0])).abs() < 0.03, "{x:?}");
        let svg = render(&rows);
        let one = svg.lines().find(|line| line.contains("stroke='#222'"));
        assert!(one.unwrap().contains(&format!("M{:.2} ", x[3])), "{one:?}");
    }

    #[test]
    fn bar_is_the_spread() {
        let ratios: Vec<f64> = (0..=10).map(f64::from).map(|n| 0.5 + n / 20.0).collect();
        let rows = [row("a", "p", &ratios)];
        let (plot, (x, y)) = (Plot::new(&rows), places(&rows)[0]);
        assert!((x - plot.x(0.75)).abs() < 0.01);
        let bar = line((plot.x(0.55), y), (plot.x(0.95), y), COLOURS[0], 2);
        assert!(render(&rows).contains(&bar), "{bar}");
    }

    #[test]
    fn marks_and_bars_lie_within_the_axis() {
        for far in [0.001, 0.125, 2.0, 40.0] {
            for ratios in [[far; 3], [far, 0.5, 0.5]] {
                let rows = [row("a", "p", &ratios), row("a", "q", &ratios)];
                let plot = Plot::new(&rows);
                let (from, to) = plot.room(&rows[0]);
                assert!(LEFT <= from && to <= RIGHT, "{far}: {from} to {to}");
                for (x, y) in places(&rows) {
                    assert!((from..=to).contains(&x), "{far}: {x}");
                    assert!(plot.top <= y - RADIUS && y + RADIUS <= plot.bottom);
                }
            }
        }
    }

    #[test]
    fn each_row_has_the_mark_of_its_peer() {
        let peers = ["a", "b", "c", "d", "e", "f", "g", "h", "i", "j", "k"];
        let rows = ["one", "two"].map(|work| peers.map(|peer| row(work, peer, &[0.5])));
        let svg = render(&rows.into_iter().flatten().collect::<Vec<_>>());
        let marks = svg.lines().filter(|line| line.contains("translate"));
        let looks = marks.map(|mark| ["d='", "fill='"].map(|name| between(mark, name, "'")[0]));
        let looks: Vec<_> = looks.collect();
        let (legend, marks) = looks.split_at(peers.len());
        assert_eq!(marks, [legend, legend].concat());
        for (index, look) in legend.iter().enumerate() {
            assert!(!legend[..index].contains(look), "{index}");
        }
    }

    #[test]
    fn lines_of_a_group_stand_together_and_only_marks_that_overlap_leave_them() {
        let rows = [
            row("read IPv4, apart", "p", &[0.3]),
            row("read IPv4, apart", "q", &[0.9]),
            row("read IPv4, close", "p", &[0.5]),
            row("read IPv4, close", "q", &[0.51]),
            row("read block, bar", "p", &[0.3, 0.3, 0.9]),
            row("read block, bar", "q", &[0.8]),
            row("write block, one", "p", &[0.5]),
            row("split", "p", &[0.5]),
            row("join", "p", &[0.5]),
        ];
        let places = places(&rows);
        let y: Vec<f64> = places.iter().map(|(_, y)| y - places[0].1).collect();
        assert_eq!(y, [0.0, 0.0, 16.0, 24.0, 44.0, 52.0, 68.0, 96.0, 116.0]);
    }

    #[test]
    fn text_is_escaped() {
        let svg = render(&[row("<b>&lt;", "p & q", &[0.5])]);
        assert_eq!(svg.matches(">&lt;b&gt;&amp;lt;").count(), 2);
        assert_eq!(svg.matches("p &amp; q").count(), 2);
        assert!(!svg.contains("<b>") && !svg.contains("& "));
    }

    #[test]
    fn axis_without_rows_is_from_an_eighth_to_two() {
        let svg = render(&[]);
        for (label, count) in [("0.0625", 0), ("0.125", 2), ("1", 2), ("2", 2), ("4", 0)] {
            assert_eq!(svg.matches(&format!(">{label}<")).count(), count, "{label}");
        }
    }
}

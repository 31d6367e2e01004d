//! The rows as a table, in plain text or in Markdown.

use crate::measure::Times;

pub struct Row {
    pub work: String,
    pub peer: &'static str,
    pub times: Times,
    pub target: Option<f64>,
}

const COLUMNS: [&str; 8] = [
    "Work",
    "Peer",
    "Library ns",
    "Peer ns",
    "Ratio",
    "Spread",
    "Target",
    "Met",
];

impl Row {
    fn met(&self) -> Option<bool> {
        self.target.map(|target| self.times.ratio() <= target)
    }

    fn cells(&self) -> [String; 8] {
        let times = |side| {
            let (median, minimum) = (self.times.median(side), self.times.minimum(side));
            format!("{median:.1} ({minimum:.1})")
        };
        let (low, high) = self.times.spread();
        [
            self.work.clone(),
            self.peer.to_string(),
            times(0),
            times(1),
            format!("{:.2}", self.times.ratio()),
            format!("{low:.2} to {high:.2}"),
            self.target.map_or(String::new(), |t| format!("{t:.1}")),
            self.met()
                .map_or("", |met| if met { "yes" } else { "no" })
                .to_string(),
        ]
    }
}

/// The table, with a note before it on what the columns are and a count of the targets behind it.
pub fn render(rows: &[Row], rounds: usize, markdown: bool) -> String {
    let mut lines = vec![COLUMNS.map(String::from)];
    lines.extend(rows.iter().map(Row::cells));
    let mut widths = [0; 8];
    for line in &lines {
        for (width, cell) in widths.iter_mut().zip(line) {
            *width = cell.len().max(*width);
        }
    }
    // Markdown needs a line of dashes under the heads; plain text is easier to read with one.
    lines.insert(1, widths.map(|width| "-".repeat(width)));
    let (before, between, behind) = if markdown {
        ("| ", " | ", " |")
    } else {
        ("", "  ", "")
    };
    let mut text = format!(
        "Nanoseconds per call are the median of {rounds} rounds and, in brackets, the minimum. \
         Ratio is the library's median to the peer's.\n\
         Spread is the 10th to the 90th percentile of the rounds' ratios. \
         Buffers are not cleared between calls on either side.\n\n"
    );
    for line in &lines {
        let mut cells = Vec::new();
        for (column, (cell, width)) in line.iter().zip(widths).enumerate() {
            // Numbers stand to the right, under each other.
            cells.push(if (2..7).contains(&column) {
                format!("{cell:>width$}")
            } else {
                format!("{cell:<width$}")
            });
        }
        let line = format!("{before}{}{behind}", cells.join(between));
        text += line.trim_end();
        text += "\n";
    }
    let met: Vec<bool> = rows.iter().filter_map(Row::met).collect();
    let kept = met.iter().filter(|met| **met).count();
    text + &format!("\n{kept} of {} targets met.\n", met.len())
}

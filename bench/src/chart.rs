//! The ratios as a picture: a bar for each row that has one, on a scale in which twice and half are as far from the line
//! at 1.

use crate::pairs::FRAME;
use crate::rows::{nanoseconds, Row};

/// A row of the table that has both sides.
struct Bar<'a> {
    name: &'a str,
    rust: f64,
    ours: f64,
    ratio: f64,
}

fn bars(rows: &[Row]) -> Vec<Bar<'_>> {
    let both = rows.iter().filter_map(|row| Some((row, row.time.rust?)));
    both.map(|(row, rust)| Bar { name: &row.name, rust, ours: row.time.ours, ratio: row.time.ours / rust }).collect()
}

const LABELS: f64 = 212.0;
const PLOT: f64 = 420.0;
/// Room for a figure beside the longest bar on either side.
const ROOM: f64 = 48.0;
/// The column of the two times.
const TIMES: f64 = 140.0;
const TOP: f64 = 74.0;
const STEP: f64 = 24.0;

/// The picture as SVG.
pub fn svg(rows: &[Row]) -> String {
    let bars = bars(rows);
    let scale = Scale::over(&bars);
    let bottom = TOP + STEP * bars.len() as f64;
    let (width, height) = (LABELS + PLOT + 2.0 * ROOM + TIMES, bottom + 36.0);
    let all: Vec<String> = bars.iter().map(|bar| format!("{} {:.2}", bar.name, bar.ratio)).collect();
    let mut text = format!(
        "<svg xmlns=\"http://www.w3.org/2000/svg\" viewBox=\"0 0 {width} {height}\" width=\"{width}\" height=\"{height}\" \
         role=\"img\" aria-labelledby=\"title desc\">\n\
         <title id=\"title\">Time of a call, ours / the published Rust</title>\n\
         <desc id=\"desc\">Bars on a logarithmic scale from a line at 1.0; below 1 the library is faster. {}.</desc>\n\
         {STYLE}\
         <rect class=\"page\" width=\"{width}\" height=\"{height}\"/>\n\
         <text class=\"head\" x=\"16\" y=\"26\">Time of a call, ours / the published Rust</text>\n\
         <text class=\"note\" x=\"16\" y=\"46\">left of the line at 1.0 the library is faster; each step of the scale doubles</text>\n\
         <text class=\"note\" x=\"{:.1}\" y=\"46\" text-anchor=\"end\">the Rust → ours, ns</text>\n",
        all.join(", "),
        width - 16.0
    );
    for power in scale.low..=scale.high {
        let x = scale.place(2f64.powi(power));
        let class = if power == 0 { "one" } else { "grid" };
        text += &format!(
            "<line class=\"{class}\" x1=\"{x:.1}\" y1=\"{:.1}\" x2=\"{x:.1}\" y2=\"{bottom:.1}\"/>\n\
             <text class=\"note\" text-anchor=\"middle\" x=\"{x:.1}\" y=\"{:.1}\">{}</text>\n",
            TOP - 6.0,
            bottom + 18.0,
            mark(power)
        );
    }
    for (i, bar) in bars.iter().enumerate() {
        text += &drawn(bar, &scale, TOP + STEP * i as f64);
    }
    text + "</svg>\n"
}

/// One row: its name, its bar from the line at 1.0, and its figure at the bar's end.
fn drawn(bar: &Bar, scale: &Scale, y: f64) -> String {
    let ratio = bar.ratio;
    let (one, end) = (scale.place(1.0), scale.place(ratio));
    let faster = ratio <= 1.0;
    let (class, anchor, beside) = if faster { ("faster", "end", end - 6.0) } else { ("slower", "start", end + 6.0) };
    let weight = if bar.name == FRAME { " whole" } else { "" };
    format!(
        "<g><title>{}: {ratio:.2}</title>\n\
         <text class=\"name{weight}\" x=\"{:.1}\" y=\"{:.1}\" text-anchor=\"end\">{}</text>\n\
         <rect class=\"{class}\" x=\"{:.1}\" y=\"{:.1}\" width=\"{:.1}\" height=\"{:.1}\"/>\n\
         <text class=\"figure{weight}\" x=\"{beside:.1}\" y=\"{:.1}\" text-anchor=\"{anchor}\">{ratio:.2}</text>\n\
         <text class=\"note\" x=\"{:.1}\" y=\"{:.1}\" text-anchor=\"end\">{} → {}</text></g>\n",
        bar.name,
        LABELS - 8.0,
        y + 16.0,
        bar.name,
        one.min(end),
        y + 4.0,
        (one - end).abs().max(1.0),
        STEP - 8.0,
        y + 16.0,
        LABELS + PLOT + 2.0 * ROOM + TIMES - 16.0,
        y + 16.0,
        nanoseconds(bar.rust),
        nanoseconds(bar.ours)
    )
}

/// Powers of two from the lowest bar to the highest.
struct Scale {
    low: i32,
    high: i32,
}

impl Scale {
    fn over(bars: &[Bar]) -> Scale {
        let logs: Vec<f64> = bars.iter().map(|bar| bar.ratio.log2()).collect();
        let low = logs.iter().copied().fold(-1.0, f64::min).floor() as i32;
        let high = logs.iter().copied().fold(1.0, f64::max).ceil() as i32;
        Scale { low, high }
    }

    fn place(&self, ratio: f64) -> f64 {
        let share = (ratio.log2() - self.low as f64) / (self.high - self.low) as f64;
        LABELS + ROOM + PLOT * share
    }
}

fn mark(power: i32) -> String {
    match power {
        0 => "1.0".to_string(),
        n if n > 0 => format!("{}", 1 << n),
        n => format!("1/{}", 1 << -n),
    }
}

/// A page of its own colour, so that the text can be read wherever the picture stands.
const STYLE: &str = "<style>\n\
    text { font-family: system-ui, sans-serif; font-size: 13px; fill: #1f2328 }\n\
    .head { font-size: 16px; font-weight: 600 }\n\
    .note { font-size: 12px; fill: #57606a }\n\
    .whole { font-weight: 700 }\n\
    .page { fill: #ffffff }\n\
    .grid { stroke: #d0d7de }\n\
    .one { stroke: #1f2328; stroke-width: 1.5 }\n\
    .faster { fill: #1a7f72 }\n\
    .slower { fill: #bc4c00 }\n\
    @media (prefers-color-scheme: dark) {\n\
    text { fill: #e6edf3 }\n\
    .note { fill: #9da7b3 }\n\
    .page { fill: #0d1117 }\n\
    .grid { stroke: #3d444d }\n\
    .one { stroke: #e6edf3 }\n\
    .faster { fill: #3fb9a5 }\n\
    .slower { fill: #f0883e }\n\
    }\n\
    </style>\n";

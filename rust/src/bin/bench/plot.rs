//! The planner's time by k, as a drawing.

use crate::planners::{Measured, Sort, KS};

/// What is drawn: a name, a colour and whose time.
const SERIES: [(&str, &str, Sort); 4] = [
    ("cubic method", "#888888", Sort::Cubic),
    ("plain Rust", "#d95f02", Sort::Plain),
    ("unchecked Rust", "#7570b3", Sort::Unchecked),
    ("proved", "#1b9e77", Sort::Proved),
];

/// The scale: powers of ten from a tenth of a microsecond on.
const SCALE: [&str; 7] = ["0.1 µs", "1 µs", "10 µs", "100 µs", "1 ms", "10 ms", "100 ms"];

/// Time by k, on a logarithmic scale.
pub fn plot(all: &[Measured]) -> String {
    let (width, height, left, bottom) = (640.0, 400.0, 70.0, 350.0);
    let (first, last) = (f64::from(*KS.start()), f64::from(*KS.end()));
    let x = |k: u16| left + (f64::from(k) - first) / (last - first) * 400.0;
    let y = |time: f64| bottom - (time / 0.1).log10() / (SCALE.len() - 1) as f64 * 310.0;
    let mut lines = vec![
        format!("<svg xmlns=\"http://www.w3.org/2000/svg\" width=\"{width}\" height=\"{height}\" font-family=\"sans-serif\" font-size=\"12\">"),
        format!("<rect width=\"{width}\" height=\"{height}\" fill=\"white\"/>"),
    ];
    for (power, name) in SCALE.iter().enumerate() {
        let at = y(0.1 * 10f64.powi(power as i32));
        lines.push(format!("<line x1=\"{left}\" y1=\"{at:.1}\" x2=\"{:.1}\" y2=\"{at:.1}\" stroke=\"#ddd\"/>", left + 400.0));
        lines.push(format!("<text x=\"{:.1}\" y=\"{:.1}\" text-anchor=\"end\">{name}</text>", left - 8.0, at + 4.0));
    }
    for k in KS {
        lines.push(format!("<text x=\"{:.1}\" y=\"{:.1}\" text-anchor=\"middle\">{k}</text>", x(k), bottom + 20.0));
    }
    lines.push(format!("<text x=\"{:.1}\" y=\"{:.1}\" text-anchor=\"middle\">k</text>", left + 200.0, bottom + 40.0));
    for (place, (name, colour, sort)) in SERIES.iter().enumerate() {
        let points: Vec<String> = all.iter().filter_map(|of| of.best(*sort).map(|time| format!("{:.1},{:.1}", x(of.k), y(time)))).collect();
        let at = 60.0 + 20.0 * place as f64;
        lines.push(format!("<polyline points=\"{}\" fill=\"none\" stroke=\"{colour}\" stroke-width=\"2\"/>", points.join(" ")));
        lines.push(format!("<line x1=\"490\" y1=\"{at}\" x2=\"515\" y2=\"{at}\" stroke=\"{colour}\" stroke-width=\"2\"/>"));
        lines.push(format!("<text x=\"522\" y=\"{}\">{name}</text>", at + 4.0));
    }
    lines.push("</svg>\n".into());
    lines.join("\n")
}

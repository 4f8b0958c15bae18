//! Curves on two logarithmic scales, as SVG.

use std::fmt::Write;

pub struct Curve {
    pub name: String,
    pub points: Vec<(f64, f64)>,
}

const COLOURS: [&str; 6] = ["#1b6ca8", "#c0392b", "#2e8b57", "#8e44ad", "#d35400", "#555555"];
const WIDTH: f64 = 720.0;
const HEIGHT: f64 = 420.0;
const LEFT: f64 = 70.0;
const BOTTOM: f64 = 50.0;
const RIGHT: f64 = 170.0;
const TOP: f64 = 40.0;

/// The powers of a base that enclose all values.
fn scale(values: impl Iterator<Item = f64> + Clone, base: f64) -> (f64, f64) {
    let least = values.clone().fold(f64::MAX, f64::min);
    let most = values.fold(f64::MIN, f64::max);
    (least.log(base).floor(), most.log(base).ceil())
}

/// Nanoseconds as a person writes them.
fn time(nanoseconds: f64) -> String {
    match nanoseconds {
        n if n >= 1e6 => format!("{} ms", n / 1e6),
        n if n >= 1e3 => format!("{} µs", n / 1e3),
        n => format!("{n} ns"),
    }
}

pub fn svg(title: &str, across: &str, curves: &[Curve]) -> String {
    let points = || curves.iter().flat_map(|curve| curve.points.iter());
    let (x0, x1) = scale(points().map(|point| point.0), 2.0);
    let (y0, y1) = scale(points().map(|point| point.1), 10.0);
    let (x1, y1) = (x1.max(x0 + 1.0), y1.max(y0 + 1.0));
    let x = |value: f64| LEFT + (value.log2() - x0) / (x1 - x0) * (WIDTH - LEFT - RIGHT);
    let y =
        |value: f64| HEIGHT - BOTTOM - (value.log10() - y0) / (y1 - y0) * (HEIGHT - BOTTOM - TOP);
    let mut out = String::new();
    let mut line = |text: String| writeln!(out, "{text}").expect("text");
    line(format!(
        "<svg xmlns=\"http://www.w3.org/2000/svg\" viewBox=\"0 0 {WIDTH} {HEIGHT}\" \
         font-family=\"sans-serif\" font-size=\"12\">"
    ));
    line(format!("<rect width=\"{WIDTH}\" height=\"{HEIGHT}\" fill=\"white\"/>"));
    line(format!("<text x=\"{LEFT}\" y=\"22\" font-size=\"15\">{title}</text>"));
    let (right, bottom) = (WIDTH - RIGHT, HEIGHT - BOTTOM);
    for power in y0 as i32..=y1 as i32 {
        let value = 10f64.powi(power);
        let at = y(value);
        line(format!(
            "<path d=\"M{LEFT} {at:.1}H{right}\" stroke=\"#ddd\"/>\
             <text x=\"{:.1}\" y=\"{:.1}\" text-anchor=\"end\">{}</text>",
            LEFT - 6.0,
            at + 4.0,
            time(value)
        ));
    }
    for power in x0 as i32..=x1 as i32 {
        let value = 2f64.powi(power);
        let at = x(value);
        line(format!(
            "<path d=\"M{at:.1} {TOP}V{bottom}\" stroke=\"#eee\"/>\
             <text x=\"{at:.1}\" y=\"{:.1}\" text-anchor=\"middle\">{value}</text>",
            bottom + 18.0
        ));
    }
    line(format!("<text x=\"{LEFT}\" y=\"{:.1}\">{across}</text>", HEIGHT - 10.0));
    for (i, curve) in curves.iter().enumerate() {
        let colour = COLOURS[i % COLOURS.len()];
        let path: Vec<String> = curve
            .points
            .iter()
            .map(|point| format!("{:.1} {:.1}", x(point.0), y(point.1)))
            .collect();
        line(format!(
            "<path d=\"M{}\" fill=\"none\" stroke=\"{colour}\" stroke-width=\"2\"/>",
            path.join("L")
        ));
        let (left, at) = (right + 10.0, TOP + 10.0 + 20.0 * i as f64);
        line(format!(
            "<path d=\"M{left} {at}h20\" stroke=\"{colour}\" stroke-width=\"2\"/>\
             <text x=\"{:.1}\" y=\"{:.1}\">{}</text>",
            left + 26.0,
            at + 4.0,
            curve.name
        ));
    }
    line("</svg>".to_string());
    out
}

//! A chart of growing costs as SVG: panels side by side, all axes by powers.

use crate::measure::Measure;
use crate::table::grouped;

/// A panel: costs over a count.
pub struct Panel {
    pub title: &'static str,
    /// What is counted.
    pub count: &'static str,
    pub curves: Vec<Curve>,
}

/// A named line: points of a count and a cost.
pub struct Curve {
    pub name: &'static str,
    pub colour: &'static str,
    pub points: Vec<(f64, f64)>,
}

/// A rectangle in the chart.
#[derive(Clone, Copy)]
struct Area {
    left: f64,
    right: f64,
    top: f64,
    bottom: f64,
}

const FIRST: Area = Area { left: 80.0, right: 440.0, top: 60.0, bottom: 350.0 };
/// From a panel to the next.
const APART: f64 = 450.0;
const HEIGHT: f64 = 410.0;

/// Whole powers of ten around some values.
#[derive(Clone, Copy)]
struct Powers {
    low: i32,
    high: i32,
}

impl Powers {
    fn around(values: impl Iterator<Item = f64>) -> Powers {
        let logs: Vec<f64> = values.map(f64::log10).filter(|log| log.is_finite()).collect();
        let low = logs.iter().copied().fold(f64::INFINITY, f64::min).floor() as i32;
        let high = logs.iter().copied().fold(f64::NEG_INFINITY, f64::max).ceil() as i32;
        Powers { low, high: high.max(low + 1) }
    }

    fn each(self) -> impl Iterator<Item = f64> {
        (self.low..=self.high).map(|power| 10f64.powi(power))
    }

    /// How far along the axis a value stands, from 0 to 1.
    fn part(self, value: f64) -> f64 {
        let log = value.log10().max(f64::from(self.low));
        (log - f64::from(self.low)) / f64::from(self.high - self.low)
    }
}

/// Where a panel is drawn, and its axes.
struct Frame {
    area: Area,
    counts: Powers,
    costs: Powers,
}

impl Frame {
    fn x(&self, count: f64) -> f64 {
        self.area.left + self.counts.part(count) * (self.area.right - self.area.left)
    }

    fn y(&self, cost: f64) -> f64 {
        self.area.bottom - self.costs.part(cost) * (self.area.bottom - self.area.top)
    }
}

/// The chart's text.
pub fn chart(panels: &[Panel], measure: Measure) -> String {
    let width = FIRST.right + APART * (panels.len() - 1) as f64 + 40.0;
    let mut svg = format!(
        "<svg xmlns=\"http://www.w3.org/2000/svg\" viewBox=\"0 0 {width} {HEIGHT}\" font-family=\"sans-serif\" \
         font-size=\"13\">\n<rect width=\"{width}\" height=\"{HEIGHT}\" fill=\"white\"/>\n"
    );
    let costs = Powers::around(panels.iter().flat_map(points).map(|point| point.1));
    for (number, panel) in panels.iter().enumerate() {
        let across = APART * number as f64;
        let area = Area { left: FIRST.left + across, right: FIRST.right + across, ..FIRST };
        let counts = Powers::around(points(panel).map(|point| point.0));
        svg.push_str(&drawn(panel, &Frame { area, counts, costs }, measure));
    }
    svg + "</svg>\n"
}

fn points(panel: &Panel) -> impl Iterator<Item = (f64, f64)> + '_ {
    panel.curves.iter().flat_map(|curve| curve.points.iter().copied())
}

fn drawn(panel: &Panel, frame: &Frame, measure: Measure) -> String {
    let area = frame.area;
    let mut svg = text(area.left, area.top - 20.0, "start", &format!("{}: {}", panel.title, measure.words()));
    svg.push_str(&count_axis(frame, panel.count));
    svg.push_str(&cost_axis(frame, measure));
    for (number, curve) in panel.curves.iter().enumerate() {
        svg.push_str(&line(curve, frame));
        svg.push_str(&legend(curve, area, number));
    }
    svg
}

fn count_axis(frame: &Frame, words: &str) -> String {
    let area = frame.area;
    let mark = |count: f64| {
        let x = frame.x(count);
        grid_line(x, area.top, x, area.bottom) + &text(x, area.bottom + 20.0, "middle", &grouped(count, 0))
    };
    let marks: String = frame.counts.each().map(mark).collect();
    marks + &text((area.left + area.right) / 2.0, area.bottom + 42.0, "middle", words)
}

fn cost_axis(frame: &Frame, measure: Measure) -> String {
    let area = frame.area;
    let mark = |cost: f64| {
        let y = frame.y(cost);
        grid_line(area.left, y, area.right, y) + &text(area.left - 8.0, y + 4.0, "end", &measure.power(cost))
    };
    frame.costs.each().map(mark).collect()
}

fn text(x: f64, y: f64, anchor: &str, words: &str) -> String {
    format!("<text x=\"{x:.1}\" y=\"{y:.1}\" text-anchor=\"{anchor}\">{words}</text>\n")
}

fn grid_line(x1: f64, y1: f64, x2: f64, y2: f64) -> String {
    format!("<line x1=\"{x1:.1}\" y1=\"{y1:.1}\" x2=\"{x2:.1}\" y2=\"{y2:.1}\" stroke=\"#cccccc\"/>\n")
}

fn line(curve: &Curve, frame: &Frame) -> String {
    let place = |point: &(f64, f64)| format!("{:.1},{:.1}", frame.x(point.0), frame.y(point.1));
    let points: Vec<String> = curve.points.iter().map(place).collect();
    let (points, colour) = (points.join(" "), curve.colour);
    format!("<polyline points=\"{points}\" fill=\"none\" stroke=\"{colour}\" stroke-width=\"2\"/>\n")
}

fn legend(curve: &Curve, area: Area, number: usize) -> String {
    let (x, y) = (area.left + 16.0, area.top + 18.0 + 20.0 * number as f64);
    let stroke = format!("stroke=\"{}\" stroke-width=\"2\"", curve.colour);
    format!("<line x1=\"{x}\" y1=\"{y}\" x2=\"{}\" y2=\"{y}\" {stroke}/>\n", x + 24.0)
        + &text(x + 32.0, y + 4.0, "start", curve.name)
}

//! How the host call grows with the graph: the exponent, and a picture of it.

use crate::candidates::NAMES;

/// One candidate's times by the number of facts.
pub struct Curve {
    pub name: &'static str,
    /// Facts and nanoseconds.
    pub points: Vec<(f64, f64)>,
}

impl Curve {
    /// A curve for each candidate, from the times of all of them at each size.
    pub fn each(sizes: &[usize], times: &[Vec<f64>]) -> Vec<Curve> {
        let points = |column: usize| {
            let all = sizes.iter().zip(times);
            all.map(|(facts, times)| (*facts as f64, times[column])).collect()
        };
        NAMES.into_iter().enumerate().map(|(column, name)| Curve { name, points: points(column) }).collect()
    }

    /// The slope of the line through the logarithms, by least squares.
    pub fn exponent(&self) -> f64 {
        let logs: Vec<(f64, f64)> = self.points.iter().map(|(x, y)| (x.ln(), y.ln())).collect();
        let count = logs.len() as f64;
        let mean = |of: fn(&(f64, f64)) -> f64| logs.iter().map(of).sum::<f64>() / count;
        let (mean_x, mean_y) = (mean(|point| point.0), mean(|point| point.1));
        let product: f64 = logs.iter().map(|(x, y)| (x - mean_x) * (y - mean_y)).sum();
        let square: f64 = logs.iter().map(|(x, _)| (x - mean_x) * (x - mean_x)).sum();
        product / square
    }
}

const WIDTH: f64 = 690.0;
const HEIGHT: f64 = 420.0;
const LEFT: f64 = 70.0;
const RIGHT: f64 = 170.0;
const TOP: f64 = 40.0;
const BOTTOM: f64 = 50.0;
const GREY: &str = "#cccccc";
const COLOURS: [&str; 3] = ["#1b6ca8", "#c1440e", "#3f7d20"];

/// The names of the curves stand so far apart at least, each joined to its curve's end by a line of this
/// length.
const APART: f64 = 18.0;
const LEADER: f64 = 22.0;

/// Both axes are logarithmic.
struct Axes {
    facts: (f64, f64),
    times: (f64, f64),
}

impl Axes {
    /// The axes that hold all points, the times from a full decade to a full decade.
    fn of(curves: &[Curve]) -> Axes {
        let points = || curves.iter().flat_map(|curve| &curve.points);
        let least = |of: fn(&(f64, f64)) -> f64| points().map(of).fold(f64::MAX, f64::min);
        let most = |of: fn(&(f64, f64)) -> f64| points().map(of).fold(0.0, f64::max);
        let decade = |time: f64| time.log10();
        Axes {
            facts: (least(|point| point.0), most(|point| point.0)),
            times: (
                10f64.powf(decade(least(|point| point.1)).floor()),
                10f64.powf(decade(most(|point| point.1)).ceil()),
            ),
        }
    }

    fn x(&self, facts: f64) -> f64 {
        let (first, last) = self.facts;
        LEFT + (WIDTH - LEFT - RIGHT) * (facts / first).ln() / (last / first).ln()
    }

    fn y(&self, time: f64) -> f64 {
        let (first, last) = self.times;
        HEIGHT - BOTTOM - (HEIGHT - TOP - BOTTOM) * (time / first).ln() / (last / first).ln()
    }
}

/// The picture as SVG.
pub fn picture(title: &str, curves: &[Curve]) -> String {
    let axes = Axes::of(curves);
    let mut text = format!(
        "<svg xmlns=\"http://www.w3.org/2000/svg\" viewBox=\"0 0 {WIDTH} {HEIGHT}\" \
         font-family=\"sans-serif\" font-size=\"12\">\n\
         <rect width=\"{WIDTH}\" height=\"{HEIGHT}\" fill=\"white\"/>\n"
    );
    text += &label(LEFT, 22.0, "start", "black", title);
    text += &label((LEFT + WIDTH - RIGHT) / 2.0, HEIGHT - 8.0, "middle", "black", "facts in the graph");
    text += &grid(&axes, curves);
    for (curve, colour) in curves.iter().zip(COLOURS) {
        text += &drawn(&axes, curve, colour);
    }
    text + &names(&axes, curves) + "</svg>\n"
}

fn label(x: f64, y: f64, anchor: &str, colour: &str, words: &str) -> String {
    format!("<text x=\"{x:.1}\" y=\"{y:.1}\" text-anchor=\"{anchor}\" fill=\"{colour}\">{words}</text>\n")
}

fn line((x1, y1): (f64, f64), (x2, y2): (f64, f64), colour: &str) -> String {
    format!("<line x1=\"{x1:.1}\" y1=\"{y1:.1}\" x2=\"{x2:.1}\" y2=\"{y2:.1}\" stroke=\"{colour}\"/>\n")
}

/// A line for each size and for 1, 2 and 5 of each decade of times.
fn grid(axes: &Axes, curves: &[Curve]) -> String {
    let mut text = String::new();
    for (facts, _) in &curves[0].points {
        let x = axes.x(*facts);
        text += &line((x, TOP), (x, HEIGHT - BOTTOM), GREY);
        text += &label(x, HEIGHT - BOTTOM + 20.0, "middle", "black", &facts.to_string());
    }
    let decades = (0..12).map(|power| 10f64.powi(power));
    let times = decades.flat_map(|decade| [decade, 2.0 * decade, 5.0 * decade]);
    for time in times.filter(|time| (axes.times.0..=axes.times.1).contains(time)) {
        let y = axes.y(time);
        text += &line((LEFT, y), (WIDTH - RIGHT, y), GREY);
        text += &label(LEFT - 6.0, y + 4.0, "end", "black", &format!("{} µs", time / 1000.0));
    }
    text
}

fn drawn(axes: &Axes, curve: &Curve, colour: &str) -> String {
    let places: Vec<(f64, f64)> =
        curve.points.iter().map(|(facts, time)| (axes.x(*facts), axes.y(*time))).collect();
    let path: Vec<String> = places.iter().map(|(x, y)| format!("{x:.1},{y:.1}")).collect();
    let mut text = format!(
        "<polyline points=\"{}\" fill=\"none\" stroke=\"{colour}\" stroke-width=\"2\"/>\n",
        path.join(" ")
    );
    for (x, y) in &places {
        text += &format!("<circle cx=\"{x:.1}\" cy=\"{y:.1}\" r=\"3\" fill=\"{colour}\"/>\n");
    }
    text
}

/// The name and exponent of each curve beside its last point.
fn names(axes: &Axes, curves: &[Curve]) -> String {
    let last = |curve: &Curve| curve.points[curve.points.len() - 1];
    let ends: Vec<(f64, f64)> =
        curves.iter().map(last).map(|(facts, time)| (axes.x(facts), axes.y(time))).collect();
    let heights = spread(&ends.iter().map(|end| end.1).collect::<Vec<_>>());
    let mut text = String::new();
    for (((curve, colour), (x, y)), height) in curves.iter().zip(COLOURS).zip(ends).zip(heights) {
        let words = format!("{} (n^{:.2})", curve.name, curve.exponent());
        text += &line((x + 5.0, y), (x + LEADER, height), colour);
        text += &label(x + LEADER + 4.0, height + 4.0, "start", colour, &words);
    }
    text
}

/// Heights moved apart, as little as can be by least squares, so that no two are nearer than `APART` and all
/// lie within the axes. They keep their order.
fn spread(heights: &[f64]) -> Vec<f64> {
    let mut order: Vec<usize> = (0..heights.len()).collect();
    order.sort_by(|i, j| heights[*i].total_cmp(&heights[*j]));
    // With `APART` times its place taken off each, they are to rise; neighbours that fall are a group at
    // their mean.
    let mut groups: Vec<Vec<f64>> = Vec::new();
    let mean = |group: &[f64]| group.iter().sum::<f64>() / group.len() as f64;
    for (place, curve) in order.iter().enumerate() {
        let mut group = vec![heights[*curve] - APART * place as f64];
        while groups.last().map_or(false, |above| mean(above) > mean(&group)) {
            group.extend(groups.pop().expect("there is a group"));
        }
        groups.push(group);
    }
    let lowest = HEIGHT - BOTTOM - APART * (heights.len() - 1) as f64;
    let rising = groups.iter().flat_map(|group| vec![mean(group).clamp(TOP, lowest); group.len()]);
    let mut moved = heights.to_vec();
    for (place, (curve, height)) in order.iter().zip(rising).enumerate() {
        moved[*curve] = height + APART * place as f64;
    }
    moved
}

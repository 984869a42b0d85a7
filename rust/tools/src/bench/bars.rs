//! Ratios as bars in groups, one bar a series, readable on light and on dark.

use super::report::three_figures;
use super::svg::{bar, page, text, upright};

const WIDTH: f64 = 860.0;
const MARGIN: f64 = 10.0;
/// Where the bars may begin and end.
const LEFT: f64 = 390.0;
const RIGHT: f64 = 800.0;
const TOP: f64 = 70.0;
/// Below the bars stand the numbers of the scale.
const FOOT: f64 = 20.0;
const BAR: f64 = 9.0;
const GAP: f64 = 12.0;
const LARGE: f64 = 12.0;
const SMALL: f64 = 9.0;
/// Width of a figure in large letters.
const FIGURE: f64 = 7.0;
/// Middle tones, one a series.
const COLOURS: [&str; 4] = ["#3b82c4", "#d07a2d", "#4a9d5b", "#9a62b8"];

/// What was measured, and its ratio in each series.
pub struct Group {
    pub what: String,
    pub ratios: Vec<f64>,
}

/// The chart of groups that have all the same series.
pub fn draw(title: &str, series: &[&str], groups: &[Group], scale: &Scale) -> String {
    let group_height = BAR * series.len() as f64 + GAP;
    let height = TOP + group_height * groups.len() as f64 + FOOT;
    let mut elements = text(MARGIN, 20.0, LARGE, title);
    elements += &legend(series);
    elements += &scale.lines(height);
    for (number, group) in groups.iter().enumerate() {
        elements += &group.bars(scale, TOP + group_height * number as f64);
    }
    page(WIDTH, height, &elements)
}

impl Group {
    fn bars(&self, scale: &Scale, top: f64) -> String {
        let mut bars = text(MARGIN, top + 2.0 * BAR, LARGE, &self.what);
        for (series, ratio) in self.ratios.iter().enumerate() {
            let (y, start, end) = (top + BAR * series as f64, scale.start(), scale.x(*ratio));
            bars += &bar(start.min(end), y, (end - start).abs().max(1.0), BAR - 1.0, COLOURS[series]);
            bars += &text(start.max(end) + 3.0, y + BAR - 1.5, SMALL, &three_figures(*ratio));
        }
        bars
    }
}

pub enum Scale {
    /// From one power of ten to another, so that ten times and a tenth are as long; bars start at 1.
    Powers { lowest: i32, highest: i32 },
    /// From 0, where bars start, by quarters.
    Quarters { highest: f64 },
}

impl Scale {
    pub fn powers(groups: &[Group]) -> Scale {
        let logs = || ratios(groups).map(|ratio| ratio.log10());
        let (lowest, highest) = (logs().fold(0.0, f64::min), logs().fold(0.0, f64::max));
        Scale::Powers { lowest: lowest.floor() as i32, highest: highest.ceil() as i32 }
    }

    pub fn quarters(groups: &[Group]) -> Scale {
        let quarters = ratios(groups).fold(1.0, f64::max) * 4.0;
        Scale::Quarters { highest: quarters.ceil() / 4.0 }
    }

    fn x(&self, ratio: f64) -> f64 {
        let part = match *self {
            Scale::Powers { lowest, highest } => (ratio.log10() - f64::from(lowest)) / f64::from(highest - lowest),
            Scale::Quarters { highest } => ratio / highest,
        };
        LEFT + part * (RIGHT - LEFT)
    }

    fn start(&self) -> f64 {
        match self {
            Scale::Powers { .. } => self.x(1.0),
            Scale::Quarters { .. } => self.x(0.0),
        }
    }

    fn marks(&self) -> Vec<f64> {
        match *self {
            Scale::Powers { lowest, highest } => (lowest..=highest).map(|power| 10f64.powi(power)).collect(),
            Scale::Quarters { highest } => (0..=(4.0 * highest) as u32).map(|number| f64::from(number) / 4.0).collect(),
        }
    }

    /// A line at each mark, the one at 1 bold.
    fn lines(&self, height: f64) -> String {
        let line = |ratio: f64| {
            let (x, width, words) = (self.x(ratio), if ratio == 1.0 { 1.5 } else { 0.4 }, ratio.to_string());
            let middle = x - FIGURE * words.len() as f64 / 2.0;
            upright(x, TOP - 6.0, height - FOOT, width) + &text(middle, height - 6.0, LARGE, &words)
        };
        self.marks().into_iter().map(line).collect()
    }
}

fn ratios(groups: &[Group]) -> impl Iterator<Item = f64> + '_ {
    groups.iter().flat_map(|group| &group.ratios).copied()
}

fn legend(series: &[&str]) -> String {
    let entry = |(number, name): (usize, &&str)| {
        let x = MARGIN + (WIDTH - 2.0 * MARGIN) / series.len() as f64 * number as f64;
        bar(x, 34.0, 10.0, 10.0, COLOURS[number]) + &text(x + 16.0, 43.0, LARGE, name)
    };
    series.iter().enumerate().map(entry).collect()
}

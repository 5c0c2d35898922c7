//! The picture: the stack pointer against the step, regions as bands, entries and the end as points.

use std::ops::Range;

use plotters::coord::combinators::WithKeyPoints;
use plotters::coord::types::{RangedCoordi64, RangedCoordu64};
use plotters::prelude::*;
use plotters::style::text_anchor::{HPos, Pos, VPos};
use plotters_svg::SVGBackend;

use crate::machine::Machine;
use crate::samples::Samples;
use crate::watch::Step;

const SIZE: (u32, u32) = (960, 480);
const FONT: &str = "sans-serif";
const RED: RGBColor = RGBColor(200, 30, 30);
const STACK: RGBColor = RGBColor(31, 119, 180);
const ENTRY: RGBColor = RGBColor(44, 160, 44);

type Drawn = Result<(), Box<dyn std::error::Error>>;
type Chart<'a, 'b> =
    ChartContext<'a, SVGBackend<'b>, Cartesian2d<RangedCoordu64, WithKeyPoints<RangedCoordi64>>>;

/// A part of memory that is drawn as a band.
pub struct Band {
    pub name: String,
    pub range: Range<usize>,
}

/// A point with the words that stand beside it.
pub struct Note {
    pub step: u64,
    pub value: Option<u32>,
    pub words: String,
}

pub struct Plot {
    samples: Samples,
    bands: Vec<Band>,
}

impl Plot {
    pub fn new(start: &Machine, bands: Vec<Band>) -> Plot {
        Plot { samples: Samples::new(start), bands }
    }

    pub fn step(&mut self, step: &Step) {
        self.samples.step(step);
    }

    /// The picture as SVG.
    pub fn svg(&self, title: &str, end: &Note, faults: &[Note]) -> Result<String, String> {
        let mut text = String::new();
        let drawn = self.draw(&mut text, title, end, faults);
        drawn.map_err(|error| format!("the picture: {error}"))?;
        Ok(text)
    }

    /// Addresses from the lowest to the highest that is drawn, with some room around.
    fn addresses(&self) -> Range<i64> {
        let seen = self.samples.iter().filter_map(|(_, bucket)| bucket.range);
        let seen = seen.map(|(low, high)| (i64::from(low), i64::from(high)));
        let bands = self.bands.iter().map(|band| (band.range.start as i64, band.range.end as i64));
        let all: Vec<(i64, i64)> = seen.chain(bands).collect();
        let low = all.iter().map(|range| range.0).min().unwrap_or(0);
        let high = all.iter().map(|range| range.1).max().unwrap_or(0);
        let room = ((high - low) / 12).max(4);
        low - room..high + room
    }

    /// The corners of the line, a part for each stretch in which r0 is set and not marked.
    fn stretches(&self) -> Vec<Vec<(u64, i64)>> {
        let mut stretches = vec![Vec::new()];
        for (step, bucket) in self.samples.iter() {
            match (bucket.range, stretches.last_mut()) {
                (Some((low, high)), Some(stretch)) => {
                    let last = bucket.last.unwrap_or(low);
                    for value in [high, low, last] {
                        corner(stretch, step, value.into());
                    }
                }
                _ => stretches.push(Vec::new()),
            }
        }
        stretches.retain(|stretch| !stretch.is_empty());
        stretches
    }

    fn draw(&self, text: &mut String, title: &str, end: &Note, faults: &[Note]) -> Drawn {
        let root = SVGBackend::with_string(text, SIZE).into_drawing_area();
        root.fill(&WHITE)?;
        let addresses = self.addresses();
        let ticks = ticks(&addresses);
        let last = end.step.max(1);
        let mut chart = ChartBuilder::on(&root)
            .caption(title, (FONT, 20))
            .margin(14)
            .x_label_area_size(44)
            .y_label_area_size(92)
            .build_cartesian_2d(0..last, addresses.with_key_points(ticks))?;
        chart
            .configure_mesh()
            .x_desc("step")
            .y_desc("r0, the stack pointer")
            .label_style((FONT, 14))
            .axis_desc_style((FONT, 16))
            .y_label_formatter(&|address| format!("{address:#06x}"))
            .light_line_style(TRANSPARENT)
            .draw()?;
        self.draw_bands(&mut chart, last)?;
        self.draw_stack(&mut chart)?;
        for fault in faults {
            draw_note(&mut chart, fault, RED, last)?;
        }
        draw_note(&mut chart, end, BLACK, last)?;
        chart
            .configure_series_labels()
            .position(SeriesLabelPosition::LowerRight)
            .label_font((FONT, 14))
            .background_style(WHITE.mix(0.8))
            .border_style(BLACK.mix(0.4))
            .draw()?;
        root.present()?;
        Ok(())
    }

    fn draw_bands(&self, chart: &mut Chart, last: u64) -> Drawn {
        for band in &self.bands {
            let (low, high) = (band.range.start as i64, band.range.end as i64);
            let shape = Rectangle::new([(0, high), (last, low)], RED.mix(0.2).filled());
            chart.draw_series([shape])?;
            let style = (FONT, 15).into_font().color(&RED).pos(Pos::new(HPos::Left, VPos::Center));
            let name = Text::new(band.name.clone(), (8, 0), style);
            chart.draw_series([EmptyElement::at((0, (low + high) / 2)) + name])?;
        }
        Ok(())
    }

    fn draw_stack(&self, chart: &mut Chart) -> Drawn {
        let mut names = vec!["r0"];
        for stretch in self.stretches() {
            let line = chart.draw_series(LineSeries::new(stretch, STACK.stroke_width(2)))?;
            if let Some(name) = names.pop() {
                line.label(name).legend(|(x, y)| PathElement::new([(x, y), (x + 14, y)], STACK));
            }
        }
        let bottom = self.addresses().start;
        let entries = self.samples.iter().filter_map(|(_, bucket)| bucket.entry);
        let points: Vec<(u64, i64)> =
            entries.map(|(step, value)| (step, value.map_or(bottom, i64::from))).collect();
        if !points.is_empty() {
            let points = points.into_iter().map(|at| Circle::new(at, 4, ENTRY.filled()));
            let points = chart.draw_series(points)?;
            points.label("entry").legend(|(x, y)| Circle::new((x + 7, y), 4, ENTRY.filled()));
        }
        Ok(())
    }
}

/// A point, and its words on the side where there is room.
fn draw_note(chart: &mut Chart, note: &Note, colour: RGBColor, last: u64) -> Drawn {
    let bottom = chart.as_coord_spec().get_y_range().start;
    let at = (note.step, note.value.map_or(bottom, i64::from));
    let (side, x) = if note.step < last / 4 { (HPos::Left, 9) } else { (HPos::Right, -9) };
    let style = (FONT, 15).into_font().color(&colour).pos(Pos::new(side, VPos::Top));
    let words = Text::new(note.words.clone(), (x, 5), style);
    let point = Circle::new((0, 0), 5, colour.filled());
    chart.draw_series([EmptyElement::at(at) + point + words])?;
    Ok(())
}

/// Some round addresses of the range.
fn ticks(addresses: &Range<i64>) -> Vec<i64> {
    let length = (addresses.end - addresses.start) as u64;
    // A power of two that parts the range into four to eight.
    let distance = ((length / 4).max(1).next_power_of_two() / 2).max(1) as i64;
    let first = (addresses.start.div_euclid(distance) + 1).max(0);
    (first..).map(|n| n * distance).take_while(|&address| address < addresses.end).collect()
}

/// Adds the corners of a staircase.
fn corner(stretch: &mut Vec<(u64, i64)>, step: u64, value: i64) {
    match stretch[..] {
        // The step before was at the same height: the line grows.
        [.., (_, one), (_, two)] if one == two && two == value => {
            let last = stretch.len() - 1;
            stretch[last].0 = step;
        }
        [.., (_, before)] if before != value => stretch.extend([(step, before), (step, value)]),
        _ => stretch.push((step, value)),
    }
}

//! The plots of the tables.

use std::error::Error;
use std::path::Path;

use plotters::prelude::*;

const SIZE: (u32, u32) = (1080, 460);
const LEGEND: u32 = 150;
const FONT: &str = "sans-serif";
const COLOURS: [RGBColor; 10] = [
    RGBColor(42, 111, 158),
    RGBColor(210, 96, 26),
    RGBColor(60, 140, 90),
    RGBColor(150, 90, 160),
    RGBColor(120, 120, 120),
    RGBColor(190, 60, 80),
    RGBColor(90, 170, 200),
    RGBColor(200, 160, 40),
    RGBColor(70, 80, 140),
    RGBColor(110, 80, 60),
];

/// One line or one group of bars.
pub struct Series {
    /// Shown in the legend.
    pub name: String,
    /// A value for each place on the horizontal axis, where there is one.
    pub values: Vec<Option<f64>>,
}

fn bounds(series: &[Series]) -> (f64, f64) {
    let values = series.iter().flat_map(|series| series.values.iter().flatten());
    let (least, most) =
        values.fold((f64::INFINITY, 0.0_f64), |(least, most), &value| (least.min(value), most.max(value)));
    // A logarithmic axis from or to nowhere would have ticks without end.
    assert!(least > 0.0 && most.is_finite(), "there is nothing to draw from {least} to {most}");
    (least, most)
}

fn draw_legend(
    side: &DrawingArea<SVGBackend, plotters::coord::Shift>,
    series: &[Series],
) -> Result<(), Box<dyn Error>> {
    for (index, line) in series.iter().enumerate() {
        let y = 52 + 20 * index as i32;
        let colour = COLOURS[index % COLOURS.len()];
        side.draw(&Rectangle::new([(6, y), (18, y + 10)], colour.filled()))?;
        side.draw(&Text::new(line.name.clone(), (26, y), (FONT, 12)))?;
    }
    Ok(())
}

/// Bars in groups, one group a name, on a logarithmic axis; `level` is a line across all.
pub fn bars(
    file: &Path,
    title: &str,
    axis: &str,
    names: &[String],
    series: &[Series],
    level: Option<f64>,
) -> Result<(), Box<dyn Error>> {
    let area = SVGBackend::new(file, SIZE).into_drawing_area();
    area.fill(&WHITE)?;
    let (main, side) = area.split_horizontally(SIZE.0 - LEGEND);
    let (least, most) = bounds(series);
    let (low, high) = (least.min(level.unwrap_or(least)) / 1.6, most * 1.8);
    let mut chart = ChartBuilder::on(&main)
        .caption(title, (FONT, 20))
        .margin(14)
        .x_label_area_size(34)
        .y_label_area_size(64)
        .build_cartesian_2d(-0.5..names.len() as f64 - 0.5, (low..high).log_scale())?;
    let label = |place: &f64| names.get(place.round() as usize).cloned().unwrap_or_default();
    chart
        .configure_mesh()
        .disable_x_mesh()
        .light_line_style(WHITE)
        .bold_line_style(RGBColor(225, 225, 225))
        .x_labels(names.len())
        .x_label_formatter(&label)
        .y_label_formatter(&|value| format!("{value}"))
        .x_label_style((FONT, 11))
        .y_label_style((FONT, 12))
        .y_desc(axis)
        .axis_desc_style((FONT, 13))
        .draw()?;
    let wide = 0.8 / series.len() as f64;
    for (index, line) in series.iter().enumerate() {
        let colour = COLOURS[index % COLOURS.len()];
        let bars = line.values.iter().enumerate().filter_map(|(place, value)| {
            let left = place as f64 - 0.4 + index as f64 * wide;
            value.map(|value| Rectangle::new([(left, low), (left + wide * 0.92, value)], colour.filled()))
        });
        chart.draw_series(bars)?;
    }
    if let Some(level) = level {
        let ends = [(-0.5, level), (names.len() as f64 - 0.5, level)];
        chart.draw_series(LineSeries::new(ends, BLACK.stroke_width(1)))?;
    }
    draw_legend(&side, series)?;
    Ok(area.present()?)
}

/// Lines over lengths, both axes logarithmic.
pub fn lines(
    file: &Path,
    title: &str,
    axis: &str,
    lengths: &[usize],
    series: &[Series],
) -> Result<(), Box<dyn Error>> {
    let area = SVGBackend::new(file, SIZE).into_drawing_area();
    area.fill(&WHITE)?;
    let (main, side) = area.split_horizontally(SIZE.0 - LEGEND);
    let (least, most) = bounds(series);
    let (first, last) = (lengths[0] as f64, lengths[lengths.len() - 1] as f64);
    let mut chart = ChartBuilder::on(&main)
        .caption(title, (FONT, 20))
        .margin(14)
        .x_label_area_size(44)
        .y_label_area_size(64)
        .build_cartesian_2d((first / 1.3..last * 1.3).log_scale(), (least / 1.6..most * 1.6).log_scale())?;
    chart
        .configure_mesh()
        .light_line_style(WHITE)
        .bold_line_style(RGBColor(225, 225, 225))
        .x_label_formatter(&|value| crate::grouped(*value as usize))
        .y_label_formatter(&|value| format!("{value}"))
        .label_style((FONT, 12))
        .x_desc("steps")
        .y_desc(axis)
        .axis_desc_style((FONT, 13))
        .draw()?;
    for (index, line) in series.iter().enumerate() {
        let colour = COLOURS[index % COLOURS.len()];
        let points: Vec<(f64, f64)> = lengths
            .iter()
            .zip(&line.values)
            .filter_map(|(&length, value)| value.map(|value| (length as f64, value)))
            .collect();
        chart.draw_series(LineSeries::new(points.clone(), colour.stroke_width(2)))?;
        chart.draw_series(points.into_iter().map(|point| Circle::new(point, 3, colour.filled())))?;
    }
    draw_legend(&side, series)?;
    Ok(area.present()?)
}

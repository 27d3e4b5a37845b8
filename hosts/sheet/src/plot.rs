//! Pictures over time, as paths that a browser stretches to the width of the page: a column for each band. No text stands in them, so that it
//! keeps its size at every width; labels are put beside them by percent.

use std::fmt::Write;

use crate::bands::{Bands, Course, Extremes};

/// The height of a bar in the picture's own units.
const BAR: u64 = 20;
/// The height of a course's picture, in the middle of which 0 stands.
const COURSE: u64 = 200;

/// The width of the picture of these bands, in columns.
fn columns(bands: Bands) -> usize {
    bands.count().max(1)
}

/// A bar for each band, as high as the part of its ticks that count.
pub fn bars(ticks: &[u64], bands: Bands) -> String {
    let mut path = format!("M0 {BAR}");
    let mut last = 0;
    for (band, &some) in ticks.iter().enumerate() {
        let height = (some * BAR).div_ceil(bands.ticks_of(band).max(1));
        if height != last {
            let _ = write!(path, "H{band}V{}", BAR - height);
            last = height;
        }
    }
    let end = columns(bands);
    svg(
        bands,
        BAR,
        &format!(r#"<path class="bar" d="{path}H{end}V{BAR}Z"/>"#),
    )
}

/// A line for each band in which there is a mark.
pub fn marks(marks: &[bool], bands: Bands) -> String {
    let mut path = String::new();
    for (band, _) in marks.iter().enumerate().filter(|(_, &mark)| mark) {
        let _ = write!(path, "M{band} 0V1");
    }
    svg(bands, 1, &format!(r#"<path class="mark" d="{path}"/>"#))
}

/// A course with its bounds, where `reach` is as far from 0 as the picture goes.
pub fn course(course: &Course, bands: Bands, reach: f64) -> String {
    let middle = COURSE as f64 / 2.0;
    let y = |value: f64| (middle - middle * value / reach).round() as i64;
    let (corridor, bounds) = corridor(course, &y);
    let zero = format!(r#"<path class="zero" d="M0 {middle}H{}"/>"#, columns(bands));
    let drawn = match bands.width {
        1 => format!(r#"<path class="line" d="{}"/>"#, line(course, &y)),
        _ => format!(r#"<path class="area" d="{}"/>"#, area(course, &y)),
    };
    svg(bands, COURSE, &[corridor, zero, drawn, bounds].concat())
}

fn svg(bands: Bands, height: u64, inside: &str) -> String {
    let width = columns(bands);
    format!(
        r#"<svg viewBox="0 0 {width} {height}" preserveAspectRatio="none" aria-hidden="true">{inside}</svg>"#
    )
}

/// The bands, cut into runs that are alike by `key`: from which band to which, and the first of them.
fn runs<K: PartialEq>(
    course: &Course,
    key: impl Fn(&Extremes) -> K,
) -> Vec<(usize, usize, Extremes)> {
    let mut runs: Vec<(usize, usize, Extremes)> = Vec::new();
    for (band, extremes) in course.extremes.iter().enumerate() {
        let Some(extremes) = extremes else { continue };
        match runs.last_mut() {
            Some((_, to, first)) if *to == band && key(first) == key(extremes) => *to += 1,
            _ => runs.push((band, band + 1, *extremes)),
        }
    }
    runs
}

/// What lies between the bounds, and the bounds.
fn corridor(course: &Course, y: &impl Fn(f64) -> i64) -> (String, String) {
    let (mut inside, mut bounds) = (String::new(), String::new());
    for (from, to, extremes) in runs(course, |extremes| extremes.bound) {
        let (top, bottom) = (y(extremes.bound), y(-extremes.bound));
        let wide = to - from;
        let _ = write!(inside, "M{from} {top}h{wide}V{bottom}h-{wide}z");
        let _ = write!(bounds, "M{from} {top}h{wide}M{from} {bottom}h{wide}");
    }
    (
        format!(r#"<path class="corridor" d="{inside}"/>"#),
        format!(r#"<path class="bound" d="{bounds}"/>"#),
    )
}

/// Every band is a tick: from the value before it to the one after it.
fn line(course: &Course, y: &impl Fn(f64) -> i64) -> String {
    let mut path = String::new();
    for (band, extremes) in course.extremes.iter().enumerate() {
        let Some(extremes) = extremes else { continue };
        if extremes.is_first {
            let _ = write!(path, "M{band} {}", y(0.0));
        }
        let _ = write!(path, "L{} {}", band + 1, y(extremes.last));
    }
    path
}

/// Every band from its lowest value to its highest.
fn area(course: &Course, y: &impl Fn(f64) -> i64) -> String {
    let mut path = String::new();
    for (from, to, extremes) in runs(course, |extremes| (y(extremes.low), y(extremes.high))) {
        let (top, bottom, wide) = (y(extremes.high), y(extremes.low), to - from);
        let _ = write!(path, "M{from} {top}h{wide}V{bottom}h-{wide}z");
    }
    path
}

/// Round numbers of ticks along the time, five at the most, and where each stands in percent.
pub fn axis(bands: Bands) -> Vec<(u64, f64)> {
    let whole = (bands.width * bands.count() as u64).max(1);
    let steps = (0..).flat_map(|power| [1, 2, 5].map(|first| first * 10u64.pow(power)));
    let step = steps
        .into_iter()
        .find(|step| whole / step < 5)
        .unwrap_or(whole);
    let marks = (0..)
        .map(|k| k * step)
        .take_while(|&tick| tick <= bands.ticks);
    marks
        .map(|tick| (tick, 100.0 * tick as f64 / whole as f64))
        .collect()
}

//! Times of several ways of doing the same, taken in turns, and what a row prints of them.
use std::time::Instant;

/// Nanoseconds that one way took, pass by pass; none where there is no such way.
pub type Passes = Vec<f64>;

/// One pass of a way: what it took.
pub type Way<'a> = Option<&'a mut dyn FnMut() -> f64>;

pub fn took(work: impl FnOnce()) -> f64 {
    let began = Instant::now();
    work();
    began.elapsed().as_nanos() as f64
}

/// One pass of each way after the other, so that all meet the same machine. A first pass of each is
/// thrown away.
pub fn in_turns<const N: usize>(passes: usize, mut ways: [Way; N]) -> [Passes; N] {
    let mut told = [const { vec![] }; N];
    for pass in 0..=passes {
        for (way, told) in ways.iter_mut().zip(&mut told) {
            if let Some(way) = way {
                let took = way();
                if pass > 0 {
                    told.push(took);
                }
            }
        }
    }
    told
}

/// Infinite where there are no passes.
pub fn least(passes: &[f64]) -> f64 {
    passes.iter().copied().fold(f64::INFINITY, f64::min)
}

/// Of the ratios of passes taken together, the one that a tenth of them lie below and the one that
/// a tenth lie above.
fn spread(first: &[f64], second: &[f64]) -> (f64, f64) {
    let mut ratios: Vec<f64> = first.iter().zip(second).map(|(a, b)| a / b).collect();
    ratios.sort_by(f64::total_cmp);
    (ratios[ratios.len() / 10], ratios[ratios.len() - 1 - ratios.len() / 10])
}

/// The least time in ns a tuple.
fn time(passes: &[f64], tuples: usize) -> String {
    if passes.is_empty() { "-".to_string() } else { format!("{:.1}", least(passes) / tuples as f64) }
}

/// How many times as long the first took, and the spread of that over the passes.
fn ratio(first: &[f64], second: &[f64]) -> String {
    if first.is_empty() || second.is_empty() {
        return format!("{:>7} {:<14}", "-", "");
    }
    let (low, high) = spread(first, second);
    format!("{:>7.2} {:<14}", least(first) / least(second), format!("{low:.2} to {high:.2}"))
}

/// The original, the build before, flat lists and columns, in this order.
pub type Ways = [Passes; 4];

/// A row of the table: the time of each way; how far flat and columns are ahead of the original,
/// each with its aim; and what part of the time of the build before they take.
pub fn print(name: &str, [original, before, flat, columns]: &Ways, tuples: usize, aims: [f64; 2]) {
    let mut row = format!("{name:<48}");
    for way in [original, before, flat, columns] {
        row += &format!(" {:>8}", time(way, tuples));
    }
    for (way, aim) in [flat, columns].into_iter().zip(aims) {
        row += &ratio(original, way);
        row += &format!(" {aim:>4}");
    }
    if !before.is_empty() {
        for way in [flat, columns] {
            row += &format!(" {:>7.2}", least(way) / least(before));
        }
    }
    println!("{}", row.trim_end());
}

pub fn head(what: &str, before: bool) {
    let mut row = format!("\n{what:<48}");
    for way in ["original", "before", "flat", "columns"] {
        row += &format!(" {way:>8}");
    }
    for way in ["o / flat", "o / cols"] {
        row += &format!("{way:>9} {:<12} {:>4}", "spread", "aim");
    }
    if before {
        row += &format!(" {:>7} {:>7}", "f / b", "c / b");
    }
    println!("{row}");
}

/// Two ways, and how far their answers lie apart.
#[cfg(proj)]
pub fn print_beside(name: &str, first: &[f64], second: &[f64], tuples: usize, apart: f64) {
    println!("{name:<48} {:>8} {:>8}{} {apart:>10.1e}", time(first, tuples), time(second, tuples), ratio(first, second));
}

//! Times both implementations on the same inputs in one run, prints the times
//! side by side, and draws them.
#![forbid(unsafe_code)]

mod about;
mod asked;
mod case;
mod inputs;
mod numerals;
mod options;
mod plot;
mod questions;
mod table;
mod timing;
mod told;

use std::process::ExitCode;

use case::Case;
use options::{Options, Side, USAGE};
use timing::{Effort, measure};

fn main() -> ExitCode {
    let options = match Options::read(std::env::args().skip(1)) {
        Ok(options) => options,
        Err(message) => {
            eprintln!("{message}\n{USAGE}");
            return ExitCode::FAILURE;
        }
    };
    let rows = options.chosen(about::rows());
    if rows.is_empty() {
        eprintln!("no row has {} in its name", options.row);
        return ExitCode::FAILURE;
    }
    if let Some((side, calls)) = options.profile {
        profile(rows, side, calls);
        return ExitCode::SUCCESS;
    }
    match bench(&options, rows) {
        Ok(()) => ExitCode::SUCCESS,
        Err(message) => {
            eprintln!("{message}");
            ExitCode::FAILURE
        }
    }
}

/// Puts each row's question so many times to one side. It stays a call of its own,
/// so that a profiler can be told to count nothing else.
#[inline(never)]
fn profile(rows: Vec<Case>, side: Side, calls: u32) {
    for row in rows {
        let mut call = match side {
            Side::Kerbcanopy => row.asked.kerbcanopy,
            Side::Reference => row.asked.reference,
        };
        call(calls);
    }
}

/// Times the rows, and the curves if all rows are wanted.
fn bench(options: &Options, mut rows: Vec<Case>) -> Result<(), String> {
    let effort = match options.quick {
        true => Effort::QUICK,
        false => Effort::FULL,
    };
    let mut curves = about::curves();
    if !options.row.is_empty() {
        curves.clear();
    }
    let points = curves.iter_mut().flat_map(|curve| &mut curve.points);
    let times = measure(rows.iter_mut().chain(points), effort);
    let (times, growth) = times.split_at(rows.len());
    if options.quick {
        println!("Each question was put once: no time here says anything.");
    }
    table::print_rows(&rows, times);
    table::print_growth(&curves, growth);
    table::print_above(&rows, times);
    let Some(file) = &options.plot else {
        return Ok(());
    };
    let picture = plot::draw(&rows, times, &curves, growth);
    std::fs::write(file, picture).map_err(|error| format!("{file}: {error}"))
}

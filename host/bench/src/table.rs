//! What is printed: the rows, how cost grows, and the rows above 1.

use crate::about::{Along, Curve};
use crate::case::Case;
use crate::timing::Times;

pub fn print_rows(rows: &[Case], times: &[Times]) {
    println!(
        "{:<18} {:<50} {:>6} {:>11} {:>11} {:>6} {:>11}",
        "entry", "row", "number", "kerbcanopy", "reference", "ratio", "of the copy"
    );
    let mut entry = "";
    for (case, times) in rows.iter().zip(times) {
        if entry != case.entry {
            entry = case.entry;
            println!();
        }
        println!(
            "{entry:<18} {:<50} {:>6} {:>11.1} {:>11.1} {:>6.2} {:>11}",
            case.what,
            case.asked.number,
            times.kerbcanopy,
            times.reference,
            times.ratio,
            of_the_copy(times),
        );
    }
    println!();
    println!("kerbcanopy and reference in nanoseconds; ratio is the one to the other; number is");
    println!("the answer's; of the copy is kerbcanopy to a plain copy of the bytes asked about");
}

/// How many times the copy the library takes; nothing for what is refused early.
fn of_the_copy(times: &Times) -> String {
    match times.copy {
        Some(copy) => format!("{:.1}", times.kerbcanopy / copy),
        None => String::new(),
    }
}

/// The curves; the times are those of all points in order.
pub fn print_growth(curves: &[Curve], times: &[Times]) {
    if curves.is_empty() {
        return;
    }
    println!();
    println!("How cost grows: nanoseconds of kerbcanopy, and the ratio");
    let mut along = None;
    let mut times = times.iter();
    for curve in curves {
        if along != Some(curve.along) {
            along = Some(curve.along);
            print_places(curve);
        }
        let first = &curve.points[0];
        print!("{:<18} {:<28}", first.entry, first.what);
        for times in times.by_ref().take(curve.points.len()) {
            print!(" {:>10.1} {:>5.2}", times.kerbcanopy, times.ratio);
        }
        println!();
    }
}

/// The head of the curves that grow alike.
fn print_places(curve: &Curve) {
    println!();
    print!("{:<18} {:<28}", "entry", "of");
    for point in &curve.points {
        let place = match (curve.along, point.along.unwrap_or_default()) {
            (Along::Rows, rows) => format!("{rows} rows"),
            (Along::Bytes, bytes) => format!("{} KB", bytes / 1024),
        };
        print!(" {place:>10} {:>5}", "ratio");
    }
    println!();
}

/// The rows that take longer than the second implementation, the worst first.
pub fn print_above(rows: &[Case], times: &[Times]) {
    let mut above: Vec<(f64, String)> = (rows.iter().zip(times))
        .map(|(case, times)| (times.ratio, case.name()))
        .filter(|(ratio, _)| *ratio > 1.0)
        .collect();
    above.sort_by(|first, second| second.0.total_cmp(&first.0));
    println!();
    println!("Above 1.0: {} of {} rows", above.len(), rows.len());
    for (ratio, name) in above {
        println!("{ratio:>6.2}  {name}");
    }
}

//! The damaged cases that the checker computes are those that the program prints, so
//! that nobody edits them by hand.

use std::fs;
use std::path::Path;
use std::process::Command;

#[test]
fn the_file_is_what_is_printed() {
    let output = Command::new(env!("CARGO_BIN_EXE_differential"))
        .arg("--facts")
        .output()
        .expect("the program starts");
    let said = String::from_utf8_lossy(&output.stderr);
    assert!(output.status.success(), "{said}");
    let printed = String::from_utf8(output.stdout).expect("its output is text");
    let path = "../../crates/demands/specs/DamageCases.antt";
    let path = Path::new(env!("CARGO_MANIFEST_DIR")).join(path);
    let file = fs::read_to_string(path).expect("it can be read");
    let mut lines = file.lines().zip(printed.lines());
    let differs = lines.position(|(file, printed)| file != printed);
    assert_eq!(differs, None, "the first line that differs, counted from 0");
    assert!(file == printed, "one of them ends earlier");
}

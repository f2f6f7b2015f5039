//! The version of the linked library against that of the crates over it.

use kerbcanopy::{Version, version};

const fn of(major: u16, minor: u8, patch: u8) -> Version {
    Version {
        major,
        minor,
        patch,
    }
}

#[test]
fn the_library_is_of_this_crate_s_version() {
    assert_eq!(version().to_string(), env!("CARGO_PKG_VERSION"));
}

#[test]
fn a_later_version_is_greater() {
    let rising = [
        of(0, 0, 255),
        of(0, 1, 0),
        of(0, 2, 0),
        of(0, 2, 1),
        of(0, 10, 0),
        of(1, 0, 0),
        of(256, 0, 0),
    ];
    assert!(rising.is_sorted_by(|earlier, later| earlier < later));
    assert!(version() >= of(0, 2, 0));
}

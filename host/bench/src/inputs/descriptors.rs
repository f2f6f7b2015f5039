//! The descriptors that are timed, and how descriptors are put together.

/// Those with all kinds of rows: 2, a bath rig's 14, all 256, and four that are
/// long or deep in one way.
pub fn all() -> [(&'static str, Vec<u8>); 7] {
    [
        ("2 rows", array("", number(0x0A, ""))),
        ("14 rows", rig()),
        ("256 rows", numbers(256)),
        ("clusters eight deep", deepest()),
        ("an enumeration of 250 items", items()),
        ("40 quantities of nine pairs", quantities()),
        ("42 time stamps", stamps()),
    ]
}

/// A descriptor of a body, children and a name; no name where it is empty.
pub fn descriptor(code: u8, body: &[u8], name: &str, children: &[Vec<u8>]) -> Vec<u8> {
    let mut bytes = vec![0, 0, 0, code];
    bytes.extend(body);
    bytes.extend(children.concat());
    if !name.is_empty() {
        bytes.push(name.len() as u8);
        bytes.extend(name.bytes());
    }
    if bytes.len() % 2 == 1 {
        bytes.push(0);
    }
    let size = (bytes.len() as u16).to_be_bytes();
    bytes[..2].copy_from_slice(&size);
    bytes
}

fn array_words(dimensions: u8) -> Vec<u8> {
    [vec![0, dimensions], vec![0xFF; 4 * usize::from(dimensions)]].concat()
}

/// An array of one dimension.
pub fn array(name: &str, element: Vec<u8>) -> Vec<u8> {
    descriptor(0x40, &array_words(1), name, &[element])
}

pub fn number(code: u8, name: &str) -> Vec<u8> {
    descriptor(code, &[], name, &[])
}

pub fn text(name: &str) -> Vec<u8> {
    descriptor(0x30, &[0xFF; 4], name, &[])
}

pub fn cluster(name: &str, members: &[Vec<u8>]) -> Vec<u8> {
    let count = (members.len() as u16).to_be_bytes();
    descriptor(0x50, &count, name, members)
}

/// A time stamp.
pub fn stamp(name: &str) -> Vec<u8> {
    let integers = [0x03, 0x03, 0x07, 0x07].map(|code| number(code, ""));
    descriptor(0x54, &[0, 6], name, &[cluster("", &integers)])
}

/// A 16-bit enumeration of three items.
pub fn states(name: &str) -> Vec<u8> {
    let items = b"\x00\x03\x04idle\x07plating\x05rinse\x00";
    descriptor(0x16, items, name, &[])
}

/// A record of a copper blank as a bath rig sends it.
fn rig() -> Vec<u8> {
    let metres_per_second = [0, 2, 0, 2, 0xFF, 0xFF, 0, 3, 0, 1];
    let pulses = array("pulses", number(0x07, ""));
    let map = descriptor(0x40, &array_words(2), "thickness", &[number(0x0A, "")]);
    let bath = cluster(
        "bath",
        &[number(0x0A, "temperature"), number(0x0A, "current")],
    );
    cluster(
        "blank",
        &[
            number(0x07, "identifier"),
            text("operator"),
            bath,
            descriptor(0x1A, &metres_per_second, "flow", &[]),
            states("state"),
            pulses,
            map,
            number(0x21, "finished"),
            number(0x04, "started"),
        ],
    )
}

/// A cluster of named numbers that has so many rows, itself among them.
pub fn numbers(rows: usize) -> Vec<u8> {
    let members = (1..rows).map(|index| number(0x03, &format!("m{index:03}")));
    cluster("", &members.collect::<Vec<_>>())
}

/// Clusters in clusters down to the last depth, a named number in each.
fn deepest() -> Vec<u8> {
    (1..8).fold(number(0x0A, "deepest"), |inside, _| {
        cluster("outer", &[number(0x07, "id"), inside])
    })
}

/// An enumeration with many items.
fn items() -> Vec<u8> {
    let mut body = vec![0, 250];
    for index in 0..250 {
        body.push(8);
        body.extend(format!("item {index:03}").bytes());
    }
    cluster("", &[descriptor(0x16, &body, "many", &[])])
}

/// Physical quantities with as many unit pairs as there may be.
fn quantities() -> Vec<u8> {
    let pairs = (0..9).flat_map(|base| [0, base, 0xFF, 0xFE]);
    let body: Vec<u8> = [0, 9].into_iter().chain(pairs).collect();
    let members = (0..40).map(|index| descriptor(0x1A, &body, &format!("q{index:02}"), &[]));
    cluster("", &members.collect::<Vec<_>>())
}

/// As many time stamps as there may be rows for.
fn stamps() -> Vec<u8> {
    let members = (0..42).map(|index| stamp(&format!("t{index:02}")));
    cluster("", &members.collect::<Vec<_>>())
}

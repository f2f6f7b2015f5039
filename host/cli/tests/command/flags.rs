//! Booleans: any byte but 00 is true, and the byte is handed on as it came.

use crate::common::{Folder, hex};

fn lamp(test: &str) -> Folder {
    Folder::with_samples(test, &["lamp.hex", "reader-lit.hex", "data/lamp.hex"])
}

#[test]
fn the_lamp_rig_s_byte_stands_beside_its_value() {
    let folder = lamp("flags-shown");
    folder.run(&["dump", "lamp.hex", "data-lamp.hex"]).gives(
        "data-lamp.hex: accepted, 2 pieces
  -  cluster of 2 members, 5 bytes at 0
  0  unsigned 32-bit integer \"id\" = 9, 4 bytes at 0
  1  Boolean \"lit\" = true (byte FF), 1 byte at 4
",
    );
    let ran = folder.run(&["explain", "lamp.hex", "data-lamp.hex"]);
    let tail = "\
    0  0000  00 00 00 09                  0 \"id\" unsigned 32-bit integer = 9
    4  0004  FF                           1 \"lit\" Boolean = true (byte FF)
";
    assert!(ran.text().ends_with(tail), "{}", ran.text());
    let page = folder.run(&["explain", "--html", "lamp.hex", "data-lamp.hex"]);
    let field = "1 &quot;lit&quot; Boolean = true (byte FF)";
    assert!(page.text().contains(field));
}

#[test]
fn a_value_is_true_or_false_whatever_the_byte() {
    let folder = lamp("flags-value");
    for byte in 0..=u8::MAX {
        folder.put("data", &[0, 0, 0, 9, byte]);
        let said = if byte == 0 { "false\n" } else { "true\n" };
        folder
            .run(&["value", "lamp.hex", "data", "lit"])
            .gives(said);
    }
}

#[test]
fn views_orders_and_records_keep_every_byte() {
    let folder = lamp("flags-kept");
    for byte in 0..=u8::MAX {
        let (big, little) = ([0, 0, 0, 9, byte], [9, 0, 0, 0, byte]);
        folder.put("big", &big);
        folder.put("little", &little);
        let cases: [(&[&str], &[u8]); 4] = [
            (&["view", "lamp.hex", "big", "lit"], &[byte]),
            (&["little", "lamp.hex", "big"], &little),
            (&["big", "lamp.hex", "little"], &big),
            (&["read", "lamp.hex", "reader-lit.hex", "big"], &[byte]),
        ];
        for (words, bytes) in cases {
            let ran = folder.run(&[words, &["-o", "-"]].concat());
            assert_eq!((ran.status, &ran.out[..]), (0, bytes), "{words:?}");
        }
    }
}

#[test]
fn a_dump_for_scripts_has_the_byte() {
    let folder = lamp("flags-json");
    for (byte, value, bits) in [
        ("00", "false", "0000000000000000"),
        ("01", "true", "0000000000000001"),
        ("02", "true", "0000000000000001"),
        ("FF", "true", "0000000000000001"),
    ] {
        folder.put("data", &hex(&format!("00000009 {byte}")));
        let ran = folder.run(&["dump", "lamp.hex", "data", "--json"]);
        let part = format!(
            "{{\"path\":[1],\"name\":\"lit\",\"code\":33,\"type\":\"Boolean\",\"start\":4,\"length\":1,\
             \"kind\":\"flag\",\"value\":{value},\"text\":\"{value}\",\"bits\":\"{bits}\",\
             \"bytes\":\"{byte}\"}}]}}\n"
        );
        assert!(ran.text().ends_with(&part), "{}", ran.text());
    }
}

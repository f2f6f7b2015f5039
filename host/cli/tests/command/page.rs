//! `explain --html`: one page that needs nothing else.

use crate::common::descriptors::{cluster, descriptor, named, string};
use crate::common::{Folder, hex};

/// The values of an attribute's every use, in order.
fn values<'a>(page: &'a str, attribute: &str) -> Vec<&'a str> {
    let start = format!(" {attribute}=\"");
    let uses = page.split(&start).skip(1);
    uses.map(|rest| rest.split('"').next().unwrap_or_default())
        .collect()
}

/// What the elements of this name hold, tags and all.
fn inside<'a>(page: &'a str, opening: &str, closing: &str) -> Vec<&'a str> {
    let parts = page.split(opening).skip(1);
    parts
        .map(|rest| rest.split(closing).next().unwrap_or_default())
        .collect()
}

#[test]
fn the_page_is_written_whole_and_refers_to_nothing() {
    let folder = Folder::with_samples("page-whole", &["bath.hex", "data/bath.hex"]);
    let words = ["explain", "bath.hex", "data-bath.hex", "--html"];
    let shown = folder.run(&words);
    assert_eq!(shown.status, 0);
    let page = shown.text();
    let ran = folder.run(&[&words[..], &["-o", "page.html"]].concat());
    ran.writes("page.html: written");
    assert_eq!(folder.read("page.html"), page.as_bytes());
    assert!(page.starts_with("<!DOCTYPE html>\n<html lang=\"en\">\n"));
    assert!(page.ends_with("</body>\n</html>\n"));
    for reference in [
        "http", "//www", " src=", " href=", "url(", "@import", "<link", "<img", "<iframe", "fetch",
        "import(", "XMLHttp", "<base", "<form", "<object", "<embed",
    ] {
        assert!(!page.contains(reference), "{reference}");
    }
    for element in ["html", "head", "style", "body", "script"] {
        assert_eq!(
            page.matches(&format!("</{element}>")).count(),
            1,
            "{element}"
        );
    }
}

#[test]
fn every_byte_stands_there_once_with_its_field() {
    let folder = Folder::with_samples("page-bytes", &["bath.hex", "data/bath.hex"]);
    let ran = folder.run(&["explain", "bath.hex", "data-bath.hex", "--html"]);
    let sections = inside(ran.text(), "<section>", "</section>");
    assert_eq!(sections.len(), 2);
    for (section, length) in sections.iter().zip([124, 45]) {
        let bytes = inside(section, "<div class=\"bytes\"", "<ol ")[0];
        let places: Vec<String> = (0..length).map(|at: usize| at.to_string()).collect();
        assert_eq!(values(bytes, "data-at"), places);
        // A field for every byte, and a byte for every field but a cluster's.
        let mut of_bytes = values(bytes, "data-f");
        of_bytes.dedup();
        let fields = inside(section, "<ol class=\"fields\">", "</ol>")[0];
        let headings = fields.matches("<li class=\"heading\"").count();
        let of_fields = values(fields, "data-f");
        assert_eq!(of_bytes.len() + headings, of_fields.len());
        assert!(of_bytes.iter().all(|field| of_fields.contains(field)));
        assert!(!section.contains("place"));
    }
    assert!(
        ran.text()
            .contains("0 &quot;mode&quot; 8-bit enumeration of 4 items = 1 &quot;heat&quot;")
    );
}

#[test]
fn the_place_of_a_refusal_is_marked() {
    let names = ["bath.hex", "data/bath-note.hex", "array-in-array.hex"];
    let folder = Folder::with_samples("page-place", &names);
    folder.put("cut", &hex("01"));
    let cases: [(&[&str], &str); 3] = [
        (&["bath.hex", "data-bath-note.hex"], "29"),
        (&["array-in-array.hex"], "13"),
        (&["bath.hex", "cut"], "1"),
    ];
    for (files, place) in cases {
        let ran = folder.run(&[&["explain", "--html"], files].concat());
        assert_eq!(ran.status, 1);
        let marked = inside(ran.text(), "<b class=\"", "</b>");
        let marked = marked
            .iter()
            .filter(|byte| byte.split('"').next().unwrap().ends_with("place"));
        let marked: Vec<_> = marked.map(|byte| values(byte, "data-at")[0]).collect();
        assert_eq!(marked, [place], "{files:?}");
        let alerts = inside(ran.text(), "role=\"alert\">", "</p>");
        let line = ran
            .complaint()
            .replace('"', "&quot;")
            .replace('\'', "&#39;");
        assert_eq!(alerts, [line]);
    }
}

#[test]
fn foreign_text_stays_text() {
    let folder = Folder::new("page-foreign");
    let name = "<script>alert('1')&\".hex";
    let types = cluster(&[named(string(), b"</script><b onclick='x'>\x1B")]);
    folder.put(
        name,
        types
            .iter()
            .map(|byte| format!("{byte:02X}"))
            .collect::<String>()
            .as_bytes(),
    );
    folder.put("data", &[&hex("00000009")[..], b"<!--<svg>"].concat());
    let ran = folder.run(&["explain", "--html", name, "data"]);
    assert_eq!(ran.status, 0);
    let page = ran.text();
    assert!(page.contains("&lt;script&gt;alert(&#39;1&#39;)&amp;&quot;.hex <small>"));
    assert!(page.contains("&lt;/script&gt;&lt;b onclick=&#39;x&#39;&gt;\\x1B"));
    assert!(page.contains("&quot;&lt;!--&lt;svg&gt;&quot;"));
    assert_eq!(page.matches("<script>").count(), 1);
    assert!(!page.contains("<svg") && !page.contains("<!--"));
}

#[test]
fn a_refused_page_is_written_with_status_1() {
    let folder = Folder::new("page-refused");
    folder.put("types", &descriptor(0x32, &[]));
    let shown = folder.run(&["explain", "types", "--html"]);
    let ran = folder.run(&["explain", "types", "--html", "-o", "page.html"]);
    assert_eq!((ran.status, ran.text()), (1, ""));
    assert_eq!(ran.note, "kerbcanopy: page.html: written");
    assert_eq!(folder.read("page.html"), shown.out);
}

#[test]
fn what_is_missing_at_the_end_is_marked() {
    let folder = Folder::new("page-end");
    folder.put("short.hex", b"000A 0050 0001 0004 0030");
    let shown = folder.run(&["explain", "short.hex", "--html"]);
    let page = shown.text();
    assert!(page.contains("<b class=\"end place\" data-at=\"10\">end</b>"));
    let marked = inside(page, "<li class=\"fault place\"", "</li>");
    assert_eq!(marked.len(), 1);
    assert!(marked[0].contains("length: 4 bytes needed, 0 left"));
}

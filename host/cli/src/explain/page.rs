//! The explanation as one page for a browser that needs nothing else: the bytes,
//! what they are, and marks that go from one to the other.

use super::Section;
use crate::layout::{Field, Sort};

/// How many bytes stand in a row.
const BYTES: usize = 8;
const STYLE: &str = include_str!("page.css");
const SCRIPT: &str = include_str!("page.js");

pub fn of(sections: &[Section]) -> String {
    let title = match sections.last() {
        Some(section) => escaped(&section.file.name),
        None => String::new(),
    };
    let mut page = format!(
        "<!DOCTYPE html>\n<html lang=\"en\">\n<head>\n<meta charset=\"utf-8\">\n\
         <meta name=\"viewport\" content=\"width=device-width, initial-scale=1\">\n\
         <title>{title}</title>\n<style>\n{STYLE}</style>\n</head>\n<body>\n"
    );
    // What is refused stands first: it is what the page is opened for.
    let mut ordered: Vec<_> = sections.iter().enumerate().collect();
    ordered.sort_by_key(|(_, section)| section.refusal.is_none());
    for (number, section) in ordered {
        page += &section_of(section, number);
    }
    page + &format!("<script>\n{SCRIPT}</script>\n</body>\n</html>\n")
}

fn section_of(section: &Section, number: usize) -> String {
    let refusal = section.refusal.as_ref().map(|refusal| {
        let line = escaped(&refusal.line());
        format!("<p class=\"refusal\" role=\"alert\">{line}</p>\n")
    });
    format!(
        "<section>\n<h1>{} <small>{}, {}</small></h1>\n{}<div class=\"panes\">\n\
         <div class=\"bytes\" tabindex=\"0\" aria-label=\"bytes\">\n{}</div>\n<ol class=\"fields\">\n{}</ol>\n</div>\n</section>\n",
        escaped(&section.file.name),
        section.title,
        escaped(&section.verdict),
        refusal.unwrap_or_default(),
        bytes(section, number),
        fields(section, number),
    )
}

/// The name by which bytes and their field find each other.
fn mark(section: usize, field: usize) -> String {
    format!("{section}-{field}")
}

fn bytes(section: &Section, number: usize) -> String {
    let bytes = &section.file.bytes;
    // The field of each byte.
    let mut of = vec![0; bytes.len()];
    for (index, field) in section.fields.iter().enumerate() {
        of[field.bytes.clone()].fill(index);
    }
    let mut text = String::new();
    for start in (0..bytes.len()).step_by(BYTES) {
        text += &format!("<div><span class=\"at\">{start:>5} {start:04X}</span>");
        for at in start..bytes.len().min(start + BYTES) {
            let field = &section.fields[of[at]];
            let class = class(field, section.place() == Some(at));
            let mark = mark(number, of[at]);
            let byte = bytes[at];
            text +=
                &format!("<b class=\"{class}\" data-f=\"{mark}\" data-at=\"{at}\">{byte:02X}</b>");
        }
        text += "</div>\n";
    }
    if section.place() == Some(bytes.len()) {
        let at = bytes.len();
        text += &format!(
            "<div><span class=\"at\">{at:>5} {at:04X}</span>\
             <b class=\"end place\" data-at=\"{at}\">end</b></div>\n"
        );
    }
    text
}

fn fields(section: &Section, number: usize) -> String {
    // Where the place is behind the last byte, no field has it: what is missing there is marked.
    let behind = section.place() == Some(section.file.bytes.len());
    let lines = section.fields.iter().enumerate().map(|(index, field)| {
        let there = section.place().is_some_and(|place| field.bytes.contains(&place));
        let marked = there || behind && field.sort == Sort::Fault;
        format!(
            "<li class=\"{}\" data-f=\"{}\" style=\"--depth:{}\" tabindex=\"0\"><span class=\"at\">{}</span><span class=\"says\">{}</span></li>\n",
            class(field, marked),
            mark(number, index),
            field.depth,
            field.bytes.start,
            escaped(&field.text),
        )
    });
    lines.collect()
}

fn class(field: &Field, place: bool) -> String {
    let sort = field.sort.word();
    if place {
        format!("{sort} place")
    } else {
        sort.into()
    }
}

/// Text that can't be taken for anything but text.
fn escaped(text: &str) -> String {
    let mut escaped = String::new();
    for character in text.chars() {
        match character {
            '&' => escaped += "&amp;",
            '<' => escaped += "&lt;",
            '>' => escaped += "&gt;",
            '"' => escaped += "&quot;",
            '\'' => escaped += "&#39;",
            _ => escaped.push(character),
        }
    }
    escaped
}

#[cfg(test)]
mod tests {
    use super::*;

    #[test]
    fn foreign_text_stays_text() {
        assert_eq!(
            escaped("<script>'&\"</script>"),
            "&lt;script&gt;&#39;&amp;&quot;&lt;/script&gt;"
        );
    }
}

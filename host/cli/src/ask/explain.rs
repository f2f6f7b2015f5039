//! Every byte with what it is.

use std::io::IsTerminal;

use crate::command::Request;
use crate::explain::{Section, page, text};
use crate::json::Json;
use crate::outcome::Outcome;
use crate::output;
use crate::stream::{self, Stream};
use crate::words::shown;

/// Explains the descriptor and, where it is accepted, the data.
pub fn explain(request: &Request) -> Result<Outcome, String> {
    let all = request.options.all;
    let descriptor = &request.files[0];
    let mut sections = vec![Section::descriptor(descriptor)];
    if let (Some(data), None) = (request.files.get(1), &sections[0].refusal) {
        sections.push(Section::data(descriptor, data, all));
    }
    let answer = shape(request, &sections);
    let refusal = sections.iter().find_map(|section| section.refusal.as_ref());
    let (answer, note) = match request.options.out.as_deref() {
        Some(out) if stream::named(out) != Some(Stream::Output) => {
            output::save(out, answer.as_bytes())?;
            let out_json = [("out", Json::text(shown(out)))];
            match request.options.json {
                true => (verdict(&sections).with(out_json).line(), String::new()),
                false => (String::new(), output::note(out, "written")),
            }
        }
        _ => (answer, String::new()),
    };
    let outcome = match refusal {
        None => Outcome::accepted(answer),
        Some(refusal) => Outcome::refused(answer, refusal.line()),
    };
    Ok(Outcome { note, ..outcome })
}

/// The explanation in the form that is asked for.
fn shape(request: &Request, sections: &[Section]) -> String {
    match (request.options.json, request.options.html) {
        (true, _) => {
            let listed = Json::list(sections.iter().map(Section::json));
            verdict(sections).with([("sections", listed)]).line()
        }
        (_, true) => page::of(sections),
        _ => text::of(sections, request.options.all, coloured(request)),
    }
}

/// The answer to the last question that was asked: about the data, or about a
/// descriptor that is refused or alone.
fn verdict(sections: &[Section]) -> Json {
    let last = sections.last().map(Section::answer_json);
    last.unwrap_or(Json::Null)
}

/// Colours are for a terminal that can show them, and for who wants them.
fn coloured(request: &Request) -> bool {
    let set = |name| std::env::var_os(name).is_some_and(|value| !value.is_empty());
    let dumb = std::env::var_os("TERM").is_none_or(|terminal| terminal == "dumb");
    request.options.out.is_none() && !set("NO_COLOR") && !dumb && std::io::stdout().is_terminal()
}

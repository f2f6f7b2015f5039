//! `explain` in colour: on a terminal and nowhere else.

use crate::common::Folder;

/// What the command shows on a terminal of its own, with this environment.
fn on_a_terminal(folder: &Folder, environment: &str, words: &str) -> String {
    let line =
        format!("script --quiet --return --command \"env {environment} '$K' {words}\" /dev/null");
    let output = folder.shell(&line);
    assert!(
        output.status.code().is_some_and(|status| status < 2),
        "{output:?}"
    );
    let text = String::from_utf8(output.stdout).expect("it is text");
    text.replace("\r\n", "\n")
}

/// The text without its colours.
fn plain(text: &str) -> String {
    let mut parts = text.split("\u{1b}[");
    let first = parts.next().unwrap_or_default().to_string();
    let rest = parts.map(|part| part.split_once('m').expect("the colour ends").1);
    first + &rest.collect::<String>()
}

#[test]
fn a_terminal_has_colours() {
    let names = ["rig.hex", "data/rig-cut.hex"];
    let folder = Folder::with_samples("colour-terminal", &names);
    let words = ["explain", "rig.hex", "data-rig-cut.hex"];
    let ran = folder.run(&words);
    assert!(!ran.text().contains('\u{1b}'));
    let shown = on_a_terminal(&folder, "-u NO_COLOR TERM=xterm", &words.join(" "));
    // The terminal has both streams.
    let both = format!("{}{}", ran.text(), ran.err);
    assert_eq!(plain(&shown), both);
    for colour in [
        "\u{1b}[36msize 20\u{1b}[0m\n",
        "\u{1b}[1;41;97m[00]\u{1b}[0m",
    ] {
        assert!(shown.contains(colour), "{shown}");
    }
}

#[test]
fn colours_are_left_out_where_they_are_not_wanted() {
    let folder = Folder::with_samples("colour-none", &["rig.hex"]);
    let text = folder.run(&["explain", "rig.hex"]);
    for environment in [
        "TERM=xterm NO_COLOR=1",
        "-u NO_COLOR TERM=dumb",
        "-u NO_COLOR -u TERM",
    ] {
        assert_eq!(
            on_a_terminal(&folder, environment, "explain rig.hex"),
            text.text()
        );
    }
    let written = on_a_terminal(&folder, "-u NO_COLOR TERM=xterm", "explain rig.hex -o out");
    assert_eq!(written, "kerbcanopy: out: written\n");
    assert_eq!(folder.read("out"), text.out);
    let piped = on_a_terminal(&folder, "-u NO_COLOR TERM=xterm", "explain rig.hex -o -");
    assert_eq!(piped, text.text());
    for command in ["check", "dump --help"] {
        let shown = on_a_terminal(&folder, "TERM=xterm", &format!("{command} rig.hex"));
        assert!(!shown.contains('\u{1b}'));
    }
}

//! The command in a folder of a test's own: files put there, words given, and
//! what came of it.

pub mod books;
pub mod descriptors;
pub mod json;

use std::ffi::OsStr;
use std::fs;
use std::io::Write;
use std::path::{Path, PathBuf};
use std::process::{Child, Command, Output, Stdio};

use json::Json;

/// The command itself.
pub const KERBCANOPY: &str = env!("CARGO_BIN_EXE_kerbcanopy");

/// The bytes of a sample of the repository.
pub fn sample(name: &str) -> Vec<u8> {
    let samples = Path::new(env!("CARGO_MANIFEST_DIR")).join("../../samples");
    fs::read(samples.join(name)).expect("the sample is there")
}

/// The bytes that pairs of hexadecimal digits stand for.
pub fn hex(text: &str) -> Vec<u8> {
    let digits: Vec<u8> = text.bytes().filter(|digit| *digit != b' ').collect();
    let byte = |pair: &[u8]| {
        let pair = str::from_utf8(pair).expect("digits are text");
        u8::from_str_radix(pair, 16).expect("it is a byte")
    };
    digits.chunks(2).map(byte).collect()
}

/// A folder of one test's own, empty at first. The command runs in it, so that
/// files have short names.
pub struct Folder {
    pub path: PathBuf,
}

impl Folder {
    pub fn new(test: &str) -> Folder {
        Folder::below(Path::new(env!("CARGO_TARGET_TMPDIR")), test)
    }

    /// The same in another place.
    pub fn below(top: &Path, test: &str) -> Folder {
        let path = top.join(test);
        let _ = fs::remove_dir_all(&path);
        fs::create_dir_all(&path).expect("the folder can be made");
        Folder { path }
    }

    /// The folder with these samples, each under its own name without its folder.
    pub fn with_samples(test: &str, names: &[&str]) -> Folder {
        let folder = Folder::new(test);
        for name in names {
            let short = name.replace("data/", "data-");
            folder.put(&short, &sample(name));
        }
        folder
    }

    pub fn put(&self, name: impl AsRef<Path>, bytes: &[u8]) {
        fs::write(self.path.join(name), bytes).expect("it can be written");
    }

    pub fn read(&self, name: impl AsRef<Path>) -> Vec<u8> {
        fs::read(self.path.join(name)).expect("it can be read")
    }

    /// Every name in the folder, hidden ones too, in order.
    pub fn names(&self) -> Vec<String> {
        let entries = fs::read_dir(&self.path).expect("the folder is there");
        let names = entries.map(|entry| entry.expect("it is readable").file_name());
        let mut names: Vec<_> = names.map(|name| name.display().to_string()).collect();
        names.sort();
        names
    }

    pub fn command(&self, words: &[impl AsRef<OsStr>]) -> Command {
        let mut command = Command::new(KERBCANOPY);
        command.args(words).current_dir(&self.path);
        command.stdin(Stdio::null());
        command
    }

    pub fn run(&self, words: &[impl AsRef<OsStr>]) -> Ran {
        let output = self.command(words).output();
        Ran::of(output.expect("the command starts"))
    }

    /// Runs the command with these bytes, a few, on standard input.
    pub fn feed(&self, words: &[impl AsRef<OsStr>], bytes: &[u8]) -> Ran {
        let mut command = self.command(words);
        command.stdin(Stdio::piped());
        command.stdout(Stdio::piped()).stderr(Stdio::piped());
        let mut child: Child = command.spawn().expect("the command starts");
        // It may end before it has read them.
        let _ = child.stdin.take().map(|mut pipe| pipe.write_all(bytes));
        Ran::of(child.wait_with_output().expect("the command ends"))
    }

    /// Runs a line of the shell, in which `$K` is the command. What it prints last
    /// is the command's.
    pub fn shell(&self, line: &str) -> Output {
        let mut shell = Command::new("sh");
        shell.args(["-c", line]).current_dir(&self.path);
        shell.env("K", KERBCANOPY).stdin(Stdio::null());
        shell.output().expect("there is a shell")
    }
}

/// What came of the command: its exit status and both streams.
#[derive(Debug)]
pub struct Ran {
    pub status: i32,
    pub out: Vec<u8>,
    /// The line on standard error that a file was written; else empty.
    pub note: String,
    /// What else is there.
    pub err: String,
}

impl Ran {
    /// Takes the output, and holds it to what every run keeps: standard error has
    /// one line where the status is not 0, else none, behind a note where a file was
    /// written, and can steer no terminal.
    pub fn of(output: Output) -> Ran {
        let status = output.status.code().expect("it ends by itself");
        let told = String::from_utf8(output.stderr).expect("its words are text");
        assert!(is_tame(&told), "{told:?}");
        let (note, err) = match told.split_once('\n') {
            Some((first, rest)) if first.ends_with(" written") => (first, rest),
            _ => ("", &told[..]),
        };
        assert!(note.is_empty() || note.starts_with("kerbcanopy: "));
        if status == 0 {
            assert_eq!(err, "");
        } else {
            assert!(err.starts_with("kerbcanopy: "), "{err:?}");
            assert!(err.ends_with('\n') && err.lines().count() == 1, "{err:?}");
        }
        Ran {
            status,
            out: output.stdout,
            note: note.into(),
            err: err.into(),
        }
    }

    /// Standard output, which can steer no terminal either.
    pub fn text(&self) -> &str {
        let text = str::from_utf8(&self.out).expect("the answer is text");
        assert!(is_tame(text), "{text:?}");
        text
    }

    /// The line on standard error behind the command's name.
    pub fn complaint(&self) -> &str {
        let line = self.err.strip_prefix("kerbcanopy: ").unwrap_or_default();
        line.trim_end_matches('\n')
    }

    #[track_caller]
    pub fn gives(&self, answer: &str) {
        assert_eq!((&self.note[..], &self.err[..]), ("", ""));
        assert_eq!(self.text(), answer);
        assert_eq!(self.status, 0);
    }

    /// A file is written, of which this note is said and nothing else.
    #[track_caller]
    pub fn writes(&self, note: &str) {
        assert_eq!(self.note, format!("kerbcanopy: {note}"));
        assert_eq!((self.status, self.text(), &self.err[..]), (0, "", ""));
    }

    /// It is refused in this line, and nothing else is said.
    #[track_caller]
    pub fn refuses(&self, line: &str) {
        assert_eq!(self.complaint(), line);
        assert_eq!((self.status, self.text(), &self.note[..]), (1, "", ""));
    }

    /// It is a wrong use or trouble with a file, told in this line.
    #[track_caller]
    pub fn troubles(&self, line: &str) {
        assert_eq!(self.complaint(), line);
        assert_eq!((self.status, self.text(), &self.note[..]), (2, "", ""));
    }

    /// Standard output as JSON: one line of ASCII.
    #[track_caller]
    pub fn json(&self) -> Json {
        let text = self.text();
        assert!(text.is_ascii(), "{text}");
        let line = text.strip_suffix('\n').expect("the line ends");
        assert!(!line.contains('\n'), "{text}");
        json::parse(line).unwrap_or_else(|wrong| panic!("{wrong} in {line}"))
    }
}

/// Whether text has no control character but the ends of lines.
fn is_tame(text: &str) -> bool {
    text.chars()
        .all(|character| character == '\n' || !character.is_control())
}

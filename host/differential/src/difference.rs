//! A difference between two results that should be the same.

/// The results, the question and the inputs that led to them.
pub struct Difference {
    pub question: String,
    pub proved: String,
    pub other: String,
    pub inputs: Vec<String>,
}

pub type Held<T> = Result<T, Difference>;

/// A difference unless `same`; the texts, that of the proved library first, are
/// made only when needed.
pub fn demand(same: bool, question: &str, texts: impl FnOnce() -> [String; 2]) -> Held<()> {
    if same {
        return Ok(());
    }
    let [proved, other] = texts();
    Err(Difference {
        question: question.to_string(),
        proved,
        other,
        inputs: Vec::new(),
    })
}

/// A difference unless every byte that may not change is as it was.
pub fn demand_guarded(untouched: bool, question: &str) -> Held<()> {
    let texts = || ["lent or guard bytes changed".into(), "none may".into()];
    demand(untouched, question, texts)
}

impl Difference {
    /// Adds an input in front of those named already.
    pub fn about(mut self, input: &str, bytes: &[u8]) -> Difference {
        self.inputs.insert(0, format!("{input}: {}", hex(bytes)));
        self
    }

    pub fn print(&self) {
        println!("difference in {}", self.question);
        for input in &self.inputs {
            println!("  {input}");
        }
        println!("  kerbcanopy: {}", self.proved);
        println!("  expected:   {}", self.other);
    }
}

/// The library's answer as the second implementation writes it.
pub fn plain(answer: kerbcanopy::Answer) -> reference::Answer {
    reference::Answer {
        number: answer.number,
        input: answer.input,
        place: answer.place,
    }
}

/// How many bytes of an input or output are shown.
const SHOWN: usize = 512;

/// Two outputs as texts, from the first byte on that differs.
pub fn outputs(proved: &[u8], other: &[u8]) -> [String; 2] {
    let mut pairs = proved.iter().zip(other);
    let place = pairs.position(|(one, other)| one != other).unwrap_or(0);
    [proved, other].map(|bytes| format!("from byte {place}, {}", hex(&bytes[place..])))
}

/// Bytes in groups of two, sixteen to a line.
fn hex(bytes: &[u8]) -> String {
    let mut text = format!("{} bytes", bytes.len());
    for (index, byte) in bytes.iter().take(SHOWN).enumerate() {
        text += match index % 16 {
            0 => "\n    ",
            2 | 4 | 6 | 8 | 10 | 12 | 14 => " ",
            _ => "",
        };
        text += &format!("{byte:02X}");
    }
    if bytes.len() > SHOWN {
        text += "\n    ..";
    }
    text
}

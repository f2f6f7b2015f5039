//! Data in both byte orders, written side by side.

/// The data, and its little-endian form.
#[derive(Clone, Default)]
pub struct Both {
    pub big: Vec<u8>,
    pub little: Vec<u8>,
}

impl Both {
    pub fn new() -> Both {
        Both::default()
    }

    pub fn len(&self) -> usize {
        self.big.len()
    }

    /// Adds a number; the bytes come most significant first.
    pub fn push_number(&mut self, bytes: &[u8]) {
        self.big.extend(bytes);
        self.little.extend(bytes.iter().rev());
    }

    /// Adds bytes that have no order: characters and Booleans.
    pub fn push_plain(&mut self, bytes: &[u8]) {
        self.big.extend(bytes);
        self.little.extend(bytes);
    }

    /// Puts a number in the place of another.
    pub fn set_number(&mut self, place: usize, bytes: &[u8]) {
        let end = place + bytes.len();
        self.big[place..end].copy_from_slice(bytes);
        self.little[place..end].copy_from_slice(bytes);
        self.little[place..end].reverse();
    }

    pub fn number(mut self, bytes: &[u8]) -> Both {
        self.push_number(bytes);
        self
    }

    /// A length or a size.
    pub fn word(self, word: u32) -> Both {
        self.number(&word.to_be_bytes())
    }

    pub fn words(self, words: &[u32]) -> Both {
        words.iter().fold(self, |both, word| both.word(*word))
    }

    pub fn plain(mut self, bytes: &[u8]) -> Both {
        self.push_plain(bytes);
        self
    }

    /// This data, then the other.
    pub fn then(mut self, other: &Both) -> Both {
        self.big.extend(&other.big);
        self.little.extend(&other.little);
        self
    }

    /// The first bytes of both.
    pub fn cut(&self, length: usize) -> Both {
        Both {
            big: self.big[..length].to_vec(),
            little: self.little[..length].to_vec(),
        }
    }
}

//! What each number of a refusal means, in words.

/// What the number means. It fits behind "refused with 4: ".
pub fn meaning(number: u32) -> &'static str {
    match number {
        1 => "the descriptor has more than 4,096 bytes",
        2 => "fewer than 4 bytes are left where a descriptor should start",
        3 => "the size has its high bit set",
        4 => "the size is odd, under 4, or runs past the end of what it stands in",
        5 => "the code is none that is read here, or a time stamp's subtype is not 6",
        6 => "it stands nine levels deep, and eight are the most",
        7 => "it would be type 257, and 256 are the most",
        8 => "what the type needs is longer than its size allows",
        9 => "a count is outside its limits",
        10 => {
            "a length or dimension is not FFFFFFFF, a unit's base is over 8, \
             an enumeration's fill byte is not zero, an array stands directly in an array, \
             or a time stamp holds anything but its cluster of four integers"
        }
        11 => "what is left after the type is no name",
        12 => "bytes follow the descriptor",
        20 => "the data has more than 65,536 bytes",
        21 => "the data ends inside this piece",
        22 => "a length or size is 2147483648 or more",
        23 => "the enumeration has no item of this number",
        25 => "bytes are left over",
        30 => "the step leads nowhere: there is no such part",
        31 => {
            "there is no single number: a string, array, cluster, time stamp, extended \
             or complex number"
        }
        32 => "the difference's seconds don't fit 64 signed bits",
        40 => {
            "the reader is no cluster, or this member's name is missing, empty \
             or an earlier member's"
        }
        41 => "the writer is no cluster",
        42 => "the writer has no member of this name",
        43 => "the writer has several members of this name",
        44 => "the writer's member of this name is of another type",
        50 => "the output is too small",
        60 => "the identifier is already in the book",
        61 => "the book has no free entry",
        62 => "the book has no room for the body",
        63 => "the book is not well formed",
        64 => "the book has no record of this identifier",
        _ => "a number that is not known here",
    }
}

#[cfg(test)]
mod tests {
    use super::meaning;

    #[test]
    fn every_number_has_words_of_its_own() {
        let numbers = (1..=12)
            .chain(20..=23)
            .chain([25])
            .chain(30..=32)
            .chain(40..=44)
            .chain([50])
            .chain(60..=64);
        let mut meanings: Vec<_> = numbers.map(meaning).collect();
        assert!(!meanings.contains(&meaning(0)));
        meanings.sort();
        meanings.dedup();
        assert_eq!(meanings.len(), 31);
        // Given once, for a Boolean's byte over 1.
        assert_eq!(meaning(24), meaning(0));
    }
}

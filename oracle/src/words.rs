//! The words of a program that is asked by its arguments. A case is the length (2 bytes) of the words, the words with a space between two,
//! and the input records.

use crate::frames::Fields;
use crate::random::Random;

pub fn case(words: &[String], records: &[u8]) -> Vec<u8> {
    let words = words.join(" ");
    [&(words.len() as u16).to_be_bytes()[..], words.as_bytes(), records].concat()
}

/// The words and the input records of a case.
pub fn parts(case: &[u8]) -> (String, &[u8]) {
    let mut f = Fields(case);
    let n = usize::from(f.u16());
    (String::from_utf8_lossy(f.bytes(n)).into_owned(), f.rest())
}

/// A question's words as a program takes them.
pub fn asked(question: &str, words: &str) -> Vec<String> {
    [question].into_iter().chain(words.split_whitespace()).map(String::from).collect()
}

/// A decimal number of 64 bits.
pub fn number(word: &str) -> Option<u64> {
    word.parse().ok().filter(|_| word.bytes().all(|b| b.is_ascii_digit()))
}

/// What a letter behind a number stands for: powers of 1024.
const LETTERS: [&str; 6] = ["K", "M", "G", "T", "P", "E"];

/// A size in bytes: a number, or one with a letter, if it has 64 bits.
pub fn size(word: &str) -> Option<u64> {
    for (letter, power) in LETTERS.into_iter().zip(1..) {
        if let Some(digits) = word.strip_suffix(letter) {
            return number(digits)?.checked_mul(1 << (10 * power));
        }
    }
    number(word)
}

/// The size as a word: half of the time with the largest letter that fits, or with a smaller one.
pub fn size_word(r: &mut Random, bytes: u64) -> String {
    let most = if bytes == 0 { 6 } else { bytes.trailing_zeros() / 10 };
    let power = match r.below(4) {
        0 => most,
        1 => r.below(u64::from(most) + 1) as u32,
        _ => 0,
    };
    match power {
        0 => bytes.to_string(),
        _ => format!("{}{}", bytes >> (10 * power), LETTERS[power as usize - 1]),
    }
}

/// Words that are no size. The last three have more than 64 bits.
const NO_SIZES: [&str; 13] = [
    "K",
    "-1",
    "+1",
    "1.5G",
    "0x100",
    "1KK",
    "G1",
    "1GiB",
    "1X",
    "1-",
    "18446744073709551616",
    "16E",
    "18014398509481984K",
];

pub fn no_size(r: &mut Random) -> String {
    r.pick(&NO_SIZES).into()
}

/// Spoils the words: one is no number, one is missing, or there is one more.
pub fn spoil(r: &mut Random, words: &mut Vec<String>) {
    let at = r.below(words.len() as u64 + 1) as usize;
    match r.below(4) {
        0 if at < words.len() => drop(words.remove(at)),
        1 => words.insert(at, "7".into()),
        _ if at < words.len() => words[at] = no_size(r),
        _ => words.push(no_size(r)),
    }
}

#[cfg(test)]
mod tests {
    use super::*;

    #[test]
    fn sizes() {
        for (word, bytes) in [("0", 0), ("7K", 7 << 10), ("300M", 300 << 20), ("15E", 15 << 60), ("0E", 0)] {
            assert_eq!(size(word), Some(bytes));
        }
        assert_eq!(size("18446744073709551615"), Some(u64::MAX));
        assert!(NO_SIZES.iter().all(|word| size(word).is_none()));
        let mut r = Random::new(1);
        for _ in 0..10_000 {
            let bytes = r.wide() << r.below(64);
            assert_eq!(size(&size_word(&mut r, bytes)), Some(bytes));
        }
    }
}

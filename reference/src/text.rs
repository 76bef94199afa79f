//! The text forms that the console allows: numerals, bytes, gaps between words, line ends, and
//! lines that answer nothing.

use crate::random::Random;

/// Longer lines are errors.
pub const LONGEST_LINE: usize = 4096;

/// A word of a line: as it stands, or one that may be written in several ways.
pub enum Word<'a> {
    Name(&'static str),
    Number(u32),
    Signed(i32),
    Bytes(&'a [u8]),
}

/// One call's line. Most are plain; the others use the freedom that the console gives, as far as
/// the line has room for it.
pub fn call_line(random: &mut Random, words: &[Word]) -> String {
    let mut line = free_line(random, words);
    if line.len() > LONGEST_LINE {
        line = plain_line(words);
    }
    if random.chance(1, 2000) {
        line.push_str(&" ".repeat(LONGEST_LINE.saturating_sub(line.len())));
    }
    line.push_str(line_end(random));
    line
}

pub fn plain_line(words: &[Word]) -> String {
    let words: Vec<String> = words.iter().map(plain_word).collect();
    words.join(" ")
}

fn plain_word(word: &Word) -> String {
    match *word {
        Word::Name(name) => name.to_string(),
        Word::Number(number) => number.to_string(),
        Word::Signed(number) => number.to_string(),
        Word::Bytes(bytes) => byte_pairs(bytes),
    }
}

fn free_line(random: &mut Random, words: &[Word]) -> String {
    let plain_words = random.chance(3, 4);
    let plain_gaps = random.chance(11, 12);
    let mut line = String::new();
    if !plain_gaps && random.chance(1, 2) {
        line.push_str(gap(random));
    }
    for (place, word) in words.iter().enumerate() {
        if place > 0 {
            line.push_str(if plain_gaps { " " } else { gap(random) });
        }
        if plain_words {
            line.push_str(&plain_word(word));
        } else {
            line.push_str(&free_word(random, word));
        }
    }
    if !plain_gaps && random.chance(1, 2) {
        line.push_str(gap(random));
    }
    line
}

fn free_word(random: &mut Random, word: &Word) -> String {
    match *word {
        Word::Name(name) => name.to_string(),
        Word::Number(number) => numeral(random, number),
        Word::Signed(number) => signed_numeral(random, number),
        // "hexadecimal digits in pairs, capital or small"
        Word::Bytes(bytes) if random.chance(1, 2) => byte_pairs(bytes).to_uppercase(),
        Word::Bytes(bytes) => mixed_case(random, &byte_pairs(bytes)),
    }
}

/// "Printed bytes are small letters, `-` where there are none."
pub fn byte_pairs(bytes: &[u8]) -> String {
    if bytes.is_empty() {
        return "-".to_string();
    }
    bytes.iter().map(|byte| format!("{byte:02x}")).collect()
}

fn gap(random: &mut Random) -> &'static str {
    random.pick(&[" ", "  ", "\t", " \t", "\t\t", "   ", "\t "])
}

/// "A carriage return before the line's end is ignored."
fn line_end(random: &mut Random) -> &'static str {
    random.weighted(&[(59, "\n"), (1, "\r\n")])
}

#[derive(Clone, Copy)]
enum Numeral {
    Decimal,
    LowerHexadecimal,
    UpperHexadecimal,
    MixedHexadecimal,
    ZerosDecimal,
    ZerosHexadecimal,
}

/// "Numbers are decimal, or hexadecimal after `0x` or `0X` (at least one digit) ...; leading zeros
/// are allowed."
fn numeral(random: &mut Random, number: u32) -> String {
    let form = random.weighted(&[
        (4, Numeral::Decimal),
        (3, Numeral::LowerHexadecimal),
        (2, Numeral::UpperHexadecimal),
        (2, Numeral::MixedHexadecimal),
        (1, Numeral::ZerosDecimal),
        (1, Numeral::ZerosHexadecimal),
    ]);
    let zeros = "0".repeat(random.pick(&[1, 1, 2, 3, 8, 16]));
    match form {
        Numeral::Decimal => number.to_string(),
        Numeral::LowerHexadecimal => format!("0x{number:x}"),
        Numeral::UpperHexadecimal => format!("0X{number:X}"),
        Numeral::MixedHexadecimal => {
            let prefix = random.pick(&["0x", "0X"]);
            let digits = mixed_case(random, &format!("{number:x}"));
            format!("{prefix}{digits}")
        }
        Numeral::ZerosDecimal => format!("{zeros}{number}"),
        Numeral::ZerosHexadecimal => format!("0x{zeros}{number:X}"),
    }
}

/// "A signed number is decimal with `-` before it where it is negative [..]; hexadecimal has no
/// sign." Leading zeros are allowed behind the sign too.
fn signed_numeral(random: &mut Random, number: i32) -> String {
    let size = number.unsigned_abs();
    if number >= 0 {
        return numeral(random, size);
    }
    let zeros = "0".repeat(random.pick(&[0, 0, 0, 0, 1, 2, 8]));
    format!("-{zeros}{size}")
}

fn mixed_case(random: &mut Random, digits: &str) -> String {
    let mut text = String::new();
    for digit in digits.chars() {
        if random.chance(1, 2) {
            text.push(digit.to_ascii_uppercase());
        } else {
            text.push(digit);
        }
    }
    text
}

/// "A line that is empty, blank, or whose first word begins with `#` is skipped and answers
/// nothing, however long it is."
pub fn skipped_line(random: &mut Random) -> String {
    if random.chance(1, 150) {
        return format!("# {}\n", "a comment longer than any call ".repeat(200));
    }
    let text = random.pick(&[
        "",
        "",
        " ",
        "\t",
        " \t  ",
        "#",
        "# a comment",
        "#write 0 64",
        "  # load 1 2 3",
        "\t#\tstart 0 0 0 0 0",
        "## \"quoted\" 0xZZ -1",
    ]);
    format!("{text}{}", line_end(random))
}

#[cfg(test)]
mod tests {
    use super::*;

    /// The number of a numeral, by the console's words.
    fn value(text: &str) -> Option<u32> {
        let digits = text.strip_prefix("0x").or_else(|| text.strip_prefix("0X"));
        match digits {
            Some(digits) => u32::from_str_radix(digits, 16).ok(),
            None => text.parse().ok(),
        }
    }

    /// The bytes of a word of bytes, by the console's words.
    fn bytes(text: &str) -> Option<Vec<u8>> {
        if text == "-" {
            return Some(Vec::new());
        }
        let pairs = text.as_bytes().chunks(2);
        pairs
            .map(|pair| u8::from_str_radix(std::str::from_utf8(pair).ok()?, 16).ok())
            .collect()
    }

    /// The words of a line, which must not be too long.
    fn words(line: &str) -> Vec<&str> {
        let ended = line.strip_suffix('\n').unwrap();
        let ended = ended.strip_suffix('\r').unwrap_or(ended);
        assert!(ended.len() <= LONGEST_LINE);
        let words = ended.split([' ', '\t']);
        words.filter(|word| !word.is_empty()).collect()
    }

    #[test]
    fn a_line_says_its_word_and_its_numbers() {
        let mut random = Random::new(5);
        for turn in 0..50_000 {
            let numbers = [turn, random.any(), u32::MAX, 0];
            let mut said = vec![Word::Name("start")];
            said.extend(numbers.map(Word::Number));
            let line = call_line(&mut random, &said);
            let found = words(&line);
            assert_eq!(found[0], "start");
            let read: Option<Vec<u32>> = found[1..].iter().copied().map(value).collect();
            assert_eq!(read.as_deref(), Some(&numbers[..]), "{line}");
        }
    }

    /// The number of a signed numeral, by the console's words.
    fn signed_value(text: &str) -> Option<i32> {
        match text.strip_prefix('-') {
            Some(digits) => digits
                .parse()
                .ok()
                .map(|size: u32| 0i32.wrapping_sub_unsigned(size)),
            None => value(text)?.try_into().ok(),
        }
    }

    #[test]
    fn a_line_says_its_signed_numbers() {
        let mut random = Random::new(5);
        for turn in 0..50_000 {
            let numbers = [turn, -turn - 1, random.any() as i32, i32::MAX, i32::MIN, 0];
            let mut said = vec![Word::Name("gfresh")];
            said.extend(numbers.map(Word::Signed));
            let line = call_line(&mut random, &said);
            let found = words(&line);
            let read: Option<Vec<i32>> = found[1..].iter().copied().map(signed_value).collect();
            assert_eq!(read.as_deref(), Some(&numbers[..]), "{line}");
        }
    }

    #[test]
    fn a_line_says_its_bytes() {
        let mut random = Random::new(5);
        for turn in 0..5_000 {
            let string: Vec<u8> = (0..turn % 40).map(|_| random.byte()).collect();
            let said = [Word::Name("run"), Word::Bytes(&string), Word::Number(turn)];
            let line = call_line(&mut random, &said);
            let found = words(&line);
            assert_eq!(bytes(found[1]), Some(string), "{line}");
            assert_eq!(value(found[2]), Some(turn));
        }
    }

    #[test]
    fn the_longest_load_fits_into_a_line() {
        let mut random = Random::new(6);
        let mut said = vec![Word::Name("load")];
        said.extend([u32::MAX; 76].map(Word::Number));
        for _ in 0..5_000 {
            assert_eq!(words(&call_line(&mut random, &said)).len(), 77);
        }
    }

    #[test]
    fn skipped_lines_are_blank_or_comments() {
        let mut random = Random::new(6);
        for _ in 0..5_000 {
            let line = skipped_line(&mut random);
            let text = line.trim();
            assert!(line.ends_with('\n') && (text.is_empty() || text.starts_with('#')));
        }
    }
}

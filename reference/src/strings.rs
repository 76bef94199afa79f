//! Order strings for runs, well formed and damaged, and the allowances and rooms that they are run
//! with. Only inputs are chosen here, no answers.

use crate::choices;
use crate::orders::{number_bytes, record_bytes, Record, KINDS};
use crate::random::Random;

/// With any allowance and room, in plain words, a line has place for so many bytes.
const LONGEST_STRING: usize = 2037;

/// The console's answer buffer has no more bytes.
const MOST_ROOM: u32 = 2048;

/// Few mostly, so that scenarios stay small; now and then as many as a line has place for.
pub fn number_of_records(random: &mut Random) -> usize {
    let few = random.between(2, 6);
    let some = random.between(7, 24);
    let many = random.between(25, 80);
    let most = random.between(100, 750);
    let records: u32 =
        random.weighted(&[(4, 0), (10, 1), (42, few), (35, some), (8, many), (1, most)]);
    records as usize
}

/// The records as a string: as they are, with an odd record between them, or damaged.
pub fn string_of(random: &mut Random, records: &[Record]) -> Vec<u8> {
    let place = random.below(records.len() as u32 + 1) as usize;
    let (before, after) = records.split_at(place);
    let mut string = bytes_of(before);
    match random.below(6) {
        0..=2 => string.extend(bytes_of(after)),
        3..=4 => {
            string.extend(odd_record(random));
            string.extend(bytes_of(after));
        }
        _ => string.extend(beginning_of_odd_record(random)),
    }
    if random.chance(1, 6) {
        damage(random, &mut string);
    }
    string.truncate(LONGEST_STRING);
    string
}

fn bytes_of(records: &[Record]) -> Vec<u8> {
    let bytes = records.iter().map(|record| record_bytes(record));
    bytes.collect::<Vec<_>>().concat()
}

/// Cut off anywhere, a bit changed, a byte dropped or a byte doubled.
fn damage(random: &mut Random, string: &mut Vec<u8>) {
    if string.is_empty() {
        return;
    }
    let place = random.below(string.len() as u32) as usize;
    match random.below(5) {
        0..=1 => string.truncate(place),
        2 => string[place] ^= 1 << random.below(8),
        3 => {
            string.remove(place);
        }
        _ => string.insert(place, string[place]),
    }
}

/// A record that stops a run, or nearly does.
fn odd_record(random: &mut Random) -> Vec<u8> {
    match random.below(35) {
        0..=17 => record_bytes(&refused_record(random)),
        18..=21 => record_bytes(&record_out_of_range(random)),
        22..=24 => record_bytes(&record_of_unknown_kind(random)),
        25..=33 => record_with_odd_number(random),
        _ => record_bytes(&any_record(random)),
    }
}

/// All of an odd record, or some of its bytes.
fn beginning_of_odd_record(random: &mut Random) -> Vec<u8> {
    let mut bytes = odd_record(random);
    let kept = random.between(1, bytes.len() as u32);
    bytes.truncate(kept as usize);
    bytes
}

/// Of a call that is refused with 2, 3, 4, 5 or 8.
fn refused_record(random: &mut Random) -> Record {
    let byte = random.byte().into();
    match random.below(18) {
        0 => vec![0, choices::no_register(random), byte],
        1 => vec![1, choices::no_register(random)],
        2..=3 => vec![0, choices::read_only_register(random), byte],
        4..=6 => {
            let configuration = random.between(0x02, 0x07);
            let refused = choices::refused_configuration(random);
            vec![0, configuration, refused.into()]
        }
        7..=8 => {
            let target = choices::target_address(random);
            vec![0, target + random.below(2), byte]
        }
        9..=12 => {
            let address = choices::address_without_words(random);
            vec![5, address, choices::word_for(random, address).into()]
        }
        13..=15 => vec![3, choices::no_channel(random), random.below(2100)],
        _ => vec![6, choices::no_channel(random)],
    }
}

/// A write value, a word or a pin level that is too large, or just not; the write may be one that
/// is refused besides.
fn record_out_of_range(random: &mut Random) -> Record {
    let any = random.any();
    match random.below(3) {
        0 => {
            let level = random.pick(&[1, 2, 3, 127, 128, 129, 256, 257, u32::MAX, any]);
            vec![4, level]
        }
        1 => {
            let address = choices::address(random);
            vec![0, address, value_about(random, 255)]
        }
        _ => {
            let address = choices::word_address(random);
            vec![5, address, value_about(random, 65_535)]
        }
    }
}

/// The highest value allowed, or a larger one whose lower byte or half alone may be one.
fn value_about(random: &mut Random, highest: u32) -> u32 {
    let any = random.any();
    let allowed = any & highest;
    random.pick(&[
        highest,
        highest + 1,
        highest + 1 + allowed,
        2 * highest + 1,
        (1 << 24) + allowed,
        (1 << 31) + allowed,
        u32::MAX,
        any,
    ])
}

/// Some of these have a low group, byte or half that is a kind.
fn record_of_unknown_kind(random: &mut Random) -> Record {
    let kinds = KINDS.len() as u32;
    let kind = random.below(kinds);
    let any = random.any().max(kinds);
    let unknown = random.pick(&[
        kinds,
        kinds + 1,
        kinds + 2,
        127,
        128 + kind,
        256 + kind,
        65_536 + kind,
        (1 << 28) + kind,
        u32::MAX,
        any,
    ]);
    vec![unknown, random.below(128), random.below(256)]
}

/// A record of any kind, its numbers in range or not.
pub fn any_record(random: &mut Random) -> Record {
    let number = choices::number_of_some_length(random);
    let channel = random.between(1, 6);
    // A word twice as often as another kind: it has two numbers, and a limit to the second.
    match random.pick(&[0, 1, 2, 3, 4, 5, 5, 6]) {
        0 => {
            let register = choices::address(random);
            let byte = choices::byte_for(random, register).into();
            let address = random.pick(&[register, register, number]);
            vec![0, address, random.pick(&[byte, byte, number])]
        }
        1 => {
            let register = choices::address(random);
            vec![1, random.pick(&[register, register, number])]
        }
        2 => vec![2, number],
        3 => vec![3, random.pick(&[channel, channel, number]), number],
        4 => vec![4, random.pick(&[0, 1, number])],
        5 => {
            let register = choices::word_address(random);
            let word = choices::word_for(random, register).into();
            let address = random.pick(&[register, register, register, number]);
            vec![5, address, random.pick(&[word, word, number])]
        }
        6 => vec![6, random.pick(&[channel, channel, number])],
        _ => unreachable!("no kind without a record"),
    }
}

/// Any record, with one of its numbers not in the shortest form or with a fifth byte.
fn record_with_odd_number(random: &mut Random) -> Vec<u8> {
    let record = any_record(random);
    let odd = random.below(record.len() as u32) as usize;
    let mut bytes = Vec::new();
    for (place, &number) in record.iter().enumerate() {
        let groups = number_bytes(number);
        if place != odd {
            bytes.extend(groups);
        } else if random.chance(1, 2) {
            bytes.extend(long_form(random, groups));
        } else {
            bytes.extend(with_fifth_byte(random, groups));
        }
    }
    bytes
}

/// The same number with groups of 0 after it, up to or beyond the fifth byte.
fn long_form(random: &mut Random, groups: Vec<u8>) -> Vec<u8> {
    let mut bytes = continued(groups);
    let more = bytes.len() + random.below(3) as usize;
    bytes.resize(more, 0x80);
    bytes.push(0x00);
    bytes
}

fn with_fifth_byte(random: &mut Random, groups: Vec<u8>) -> Vec<u8> {
    let filling = random.pick(&[0x80, 0xFF, 0xA5]);
    let mut bytes = continued(groups);
    bytes.resize(4, filling);
    bytes.push(random.pick(&[
        0x00, 0x01, 0x0F, 0x0F, 0x10, 0x10, 0x11, 0x1F, 0x7F, 0x80, 0x81, 0x8F, 0x90, 0xFF,
    ]));
    bytes
}

/// The bytes, each with its top bit set.
fn continued(bytes: Vec<u8>) -> Vec<u8> {
    bytes.into_iter().map(|byte| byte | 0x80).collect()
}

/// An allowance for a string of which a run can take `takeable` records: enough mostly, and often
/// just enough or one less. One more lets the run come to the record that stops it.
pub fn allowance(random: &mut Random, takeable: u32) -> u32 {
    let any = random.any();
    let fewer = random.below(takeable + 1);
    random.weighted(&[
        (10, u32::MAX),
        (5, any),
        (8, takeable + 1),
        (5, takeable),
        (2, takeable.saturating_sub(1)),
        (2, fewer),
        (1, 0),
        (1, 1),
    ])
}

/// Room for the answers to a string of so many bytes: mostly enough and not much more, else short,
/// by one byte, by more, or with place for nothing but the answers that can be given.
pub fn room(random: &mut Random, bytes: usize, answers: usize) -> u32 {
    let bytes = bytes as u32;
    let any_large = random.between(bytes, MOST_ROOM);
    if random.chance(1, 150) {
        return random.pick(&[MOST_ROOM, any_large]);
    }
    let larger = bytes + random.below(12);
    let smaller = random.below(bytes + 1);
    let room = random.weighted(&[
        (24, bytes),
        (6, bytes + 1),
        (8, larger),
        (2, bytes.saturating_sub(1)),
        (1, answers as u32),
        (1, smaller),
        (1, 0),
    ]);
    room.min(MOST_ROOM)
}

#[cfg(test)]
mod tests {
    use super::*;
    use crate::text::{plain_line, Word, LONGEST_LINE};

    #[test]
    fn the_longest_run_fits_into_a_line() {
        let string = [0xFF; LONGEST_STRING];
        let line = plain_line(&[
            Word::Name("run"),
            Word::Bytes(&string),
            Word::Number(u32::MAX),
            Word::Number(MOST_ROOM),
        ]);
        assert!(line.len() <= LONGEST_LINE);
    }

    #[test]
    fn strings_and_rooms_stay_within_the_console() {
        let mut random = Random::new(8);
        for turn in 0..2000 {
            let records = vec![vec![2, u32::MAX]; turn];
            let string = string_of(&mut random, &records);
            assert!(string.len() <= LONGEST_STRING);
            assert!(room(&mut random, string.len(), 0) <= MOST_ROOM);
        }
    }
}

//! What the galley's calls are made with: temperatures beside the limits of the rows and the
//! thresholds, tables that agree with the present targets or do not, and spans of rows. Only inputs
//! are chosen here, no answers.

use crate::galley::{duty_of, hysteresis, row_after, Galley, Tables, HIGHEST, LOWEST, ROWS};
use crate::galley::{in_range, UPPER_LIMITS};
use crate::model::{Channel, State, FULL_DUTY};
use crate::random::Random;
use crate::states::galley::{any_temperature, threshold};

/// The number, one less or one more.
fn beside(random: &mut Random, number: i32) -> i32 {
    number + random.pick(&[-1, 0, 1])
}

/// A temperature of any kind, mostly where something changes.
pub fn temperature_about(random: &mut Random, galley: &Galley) -> i32 {
    let limit = 8 * random.pick(&UPPER_LIMITS);
    match random.below(24) {
        0..=4 => beside(random, limit),
        5..=9 => beside_the_hold(random, galley),
        10..=12 => step_of_walk(random, galley),
        13..=16 => beside_a_threshold(random, galley),
        17..=18 => any_temperature(random),
        19 => random.pick(&[-18, -17, -16, -15, -9, -8, -7, -2, -1, 0, 1, 15, 16]),
        20 => near_the_top(random),
        21 => random.pick(&[LOWEST, HIGHEST, LOWEST + 1, HIGHEST - 1]),
        _ => outside(random),
    }
}

/// Where the present row, or some other one, is just held or just not: its lower limit less the
/// hysteresis, or less that of the other bit.
fn beside_the_hold(random: &mut Random, galley: &Galley) -> i32 {
    let any_row = random.below(ROWS as u32) as usize;
    let present = usize::from(galley.row).min(ROWS - 1);
    let row = random.weighted(&[(5, present), (1, any_row)]).max(1);
    let hold = hysteresis(galley);
    let less = random.weighted(&[(5, hold), (1, 48 - hold)]);
    beside(random, 8 * UPPER_LIMITS[row - 1] - less)
}

/// Seldom below it: whether the sample is above is told by the threshold and the next eighth.
pub fn beside_a_threshold(random: &mut Random, galley: &Galley) -> i32 {
    let threshold = random.pick(&[galley.high, galley.over]);
    i32::from(threshold) + random.pick(&[-1, 0, 0, 1, 1])
}

/// The present temperature and some eighths more or less.
fn step_of_walk(random: &mut Random, galley: &Galley) -> i32 {
    let any = random.between(1, 60) as i32;
    let step = random.pick(&[0, 1, 8, 15, 16, 17, 31, 32, 33, any, any]);
    let sign = random.pick(&[-1, 1]);
    i32::from(galley.temperature) + sign * step
}

/// The next temperature of a walk: about a row or a hysteresis on, now and then further. From
/// outside the rows it comes back to one of their limits.
pub fn step_towards(random: &mut Random, galley: &Galley, upwards: bool) -> i32 {
    let present = i32::from(galley.temperature);
    if !(80..=960).contains(&present) {
        let limit = 8 * random.pick(&UPPER_LIMITS);
        return beside(random, limit);
    }
    let any = random.between(1, 200) as i32;
    let step = random.pick(&[1, 7, 8, 15, 16, 16, 17, 31, 32, 33, 48, any]);
    if upwards {
        present + step
    } else {
        present - step
    }
}

/// So high that with the hysteresis it is above every temperature, or just not.
fn near_the_top(random: &mut Random) -> i32 {
    let less = random.pick(&[0, 15, 16, 17, 31, 32, 33]);
    HIGHEST - less
}

/// Next to the range, or with lower bits that are in range, or at the ends of the numbers.
fn outside(random: &mut Random) -> i32 {
    let inside = any_temperature(random);
    random.pick(&[
        LOWEST - 1,
        LOWEST - 1,
        HIGHEST + 1,
        HIGHEST + 1,
        2048 + inside,
        -2049 - inside.abs(),
        65_536 + inside,
        inside - 65_536,
        32_767,
        -32_768,
        i32::MAX,
        i32::MIN,
    ])
}

/// A threshold for a fresh galley.
pub fn threshold_for(random: &mut Random, wrong: bool) -> i32 {
    if wrong {
        outside(random)
    } else {
        threshold(random)
    }
}

/// Tables for a sample: the byte that it will look up is often one that some targets have already.
pub fn tables_about(
    random: &mut Random,
    galley: &Galley,
    controller: &State,
    temperature: i32,
) -> Tables {
    let mut tables = any_tables(random);
    if in_range(temperature) && random.chance(2, 3) {
        let row = usize::from(row_after(galley, temperature));
        let byte = byte_about(random, controller);
        let (normal, quiet) =
            random.weighted(&[(4, (true, true)), (1, (true, false)), (1, (false, true))]);
        set_row(&mut tables.normal, row, byte, normal);
        set_row(&mut tables.quiet, row, byte, quiet);
    }
    tables
}

fn set_row(table: &mut [u8], row: usize, byte: u8, wanted: bool) {
    if let (Some(place), true) = (table.get_mut(row), wanted) {
        *place = byte;
    }
}

/// The byte of one of the present targets, or the one below that.
fn byte_about(random: &mut Random, controller: &State) -> u8 {
    let byte = byte_of(&random.pick(&controller.channels));
    random.weighted(&[(6, byte), (1, byte.saturating_sub(1))])
}

/// The byte that gives the channel's target, or the one below it where none does.
pub fn byte_of(channel: &Channel) -> u8 {
    if channel.target >= FULL_DUTY {
        0xFF
    } else {
        (channel.target / 2) as u8
    }
}

/// Two tables, mostly of 48 bytes each.
pub fn any_tables(random: &mut Random) -> Tables {
    let mut tables = whole_tables(random);
    if random.chance(1, 8) {
        // A bit for each table whose length is wrong.
        let wrong = random.between(1, 3);
        if wrong & 1 != 0 {
            spoil_length(random, &mut tables.normal);
        }
        if wrong & 2 != 0 {
            spoil_length(random, &mut tables.quiet);
        }
    }
    tables
}

pub fn whole_tables(random: &mut Random) -> Tables {
    let normal = whole_table(random);
    let mut quiet = whole_table(random);
    if random.chance(1, 3) {
        // The two agree, or differ in one row.
        quiet.clone_from(&normal);
        if random.chance(2, 3) {
            let row = random.below(ROWS as u32) as usize;
            quiet[row] = quiet[row].wrapping_add(random.pick(&[1, 255, 128]));
        }
    }
    Tables { normal, quiet }
}

fn whole_table(random: &mut Random) -> Vec<u8> {
    let kind = random.below(10);
    let (first, step) = (random.below(40), random.between(1, 5));
    let one = random.pick(&[0x00, 0x00, 0xFF, 0xFF, 0xFE, 0x01, 0x80, 0x7F]);
    let byte_of_row = |row: u32| match kind {
        0..=3 => random.byte(),
        4 => one,
        5 => random.pick(&[0xFE, 0xFF]),
        6 => random.pick(&[0x00, 0x01, 0x7F, 0x80, 0xFD, 0xFE, 0xFF]),
        // Rising row by row, in steps of some rows, or falling.
        7 => (first + step * row).min(255) as u8,
        8 => (first + 51 * (row / 8)).min(255) as u8,
        _ => 255 - (first + step * row).min(255) as u8,
    };
    (0..ROWS as u32).map(byte_of_row).collect()
}

/// The lower byte of the longest of these lengths is 48.
fn spoil_length(random: &mut Random, table: &mut Vec<u8>) {
    let any = random.below(120);
    let length = random.weighted(&[
        (6, 0),
        (3, 1),
        (12, 47),
        (12, 49),
        (2, 24),
        (2, 96),
        (6, any),
        (1, 304),
    ]);
    let filling = random.pick(&[0x00, 0xFF, 0x55]);
    table.resize(length as usize, filling);
}

/// The first row and the end of a span: mostly a part of the table, else just not.
pub fn span_of_rows(random: &mut Random) -> (u32, u32) {
    let end = random.between(0, 48);
    let first = random.between(0, end);
    let edge = random.pick(&[0, 1, 46, 47, 48, 49, 50]);
    let other = random.pick(&[0, 1, 46, 47, 48, 49, 50]);
    let far = random.pick(&[255, 256, 304, 65_536, 1 << 31, u32::MAX - 1, u32::MAX]);
    random.weighted(&[
        (6, (first, end)),
        (2, (0, 48)),
        (2, (end, end)),
        (1, (48, 48)),
        (1, (49, 49)),
        (2, (end + 1, end)),
        (6, (edge, other)),
        (1, (first, 49)),
        (1, (first, far)),
        (1, (far, end)),
        (1, (far, far)),
    ])
}

/// A duty that the row's byte does not give, but a byte beside it or half of its word may.
pub fn word_beside(random: &mut Random, byte: u8) -> u16 {
    let duty = duty_of(byte);
    let any = random.below(512) as u16;
    let other = random.pick(&[duty ^ 1, duty ^ 2, duty ^ 0x100, any]);
    other << 7 | random.below(128) as u16
}

#[cfg(test)]
mod tests {
    use super::*;
    use crate::console::GalleyCall;
    use crate::text::{plain_line, LONGEST_LINE};

    #[test]
    fn the_longest_sample_fits_into_a_line() {
        let call = GalleyCall::Sample {
            temperature: i32::MIN,
            tables: Tables {
                normal: vec![0; 304],
                quiet: vec![0; 304],
            },
        };
        assert!(plain_line(&call.words()).len() <= LONGEST_LINE / 2);
    }

    #[test]
    fn lengths_lie_about_forty_eight() {
        let mut random = Random::new(9);
        let mut lengths = vec![0; 305];
        for _ in 0..20_000 {
            let tables = any_tables(&mut random);
            lengths[tables.normal.len()] += 1;
            lengths[tables.quiet.len()] += 1;
        }
        assert!([0, 1, 47, 49, 96, 304]
            .iter()
            .all(|&length| lengths[length] > 0));
        assert!(lengths[ROWS] > 36_000);
    }
}

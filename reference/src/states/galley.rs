//! Random galley states for `gload`: sound ones, and ones that are not sound by a single field.

use crate::galley::{Galley, HIGHEST, LOWEST};
use crate::random::Random;

/// Row and temperature mostly do not suit each other: a sound state need not be one that samples
/// lead to.
pub fn sound_galley(random: &mut Random) -> Galley {
    let any_row = random.below(48) as u8;
    Galley {
        row: random.weighted(&[(6, any_row), (1, 0), (1, 1), (1, 46), (1, 47)]),
        temperature: any_temperature(random) as i16,
        high: threshold(random) as i16,
        over: threshold(random) as i16,
        hysteresis: random.chance(1, 2),
        quiet: random.chance(1, 2),
    }
}

pub fn any_temperature(random: &mut Random) -> i32 {
    let any = LOWEST + random.below(2048) as i32;
    random.weighted(&[
        (12, any),
        (1, LOWEST),
        (1, HIGHEST),
        (1, -1),
        (1, 0),
        (1, 1),
        (1, 143),
        (1, 144),
    ])
}

/// Every second one lies where the rows are.
pub fn threshold(random: &mut Random) -> i32 {
    if random.chance(1, 2) {
        random.between(130, 900) as i32
    } else {
        any_temperature(random)
    }
}

/// The fields that make a galley state not sound.
#[derive(Clone, Copy, Debug, PartialEq, Eq)]
pub enum GalleyFlaw {
    Row,
    Temperature,
    High,
    Over,
}

pub const GALLEY_FLAWS: [GalleyFlaw; 4] = [
    GalleyFlaw::Row,
    GalleyFlaw::Temperature,
    GalleyFlaw::High,
    GalleyFlaw::Over,
];

/// A sound galley state, and the same one with the flaw put into a single field.
pub fn flawed_galley(random: &mut Random, flaw: GalleyFlaw) -> (Galley, Galley) {
    let before = sound_galley(random);
    let mut galley = before;
    match flaw {
        GalleyFlaw::Row => galley.row = row_above(random),
        GalleyFlaw::Temperature => galley.temperature = outside(random),
        GalleyFlaw::High => galley.high = outside(random),
        GalleyFlaw::Over => galley.over = outside(random),
    }
    (before, galley)
}

fn row_above(random: &mut Random) -> u8 {
    let any = random.between(48, 255) as u8;
    random.pick(&[48, 48, 49, 64, 128, 255, any])
}

/// Next to the range, at the ends of the field, or with lower bits that are in range.
fn outside(random: &mut Random) -> i16 {
    let above = random.between(1024, 32_767) as i16;
    random.pick(&[
        1024,
        -1025,
        1025,
        -1026,
        2048,
        -2049,
        32_767,
        -32_767,
        -32_768,
        above,
        -above - 1,
    ])
}

#[cfg(test)]
mod tests {
    use super::*;
    use crate::galley::sound;

    #[test]
    fn random_galleys_are_sound() {
        let mut random = Random::new(3);
        assert!((0..20_000).all(|_| sound(&sound_galley(&mut random))));
    }

    #[test]
    fn a_flaw_is_one_field_and_makes_the_galley_not_sound() {
        let mut random = Random::new(4);
        for flaw in GALLEY_FLAWS.into_iter().cycle().take(2000) {
            let (before, after) = flawed_galley(&mut random, flaw);
            assert!(sound(&before) && !sound(&after), "{flaw:?} {after:?}");
            let changed = [
                before.row != after.row,
                before.temperature != after.temperature,
                before.high != after.high,
                before.over != after.over,
            ];
            assert_eq!(changed.into_iter().filter(|&field| field).count(), 1);
            assert_eq!(before.hysteresis, after.hysteresis);
            assert_eq!(before.quiet, after.quiet);
        }
    }
}

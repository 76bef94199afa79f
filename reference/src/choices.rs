//! What a scenario's calls are made with: addresses, bytes, words, counts and spans that lie where
//! the paper draws a line, and some that lie anywhere. Only inputs are chosen here, no answers.

pub mod galley;

use crate::model::{
    carried, deciding_line, period, sound, spin_up_ticks, tick, watchdog_limit, Channel, Line,
    State, CHANNELS, LONGEST_WAIT, MONITOR_ONLY,
};
use crate::random::Random;
use crate::states::{random_duty, random_target_count};

pub fn address(random: &mut Random) -> u32 {
    let index = random.below(CHANNELS as u32);
    let any_carried = carried_address(random);
    let no_register = no_register(random);
    random.weighted(&[
        (14, any_carried),
        (6, 0x00),
        (8, 0x02 + index),
        (4, 0x08 + index),
        (2, 0x11),
        (2, 0x12),
        (2, 0x13),
        (3, 0x14),
        (3, 0x30 + 2 * index),
        (4, 0x40 + 2 * index),
        (4, 0x41 + 2 * index),
        (3, 0x50 + 2 * index),
        (6, no_register),
    ])
}

/// An address that is not carried: beside a register, or far from all of them.
pub fn no_register(random: &mut Random) -> u32 {
    // The lower byte or the lower half alone would be a carried register.
    let far = random.pick(&[0x100, 0x300, 0x8000, 0x1_0000, 0x8000_0000]) + carried_address(random);
    let neighbour = random.pick(&[
        0x0E, 0x0F, 0x15, 0x16, 0x17, 0x3C, 0x3D, 0x3F, 0x4C, 0x4F, 0x5C, 0x5F, 0x66, 0x67, 0xFF,
        0x100, 0x101,
    ]);
    let any = random.any().max(0x100);
    random.weighted(&[(3, neighbour), (2, far), (1, any)])
}

pub fn read_only_register(random: &mut Random) -> u32 {
    let any = random.between(0x18, 0x3B);
    let edge = random.pick(&[0x10, 0x11, 0x18, 0x23, 0x24, 0x2F, 0x30, 0x3B]);
    random.weighted(&[(2, edge), (1, any)])
}

/// An even address of a target.
pub fn target_address(random: &mut Random) -> u32 {
    let index = random.below(CHANNELS as u32);
    random.weighted(&[(3, 0x40 + 2 * index), (2, 0x50 + 2 * index)])
}

/// An address for a word: mostly that of a target, else one at which it is refused.
pub fn word_address(random: &mut Random) -> u32 {
    let target = target_address(random);
    let refused = address_without_words(random);
    random.weighted(&[(5, target), (3, refused)])
}

/// Carried or not, and no even address of a target; the lower byte or half may be one.
pub fn address_without_words(random: &mut Random) -> u32 {
    let index = random.below(CHANNELS as u32);
    let target = target_address(random);
    let byte_register = random.pick(&[
        0x00,
        0x01,
        0x02 + index,
        0x08 + index,
        0x12,
        0x13,
        0x14,
        0x60 + index,
    ]);
    let far = random.pick(&[0x100, 0x8000, 0x1_0000, 0x8000_0000]) + target;
    // The even ones beside the rows of carried registers.
    let neighbour = random.pick(&[0x0E, 0x16, 0x3C, 0x3E, 0x4C, 0x4E, 0x5C, 0x5E, 0x66]);
    let read_only = read_only_register(random);
    let no_register = no_register(random);
    random.weighted(&[
        (8, target + 1),
        (8, byte_register),
        (6, read_only),
        (3, neighbour),
        (3, far),
        (1, no_register),
    ])
}

/// Numbers beside those of the channels, at the end of a byte and beyond it, and the largest.
pub const CHANNEL_EDGES: [u32; 7] = [0, 7, 8, 255, 256, 257, u32::MAX];

/// A number that no channel has.
pub fn no_channel(random: &mut Random) -> u32 {
    let edge = random.pick(&CHANNEL_EDGES);
    let any = random.any().max(7);
    random.weighted(&[(7, edge), (1, 65_537), (1, any)])
}

fn carried_address(random: &mut Random) -> u32 {
    loop {
        let address = random.below(0x66);
        if carried(address) {
            return address;
        }
    }
}

pub fn byte_for(random: &mut Random, address: u32) -> u8 {
    let any = random.byte();
    let edge = random.pick(&[0x00, 0xFF, 0x80, 0x01, 0x7F]);
    match address {
        0x00 => control_byte(random),
        0x02..=0x07 => configuration_byte(random),
        0x13 => random.pick(&[0x00, 0x00, 0x00, 0xC0, 0x01, 0x20, 0x3F, any]),
        0x14 => any & 0xF3 | random.pick(&[0x00, 0x04, 0x04, 0x04, 0x08, 0x0C]),
        _ => random.weighted(&[(2, any), (1, edge)]),
    }
}

/// Words beside which the nine or the eleven bits of a target change, or at which they end.
pub const WORD_EDGES: [u16; 8] = [
    0x0000, 0x001F, 0x0020, 0x007F, 0x0080, 0xFF80, 0xFFE0, 0xFFFF,
];

pub fn word_for(random: &mut Random, address: u32) -> u16 {
    let edge = random.pick(&WORD_EDGES);
    let any = random.any() as u16;
    let duty = word_of_duty(random);
    let count = word_of_count(random);
    match address {
        0x40..=0x4B => random.weighted(&[(5, duty), (2, edge), (1, any)]),
        0x50..=0x5B => random.weighted(&[(6, count), (2, edge)]),
        _ => random.weighted(&[(1, duty), (1, count), (1, edge), (1, any)]),
    }
}

pub fn word_of_duty(random: &mut Random) -> u16 {
    random_duty(random) << 7 | bits_below(random, 1 << 7)
}

pub fn word_of_count(random: &mut Random) -> u16 {
    random_target_count(random) << 5 | bits_below(random, 1 << 5)
}

/// Bits that are dropped: mostly some of them are set.
pub fn bits_below(random: &mut Random, lowest_kept: u16) -> u16 {
    let any = random.below(lowest_kept.into()) as u16;
    random.pick(&[0, lowest_kept - 1, any, any])
}

/// Watchdog codes with the other bits on and off; standby, reset or both in every second byte.
fn control_byte(random: &mut Random) -> u8 {
    let code = random.below(4) as u8;
    let others = random.pick(&[0x00, 0x20, 0x28, 0x39, 0x11]);
    let strong = random.pick(&[0x80, 0x80, 0xA0, 0xAF, 0x40, 0xC0, 0xFF]);
    random.weighted(&[
        (2, others | code << 1),
        (1, strong),
        (1, strong | code << 1),
    ])
}

/// Spin-up codes with the tachometer mostly on; monitor only and refused bits now and then.
fn configuration_byte(random: &mut Random) -> u8 {
    let code = random.below(4) as u8;
    let bits = random.pick(&[0x00, 0x08, 0x08, 0x0A]);
    let accepted = code << 5 | bits;
    let refused = refused_configuration(random);
    random.weighted(&[
        (6, accepted),
        (1, accepted | MONITOR_ONLY),
        (2, accepted | refused),
    ])
}

pub fn refused_configuration(random: &mut Random) -> u8 {
    random.pick(&[0x80, 0x04, 0x01, 0x85, 0xFF])
}

/// A value for `start`: in range, or wrong in such a way that its low half may be in range.
pub fn pin_set_value(random: &mut Random, wrong: bool, highest: u32) -> u32 {
    let between = random.between(0, highest);
    if wrong {
        random.pick(&[highest + 1, highest + 2, 65_536 + between, u32::MAX])
    } else {
        random.pick(&[0, highest, between, between])
    }
}

/// For `start`: A or B, or another number, whose low byte or half may be one of them.
pub fn modification(random: &mut Random, wrong: bool) -> u32 {
    let any = random.any().max(2);
    if wrong {
        random.pick(&[2, 3, 256, 257, 65_536, 65_537, u32::MAX, any])
    } else {
        random.below(2)
    }
}

/// A channel for a pulse: mostly one whose spin-up runs, if there is one.
pub fn channel_for_pulse(random: &mut Random, state: &State) -> u32 {
    let any = random.between(1, CHANNELS as u32);
    let running: Vec<u32> = (1..)
        .zip(&state.channels)
        .filter(|(_, channel)| channel.spin > 0)
        .map(|(number, _)| number)
        .collect();
    if running.is_empty() || random.chance(1, 5) {
        any
    } else {
        random.pick(&running)
    }
}

/// Ticks between two pulses: none, one, some, so many that one tick of the spin-up is left, or so
/// many that none is.
pub fn span_between_pulses(random: &mut Random, channel: &Channel) -> u32 {
    let left = u32::from(channel.spin);
    let some = random.between(0, left);
    random.weighted(&[
        (5, 0),
        (4, 1),
        (1, 2),
        (4, some),
        (4, left.saturating_sub(1)),
        (2, left),
        (1, left + 1),
    ])
}

/// A tachometer count, mostly at or beside the channel's target count, or at or beside 2,047.
pub fn count_about(random: &mut Random, channel: &Channel) -> u32 {
    let target = u32::from(channel.target_count);
    let any = random.any();
    random.weighted(&[
        (4, target.saturating_sub(1)),
        (6, target),
        (12, target + 1),
        (1, 0),
        (4, 2045),
        (5, 2046),
        (6, 2047),
        (3, 2048),
        (2, 5000),
        (2, 65_536 + target),
        (1, u32::MAX),
        (1, any % 2048),
        (1, any),
    ])
}

/// The counts beside which the answer to a speed changes, and the largest.
pub const SPEED_EDGES: [u32; 6] = [0, 1, 2046, 2047, 2048, u32::MAX];

/// A count for a speed: mostly at an edge.
pub fn count_of_speed(random: &mut Random) -> u32 {
    let edge = random.pick(&SPEED_EDGES);
    let between = random.between(1, 2046);
    // The low eleven bits of these are 2,047, 0, 1 and 2,047.
    let wide = random.pick(&[4095, 65_536, 65_537, 67_583]);
    random.weighted(&[(12, edge), (6, between), (3, wide)])
}

/// At the ends of what one byte to five bytes of an order string can hold.
pub fn number_of_some_length(random: &mut Random) -> u32 {
    let lengths = [1 << 7, 1 << 14, 1 << 21, 1 << 28];
    let longer = random.pick(&lengths);
    random.pick(&[0, 1, longer - 1, longer, longer + 1, u32::MAX - 1, u32::MAX])
}

/// The number, or one beside it. Below 0 it is the longest span.
fn near(random: &mut Random, number: u32) -> u32 {
    match random.below(3) {
        0 => number.wrapping_sub(1),
        1 => number,
        _ => number.wrapping_add(1),
    }
}

/// A number of ticks of any kind.
pub fn span(random: &mut Random, state: &State) -> u32 {
    let channel = random.pick(&state.channels);
    match random.below(16) {
        0..=1 => random.below(4),
        2..=3 => random.between(1, 40),
        4..=5 => random.between(1, 5000),
        6..=8 => span_of_ramp(random, &channel),
        9..=10 => span_of_spin_up(random, &channel),
        11..=12 => span_to_expiry(random, state),
        13 => random.between(5000, 70_000),
        14 => near(random, state.clock.wrapping_neg()),
        _ => {
            let any = random.any();
            random.pick(&[any, u32::MAX, u32::MAX - 1, 1 << 31, 1 << 16])
        }
    }
}

/// Some steps of the channel's ramp, about as many as it has to go, or far more.
pub fn span_of_ramp(random: &mut Random, channel: &Channel) -> u32 {
    if channel.rate_code() == 0 {
        return random.below(3);
    }
    let step = period(channel);
    let distance = u32::from(channel.ramp.abs_diff(channel.target));
    match random.below(8) {
        0 => random.below(4),
        1 => near(random, step),
        2..=3 => {
            let steps = random.between(1, 40);
            near(random, steps * step)
        }
        4..=6 => (distance * step + random.below(2 * step + 1)).saturating_sub(step),
        _ => random.between(1, 70_000),
    }
}

/// To the end of a running spin-up, through one that is due, or beside a coded length.
pub fn span_of_spin_up(random: &mut Random, channel: &Channel) -> u32 {
    let coded = spin_up_ticks(random.between(1, 3) as u8);
    let whole = spin_up_ticks(channel.spin_up_code());
    match random.below(6) {
        0 => random.below(4),
        1 => near(random, coded.into()),
        2 if whole > 0 => near(random, u32::from(whole) + 1),
        _ if channel.spin > 0 => near(random, channel.spin.into()),
        _ => random.between(1, 1100),
    }
}

/// Exactly to the expiry, one tick short of it or beyond it, or beside any of the limits.
pub fn span_to_expiry(random: &mut Random, state: &State) -> u32 {
    let some_limit = random.pick(&[2560, 5120, 15_360]);
    match watchdog_limit(state.watchdog_code()) {
        Some(limit) if random.chance(3, 4) => near(random, limit.saturating_sub(state.idle).into()),
        _ => near(random, some_limit),
    }
}

/// How many fans stand at ramp value 0, have a target and are under no override.
pub fn waiting_fans(state: &State) -> usize {
    let waits = |index: &usize| {
        let channel = &state.channels[*index];
        let free = deciding_line(state, *index) == Line::Ramp;
        free && channel.ramp == 0 && channel.target > 0
    };
    (0..CHANNELS).filter(waits).count()
}

/// From 0 for channel 1: one whose ramp value is above 0 with no spin-up running, if there is one.
pub fn running_fan(random: &mut Random, state: &State) -> u32 {
    let any = random.below(CHANNELS as u32);
    let running: Vec<u32> = (0..)
        .zip(&state.channels)
        .filter(|(_, channel)| channel.ramp > 0 && channel.spin == 0)
        .map(|(index, _)| index)
        .collect();
    if running.is_empty() {
        any
    } else {
        random.pick(&running)
    }
}

/// The ticks until some fan starts, if one does so while nothing is sent: where one waits, the
/// longest wait and the longest period are enough.
pub fn ticks_to_departure(state: &State) -> Option<u32> {
    if !sound(state) || waiting_fans(state) == 0 {
        return None;
    }
    let mut later = *state;
    for count in 1..=u32::from(LONGEST_WAIT) + 64 {
        let before = later;
        tick(&mut later);
        let mut both = before.channels.iter().zip(&later.channels);
        if both.any(|(old, new)| old.ramp == 0 && new.ramp > 0) {
            return Some(count);
        }
    }
    None
}

/// So many ticks that a fan starts with the last of them, with the one before or with the next; or
/// one, some, through several departures, or far beyond all of them.
pub fn span_to_departure(random: &mut Random, state: &State) -> u32 {
    let wait = u32::from(state.wait);
    let next = ticks_to_departure(state).unwrap_or(wait.max(1));
    let some = random.between(1, next);
    let several = next + random.below(5 * u32::from(LONGEST_WAIT));
    let far = random.between(5000, 60_000);
    let farthest = random.pick(&[u32::MAX, u32::MAX - 1, 1 << 31]);
    random.weighted(&[
        (12, next - 1),
        (16, next),
        (12, next + 1),
        (6, 1),
        (6, some),
        (4, wait),
        (6, several),
        (2, far),
        (1, farthest),
    ])
}

//! Random states for `load`: sound ones of every kind, and ones that are not sound by a single
//! field.

pub mod galley;

use crate::model::{
    watchdog_limit, Channel, State, CHANNELS, FULL_COUNT, FULL_DUTY, LONGEST_QUEUE,
    LONGEST_SPIN_UP, LONGEST_WAIT, MODIFICATION_A, MODIFICATION_B, MONITOR_ONLY, RESET, STANDBY,
    STATUS, TACHOMETER_ENABLED,
};
use crate::random::Random;

pub fn sound_state(random: &mut Random) -> State {
    let mut state = State {
        clock: random_clock(random),
        pin: random.chance(5, 6),
        control: random.byte() & 0x2F,
        frequency: random.byte(),
        mask2: random.byte() & 0x3F,
        mask1: random.weighted(&[(3, 0x00), (1, 0x3F), (2, 0x15), (2, 0x2A), (2, 0x33)]),
        options: random_options(random),
        start_watchdog: random.below(4) as u8,
        start_spinup: random.below(4) as u8,
        start_target: random_duty(random),
        start_frequency: random.byte(),
        modification: random.pick(&[MODIFICATION_A, MODIFICATION_B]),
        wait: random_wait(random),
        ..State::default()
    };
    if random.chance(1, 2) {
        state.faults = random.byte() & random.byte() & 0x3F;
    }
    if random.chance(1, 6) {
        state.control |= STANDBY;
    }
    set_watchdog(random, &mut state);
    for channel in &mut state.channels {
        *channel = random_channel(random);
    }
    if state.standby() {
        state.channels.iter_mut().for_each(stand_down);
    }
    set_pulses(random, &mut state);
    state
}

fn random_clock(random: &mut Random) -> u32 {
    match random.below(4) {
        0 => random.any(),
        1 => random.below(2000),
        2 => u32::MAX - random.below(40_000),
        // Next to a multiple of the longest period.
        _ => (random.any() & !0xFF)
            .wrapping_add(random.below(5))
            .wrapping_sub(2),
    }
}

/// None in every second state; else beside one of the coded delays, or anywhere.
fn random_wait(random: &mut Random) -> u16 {
    let small = random.between(1, 40) as u16;
    let edge = random.pick(&[
        1, 2, 127, 128, 129, 255, 256, 257, 511, 513, 1023, 1025, 2047, 2048, 2048,
    ]);
    let any = random.between(1, LONGEST_WAIT.into()) as u16;
    random.weighted(&[(4, 0), (1, small), (2, edge), (1, any)])
}

fn random_options(random: &mut Random) -> u8 {
    let failed_fan = random.weighted(&[(1, 0), (3, 1), (1, 2), (1, 3)]);
    random.byte() & 0xE3 | failed_fan << 2
}

pub fn random_duty(random: &mut Random) -> u16 {
    if random.chance(1, 2) {
        random.pick(&[0, 1, 2, 100, 200, 255, 256, 510, 511, 511])
    } else {
        random.below(512) as u16
    }
}

fn random_count(random: &mut Random) -> u16 {
    if random.chance(1, 2) {
        random.pick(&[0, 1, 480, 1000, 1023, 1024, 2045, 2046, 2047, 2047])
    } else {
        random.below(2048) as u16
    }
}

/// At least every third is at 2,047 or beside it.
pub fn random_target_count(random: &mut Random) -> u16 {
    if random.chance(1, 3) {
        random.pick(&[2045, 2046, 2047, 2047])
    } else {
        random_count(random)
    }
}

/// An idle count and an expiry that suit the watchdog code: expired, close to the limit, or below.
fn set_watchdog(random: &mut Random, state: &mut State) {
    let Some(limit) = watchdog_limit(state.watchdog_code()) else {
        return;
    };
    match random.below(5) {
        0 => {
            state.idle = limit;
            state.expired = true;
        }
        1 | 2 => state.idle = limit - random.between(1, 4) as u16,
        3 => state.idle = limit - random.between(1, u32::from(limit)) as u16,
        _ => state.idle = random.below(3) as u16,
    }
}

/// A channel of a box that is not in standby.
fn random_channel(random: &mut Random) -> Channel {
    let mut channel = Channel {
        config: random.byte() & 0x62,
        dynamics: random.byte() & 0xFE,
        count: random_count(random),
        ramp: random_duty(random),
        target: random_duty(random),
        target_count: random_target_count(random),
        window: random.byte(),
        queue: random.below(7) as u8,
        ..Channel::default()
    };
    if random.chance(2, 3) {
        channel.config |= TACHOMETER_ENABLED;
    }
    match random.below(8) {
        0 => {
            channel.config |= MONITOR_ONLY;
            stand_down(&mut channel);
        }
        1 | 2 => spin_up(random, &mut channel),
        3 => channel.ramp = channel.target,
        4 => channel.ramp = 0,
        _ => {}
    }
    channel
}

fn stand_down(channel: &mut Channel) {
    channel.ramp = 0;
    no_spin_up(channel);
}

fn no_spin_up(channel: &mut Channel) {
    channel.spin = 0;
    channel.pulses = 0;
}

/// A running spin-up, under whatever spin-up code the channel has by now.
fn spin_up(random: &mut Random, channel: &mut Channel) {
    channel.ramp = FULL_DUTY;
    channel.spin = if random.chance(1, 2) {
        random.pick(&[1, 2, 3, 255, 256, 257, 511, 512, 1023, 1024])
    } else {
        random.between(1, u32::from(LONGEST_SPIN_UP)) as u16
    };
}

/// Counts of pulses where they may stand: within running spin-ups of a box of modification B.
fn set_pulses(random: &mut Random, state: &mut State) {
    let counted = state.modification == MODIFICATION_B;
    for channel in &mut state.channels {
        let may_stand = counted && channel.spin > 0;
        channel.pulses = u8::from(may_stand && random.chance(1, 2));
    }
}

/// Sound, with a spin-up on most of the channels and under no override.
pub fn spinning_state(random: &mut Random) -> State {
    let mut state = sound_state(random);
    state.modification = random.pick(&[MODIFICATION_A, MODIFICATION_B, MODIFICATION_B]);
    state.pin = true;
    state.control &= !STANDBY;
    state.options = state.options & !0x0C | 0x04;
    set_code(&mut state, 0, 0, false);
    for channel in &mut state.channels {
        if random.chance(5, 6) {
            channel.config &= !MONITOR_ONLY;
            spin_up(random, channel);
        }
    }
    set_pulses(random, &mut state);
    state
}

/// Sound and under no override, with several fans that wait for their turn; the watchdog is off.
pub fn waiting_state(random: &mut Random) -> State {
    let mut state = sound_state(random);
    state.pin = true;
    state.control &= !STANDBY;
    state.options = state.options & !0x0C | 0x04;
    set_code(&mut state, 0, 0, false);
    let waiting = random.between(2, CHANNELS as u32);
    let first = random.below(CHANNELS as u32);
    for place in first..first + waiting {
        let channel = &mut state.channels[place as usize % CHANNELS];
        channel.config &= !MONITOR_ONLY;
        stand_down(channel);
        channel.target = random_duty(random).max(1);
        if random.chance(1, 2) {
            // Without a spin-up code it waits for its period too.
            channel.config &= !0x60;
        }
    }
    state
}

/// The same with the watchdog about to expire and the wait about to run out: before the tick of the
/// expiry, in it or after it.
pub fn waiting_before_expiry(random: &mut Random) -> State {
    let mut state = waiting_state(random);
    let code = random.between(1, 3) as u8;
    let ticks = random.between(1, 4);
    set_code(&mut state, code, limit_of(code) - ticks as u16, false);
    let about = random.between(1, ticks + 1);
    state.wait = random.pick(&[ticks, ticks, about]) as u16;
    state
}

/// The overrides that leave a spin-up the ticks that it has.
#[derive(Clone, Copy, Debug)]
pub enum Freeze {
    FullSpeed,
    Expiry,
    FailedFanOption(u8),
}

pub const FREEZES: [Freeze; 5] = [
    Freeze::FailedFanOption(0),
    Freeze::Expiry,
    Freeze::FailedFanOption(2),
    Freeze::FullSpeed,
    Freeze::FailedFanOption(3),
];

/// A box with spin-ups that are frozen.
pub fn frozen_state(random: &mut Random, freeze: Freeze) -> State {
    let mut state = spinning_state(random);
    match freeze {
        Freeze::FullSpeed => state.pin = false,
        Freeze::Expiry => {
            let code = random.between(1, 3) as u8;
            set_code(&mut state, code, limit_of(code), true);
        }
        Freeze::FailedFanOption(option) => {
            let some = random.between(1, 63) as u8;
            state.faults = random.pick(&[some, 0x3F, 0x3F]);
            state.options = state.options & !0x0C | option << 2;
        }
    }
    state
}

/// Sound, with the watchdog about to expire and spin-ups about to end: before the tick of the
/// expiry, in it (it is frozen, so that one tick is left) or after it.
pub fn state_before_expiry(random: &mut Random) -> State {
    let mut state = spinning_state(random);
    let code = random.between(1, 3) as u8;
    let ticks = random.between(1, 4);
    set_code(&mut state, code, limit_of(code) - ticks as u16, false);
    for channel in &mut state.channels {
        if channel.spin > 0 {
            channel.spin = random.between(1, ticks + 1) as u16;
        }
    }
    state
}

/// Each way in which one field makes a state not sound.
#[derive(Clone, Copy, Debug, PartialEq, Eq)]
pub enum Flaw {
    ControlBit(u8),
    Mask2Bit(u8),
    Mask1Bit(u8),
    OptionsBit,
    StartWatchdog,
    StartSpinUp,
    StartTarget,
    ModificationRange,
    WaitRange,
    AOverPulse,
    PulsesRange,
    PulseUnderA,
    PulseWithoutSpinUp,
    EndedOverPulse,
    ConfigBit(u8),
    DynamicsBit,
    CountRange,
    RampRange,
    SpinRange,
    TargetRange,
    TargetCountRange,
    QueueRange,
    MonitorRamp,
    MonitorSpin,
    MonitorOverSpinUp,
    StandbyRamp,
    StandbySpin,
    StandbyOverSpinUp,
    SpinUpBelowFull,
    SpinUpFromBelow,
    OffWithIdle,
    OffWithExpiry,
    OffOverIdle,
    EarlyExpiry,
    MissedExpiry,
    IdleAboveExpired,
    IdleAboveRunning,
    IdleBelowExpired,
    ShorterLimit,
}

pub const FLAWS: [Flaw; 44] = [
    Flaw::ControlBit(RESET),
    Flaw::ControlBit(0x10),
    Flaw::Mask2Bit(0x40),
    Flaw::Mask2Bit(0x80),
    Flaw::Mask1Bit(0x40),
    Flaw::Mask1Bit(0x80),
    Flaw::OptionsBit,
    Flaw::StartWatchdog,
    Flaw::StartSpinUp,
    Flaw::StartTarget,
    Flaw::ModificationRange,
    Flaw::WaitRange,
    Flaw::AOverPulse,
    Flaw::PulsesRange,
    Flaw::PulseUnderA,
    Flaw::PulseWithoutSpinUp,
    Flaw::EndedOverPulse,
    Flaw::ConfigBit(0x80),
    Flaw::ConfigBit(0x04),
    Flaw::ConfigBit(0x01),
    Flaw::DynamicsBit,
    Flaw::CountRange,
    Flaw::RampRange,
    Flaw::SpinRange,
    Flaw::TargetRange,
    Flaw::TargetCountRange,
    Flaw::QueueRange,
    Flaw::MonitorRamp,
    Flaw::MonitorSpin,
    Flaw::MonitorOverSpinUp,
    Flaw::StandbyRamp,
    Flaw::StandbySpin,
    Flaw::StandbyOverSpinUp,
    Flaw::SpinUpBelowFull,
    Flaw::SpinUpFromBelow,
    Flaw::OffWithIdle,
    Flaw::OffWithExpiry,
    Flaw::OffOverIdle,
    Flaw::EarlyExpiry,
    Flaw::MissedExpiry,
    Flaw::IdleAboveExpired,
    Flaw::IdleAboveRunning,
    Flaw::IdleBelowExpired,
    Flaw::ShorterLimit,
];

/// A sound state, and the same one with the flaw put into a single field.
pub fn flawed_state(random: &mut Random, flaw: Flaw) -> (State, State) {
    let index = random.below(CHANNELS as u32) as usize;
    let mut state = sound_state(random);
    prepare_box(random, &mut state, flaw);
    prepare_modification(&mut state, flaw);
    prepare_channel(random, &mut state, index, flaw);
    let before = state;
    spoil_box(random, &mut state, flaw);
    spoil_watchdog(random, &mut state, flaw);
    spoil_channel(random, &mut state.channels[index], flaw);
    (before, state)
}

/// Gives the box the standby bit and the watchdog counts that the flaw goes against.
fn prepare_box(random: &mut Random, state: &mut State, flaw: Flaw) {
    match flaw {
        Flaw::StandbyRamp | Flaw::StandbySpin => {
            state.control |= STANDBY;
            state.channels.iter_mut().for_each(stand_down);
        }
        Flaw::OffWithIdle | Flaw::OffWithExpiry => set_code(state, 0, 0, false),
        Flaw::OffOverIdle | Flaw::IdleAboveRunning | Flaw::EarlyExpiry => {
            let code = random.between(1, 3) as u8;
            set_code(state, code, random.between(1, 2559) as u16, false);
        }
        Flaw::MissedExpiry | Flaw::IdleAboveExpired | Flaw::IdleBelowExpired => {
            let code = random.between(1, 3) as u8;
            set_code(state, code, limit_of(code), true);
        }
        Flaw::ShorterLimit => set_code(state, 3, random.between(5120, 15359) as u16, false),
        _ => state.control &= !STANDBY,
    }
}

fn set_code(state: &mut State, code: u8, idle: u16, expired: bool) {
    state.control = state.control & !0x06 | code << 1;
    state.idle = idle;
    state.expired = expired;
}

fn limit_of(code: u8) -> u16 {
    watchdog_limit(code).unwrap_or(0)
}

/// Gives the box the modification that the flaw goes against.
fn prepare_modification(state: &mut State, flaw: Flaw) {
    match flaw {
        Flaw::PulseUnderA => {
            state.modification = MODIFICATION_A;
            state
                .channels
                .iter_mut()
                .for_each(|channel| channel.pulses = 0);
        }
        Flaw::AOverPulse | Flaw::PulsesRange | Flaw::PulseWithoutSpinUp | Flaw::EndedOverPulse => {
            state.modification = MODIFICATION_B
        }
        _ => {}
    }
}

/// Gives the channel the mode, the ramp value and the spin-up that the flaw goes against.
fn prepare_channel(random: &mut Random, state: &mut State, index: usize, flaw: Flaw) {
    let channel = &mut state.channels[index];
    match flaw {
        Flaw::MonitorRamp | Flaw::MonitorSpin => {
            channel.config |= MONITOR_ONLY;
            stand_down(channel);
        }
        Flaw::MonitorOverSpinUp
        | Flaw::StandbyOverSpinUp
        | Flaw::SpinUpBelowFull
        | Flaw::SpinRange
        | Flaw::PulsesRange
        | Flaw::PulseUnderA => {
            channel.config &= !MONITOR_ONLY;
            spin_up(random, channel);
        }
        Flaw::AOverPulse | Flaw::EndedOverPulse => {
            channel.config &= !MONITOR_ONLY;
            spin_up(random, channel);
            channel.pulses = 1;
        }
        Flaw::SpinUpFromBelow => {
            channel.config &= !MONITOR_ONLY;
            channel.ramp = random.below(u32::from(FULL_DUTY)) as u16;
            no_spin_up(channel);
        }
        Flaw::RampRange => {
            channel.config &= !MONITOR_ONLY;
            no_spin_up(channel);
        }
        Flaw::PulseWithoutSpinUp => no_spin_up(channel),
        _ => {}
    }
}

fn spoil_box(random: &mut Random, state: &mut State, flaw: Flaw) {
    match flaw {
        Flaw::ControlBit(bit) => state.control |= bit,
        Flaw::Mask2Bit(bit) => state.mask2 |= bit,
        Flaw::Mask1Bit(bit) => state.mask1 |= bit,
        Flaw::OptionsBit => state.options |= 0x10,
        Flaw::StartWatchdog => state.start_watchdog = byte_above(random, 3),
        Flaw::StartSpinUp => state.start_spinup = byte_above(random, 3),
        Flaw::StartTarget => state.start_target = above(random, FULL_DUTY),
        Flaw::StandbyOverSpinUp => state.control |= STANDBY,
        Flaw::ModificationRange => state.modification = byte_above(random, MODIFICATION_B),
        Flaw::AOverPulse => state.modification = MODIFICATION_A,
        Flaw::WaitRange => state.wait = above(random, LONGEST_WAIT),
        _ => {}
    }
}

fn spoil_watchdog(random: &mut Random, state: &mut State, flaw: Flaw) {
    let limit = limit_of(state.watchdog_code());
    match flaw {
        Flaw::OffWithIdle => state.idle = above(random, 0),
        Flaw::OffWithExpiry | Flaw::EarlyExpiry => state.expired = true,
        Flaw::OffOverIdle => state.control &= !0x06,
        Flaw::MissedExpiry => state.expired = false,
        Flaw::IdleAboveExpired | Flaw::IdleAboveRunning => state.idle = above(random, limit),
        Flaw::IdleBelowExpired => state.idle = random.pick(&[limit - 1, limit - 2, 1, 0]),
        Flaw::ShorterLimit => {
            state.control = state.control & !0x06 | random.pick(&[0x02, 0x04]);
        }
        _ => {}
    }
}

fn spoil_channel(random: &mut Random, channel: &mut Channel, flaw: Flaw) {
    match flaw {
        Flaw::ConfigBit(bit) => channel.config |= bit,
        Flaw::DynamicsBit => channel.dynamics |= 0x01,
        Flaw::CountRange => channel.count = above(random, FULL_COUNT),
        Flaw::RampRange => channel.ramp = above(random, FULL_DUTY),
        Flaw::SpinRange => channel.spin = above(random, LONGEST_SPIN_UP),
        Flaw::TargetRange => channel.target = above(random, FULL_DUTY),
        Flaw::TargetCountRange => channel.target_count = above(random, FULL_COUNT),
        Flaw::QueueRange => channel.queue = byte_above(random, LONGEST_QUEUE),
        Flaw::MonitorRamp | Flaw::StandbyRamp => channel.ramp = random.pick(&[1, 2, 300, 511]),
        Flaw::MonitorSpin | Flaw::StandbySpin => channel.spin = random.pick(&[1, 2, 256, 1024]),
        Flaw::MonitorOverSpinUp => channel.config |= MONITOR_ONLY,
        Flaw::SpinUpBelowFull => channel.ramp = random.pick(&[510, 509, 256, 1, 0]),
        Flaw::SpinUpFromBelow => channel.spin = random.pick(&[1, 2, 256, 512, 1024]),
        Flaw::PulsesRange => channel.pulses = byte_above(random, 1),
        Flaw::PulseUnderA | Flaw::PulseWithoutSpinUp => channel.pulses = 1,
        Flaw::EndedOverPulse => channel.spin = 0,
        _ => {}
    }
}

/// Above the highest number allowed: next to it, at the end of the field, or between.
pub fn above(random: &mut Random, highest: u16) -> u16 {
    match random.below(3) {
        0 => highest + 1,
        1 => u16::MAX,
        _ => random.between(u32::from(highest) + 1, u32::from(u16::MAX)) as u16,
    }
}

fn byte_above(random: &mut Random, highest: u8) -> u8 {
    match random.below(3) {
        0 => highest + 1,
        1 => u8::MAX,
        _ => random.between(u32::from(highest) + 1, u32::from(u8::MAX)) as u8,
    }
}

/// Sound, and yet in a way that calls alone seldom or never lead to.
pub fn unusual_sound_state(random: &mut Random) -> State {
    let mut state = sound_state(random);
    let code = random.between(1, 3) as u8;
    match random.below(4) {
        0 => {
            // Expired with the status bit clear.
            set_code(&mut state, code, limit_of(code), true);
            state.control &= !STATUS;
        }
        1 => {
            // The status bit with the watchdog off.
            set_code(&mut state, 0, 0, false);
            state.control |= STATUS;
        }
        2 => {
            // Fault bits with empty queues.
            state.faults = random.between(1, 63) as u8;
            state
                .channels
                .iter_mut()
                .for_each(|channel| channel.queue = 0);
        }
        _ => {
            // Spin-ups under a spin-up code that gives none, or one that is shorter.
            state.control &= !STANDBY;
            for channel in &mut state.channels {
                channel.config &= !(MONITOR_ONLY | 0x60);
                channel.config |= random.pick(&[0x00, 0x20]);
                spin_up(random, channel);
            }
            set_pulses(random, &mut state);
        }
    }
    state
}

#[cfg(test)]
mod tests {
    use super::*;
    use crate::console::state_numbers;
    use crate::model::sound;

    #[test]
    fn random_states_are_sound() {
        let mut random = Random::new(3);
        for _ in 0..20_000 {
            assert!(sound(&sound_state(&mut random)));
            assert!(sound(&unusual_sound_state(&mut random)));
            assert!(sound(&spinning_state(&mut random)));
            assert!(sound(&waiting_state(&mut random)));
            assert!(sound(&waiting_before_expiry(&mut random)));
            assert!(sound(&state_before_expiry(&mut random)));
            let freeze = random.pick(&FREEZES);
            assert!(sound(&frozen_state(&mut random, freeze)));
        }
    }

    #[test]
    fn half_of_the_random_states_are_of_modification_b() {
        let mut random = Random::new(3);
        let states: Vec<State> = (0..10_000).map(|_| sound_state(&mut random)).collect();
        let of_b = |state: &&State| state.modification == MODIFICATION_B;
        let counted = |state: &&State| state.channels.iter().any(|channel| channel.pulses > 0);
        assert!((4800..5200).contains(&states.iter().filter(of_b).count()));
        assert!(states.iter().filter(counted).count() >= 1000);
    }

    #[test]
    fn random_waits_lie_everywhere_and_beside_the_coded_delays() {
        let mut random = Random::new(3);
        let states: Vec<State> = (0..10_000).map(|_| sound_state(&mut random)).collect();
        for wait in [0, 1, 2, 127, 128, 129, 255, 256, 257, 2047, 2048] {
            assert!(states.iter().filter(|state| state.wait == wait).count() >= 80);
        }
        for code in 0..8 {
            let coded = |state: &&State| state.start_delay_code() == code;
            assert!(states.iter().filter(coded).count() >= 1000);
        }
        let between = |state: &&State| (300..500).contains(&state.wait);
        assert!(states.iter().filter(between).count() >= 50);
    }

    #[test]
    fn a_flaw_is_one_field_and_makes_the_state_not_sound() {
        let mut random = Random::new(4);
        for flaw in FLAWS.into_iter().cycle().take(200 * FLAWS.len()) {
            let (before, after) = flawed_state(&mut random, flaw);
            let pairs = state_numbers(&before)
                .into_iter()
                .zip(state_numbers(&after));
            assert!(sound(&before), "{flaw:?} {before:?}");
            assert!(!sound(&after), "{flaw:?} {after:?}");
            assert_eq!(pairs.filter(|(a, b)| a != b).count(), 1, "{flaw:?}");
        }
    }
}

//! The paper's trials ("Trials on both sides") and the places where its sentences meet.

mod delays;
mod pulses;
mod results;
mod soundness;

use super::*;
use crate::random::Random;
use crate::states::{
    frozen_state, sound_state, spinning_state, state_before_expiry, unusual_sound_state,
    waiting_state, FREEZES,
};

/// A box that runs with the watchdog off, no override and no spin-up code; its channels rest at 0.
fn quiet() -> State {
    started(PinSet::default())
}

fn started(values: PinSet) -> State {
    let (refusal, state) = start(&values);
    assert_eq!(refusal, ACCEPTED);
    state
}

/// The quiet box with channel 1 on its way at the given clock. K8: "The ramp trials begin at wait 0,
/// with every other channel's ramp value and target duty 0."
fn ramping(clock: u32, ramp: u16, target: u16, dynamics: u8) -> State {
    let mut state = quiet();
    state.clock = clock;
    state.channels[0].ramp = ramp;
    state.channels[0].target = target;
    state.channels[0].dynamics = dynamics;
    state
}

fn rate(code: u8) -> u8 {
    code << 2
}

fn after(state: &State, count: u32) -> State {
    let (refusal, next) = ticks(state, count);
    assert_eq!(refusal, ACCEPTED);
    next
}

fn ramp_after(state: &State, count: u32) -> u16 {
    after(state, count).channels[0].ramp
}

fn written(state: &State, address: u32, byte: u8) -> State {
    let (refusal, next) = write(state, address, byte);
    assert_eq!(refusal, ACCEPTED);
    assert!(sound(&next));
    next
}

fn word_written(state: &State, address: u32, word: u16) -> State {
    let (refusal, next) = write_word(state, address, word);
    assert_eq!(refusal, ACCEPTED);
    assert!(sound(&next));
    next
}

fn byte_at(state: &State, address: u32) -> u8 {
    let (refusal, byte, next) = read(state, address);
    assert_eq!(refusal, ACCEPTED);
    assert!(sound(&next));
    byte
}

fn with_result(state: &State, channel: u32, count: u32) -> State {
    let (refusal, next) = tachometer(state, channel, count);
    assert_eq!(refusal, ACCEPTED);
    assert!(sound(&next));
    next
}

/// Channel 1 at duty 100 with its tachometer enabled and target count 480.
fn watched(queue_code: u8) -> State {
    let mut state = ramping(0, 100, 100, rate(3));
    state.channels[0].config = TACHOMETER_ENABLED;
    state.options = 0x04 | queue_code;
    state
}

// The paper's trials

#[test]
fn rising_ramp() {
    let state = ramping(6, 100, 110, rate(3));
    assert_eq!(ramp_after(&state, 37), 109);
    assert_eq!(ramp_after(&state, 38), 110);
}

#[test]
fn asymmetric_fall() {
    let state = ramping(6, 110, 100, rate(3) | ASYMMETRIC_FALL);
    assert_eq!(ramp_after(&state, 73), 101);
    assert_eq!(ramp_after(&state, 74), 100);
}

#[test]
fn clock_returns_to_zero() {
    let next = after(&ramping(4_294_967_294, 100, 101, rate(3)), 2);
    assert_eq!((next.clock, next.channels[0].ramp), (0, 101));
}

#[test]
fn jump_of_nothing() {
    let state = ramping(6, 100, 110, rate(3));
    assert_eq!(ticks(&state, 0), (ACCEPTED, state));
}

#[test]
fn spin_up_and_ramp_down() {
    let mut state = ramping(0, 0, 200, rate(1));
    state.channels[0].config = 1 << 5;
    assert_eq!(ramp_after(&state, 257), 511);
    assert_eq!(after(&state, 257).channels[0].spin, 0);
    assert_eq!(ramp_after(&state, 258), 510);
    assert_eq!(ramp_after(&state, 567), 201);
    assert_eq!(ramp_after(&state, 568), 200);
}

#[test]
fn watchdog_expiry() {
    let state = written(&quiet(), 0x00, 0x02);
    let short = after(&state, 2559);
    let whole = after(&state, 2560);
    assert!(!short.expired && short.control & STATUS == 0);
    assert!(whole.expired && whole.control & STATUS != 0);
    assert_eq!(whole.idle, 2560);
}

#[test]
fn output_duty_bytes() {
    let full = ramping(0, 511, 511, 0);
    assert_eq!((byte_at(&full, 0x30), byte_at(&full, 0x31)), (0xFF, 0x81));
    let part = ramping(0, 200, 200, 0);
    assert_eq!((byte_at(&part, 0x30), byte_at(&part, 0x31)), (0x64, 0x00));
}

#[test]
fn stored_counts() {
    for (count, high, low) in [(1000, 0x7D, 0x00), (5000, 0xFF, 0xE0)] {
        let next = with_result(&watched(0), 1, count);
        assert_eq!((byte_at(&next, 0x18), byte_at(&next, 0x19)), (high, low));
    }
}

#[test]
fn fault_with_the_eighth_result() {
    let mut state = watched(2);
    for bad in [true, true, true, false, true, true, true] {
        state = with_result(&state, 1, if bad { 481 } else { 480 });
        assert_eq!(state.faults, 0);
    }
    state = with_result(&state, 1, 481);
    assert_eq!(state.faults, 1);
}

#[test]
fn speed_of_the_trial() {
    assert_eq!(speed(2, 2, 1000), Speed::Rpm(983));
}

#[test]
fn reset_is_not_standby() {
    let next = written(&quiet(), 0x00, 0xC0);
    assert_eq!(next, quiet());
}

#[test]
fn refusals_of_the_trials() {
    let state = quiet();
    assert_eq!(write(&state, 0x0E, 0), (NOT_CARRIED, state));
    assert_eq!(read(&state, 0x0E), (NOT_CARRIED, 0, state));
    assert_eq!(write(&state, 0x11, 0), (READ_ONLY, state));
    assert_eq!(write(&state, 0x02, 0x80), (CONFIGURATION, state));
}

// Time

#[test]
fn the_tick_of_the_expiry_is_frozen() {
    let mut state = ramping(0, 100, 110, rate(1));
    state.control |= 0x02;
    state.idle = 2558;
    assert_eq!(ramp_after(&state, 1), 101);
    let frozen = after(&state, 2);
    assert!(frozen.expired);
    assert_eq!(frozen.channels[0].ramp, 101);
    assert_eq!(output_duty(&frozen, 0), 511);
    assert_eq!(after(&state, 4_294_967_295).channels[0].ramp, 101);
}

#[test]
fn idle_runs_on_in_standby_and_under_a_low_pin() {
    for (control, pin) in [(0x82, true), (0x02, false)] {
        let mut state = quiet();
        state.control = control;
        state.pin = pin;
        assert!(!after(&state, 2559).expired);
        assert!(after(&state, 2560).expired);
    }
}

#[test]
fn an_expiry_stays_as_it_is_without_an_access() {
    let expired = after(&written(&quiet(), 0x00, 0x06), 15_360);
    let later = after(&expired, 100_000);
    assert!(later.expired);
    assert_eq!(later.idle, 15_360);
    assert_eq!(later.clock, 115_360);
}

#[test]
fn watchdog_limits_of_all_codes() {
    assert!(!after(&quiet(), u32::MAX).expired);
    for (code, limit) in [(1, 2560), (2, 5120), (3, 15_360)] {
        let state = written(&quiet(), 0x00, code << 1);
        assert!(!after(&state, limit - 1).expired);
        assert!(after(&state, limit).expired);
    }
}

#[test]
fn spin_up_lengths_of_all_codes() {
    for (code, length) in [(1, 256), (2, 512), (3, 1024)] {
        let mut state = ramping(0, 0, 1, rate(1));
        state.channels[0].config = code << 5;
        assert_eq!(after(&state, 1).channels[0].spin, length);
        assert_eq!(after(&state, u32::from(length)).channels[0].spin, 1);
        let done = after(&state, u32::from(length) + 1);
        assert_eq!((done.channels[0].spin, done.channels[0].ramp), (0, 511));
    }
}

#[test]
fn periods_of_all_rate_codes() {
    assert_eq!(ramp_after(&ramping(3, 100, 400, rate(0)), 1), 400);
    for code in 1..=7 {
        let step = 1 << (code - 1);
        let rising = ramping(0, 100, 101, rate(code) | ASYMMETRIC_FALL);
        assert_eq!(ramp_after(&rising, step - 1), 100);
        assert_eq!(ramp_after(&rising, step), 101);
        // The period is counted by the clock, which is about to be a multiple of it.
        let close = ramping(step - 1, 100, 102, rate(code));
        assert_eq!(ramp_after(&close, 1), 101);
        assert_eq!(ramp_after(&close, step), 101);
        assert_eq!(ramp_after(&close, step + 1), 102);
        let falling = ramping(0, 101, 100, rate(code) | ASYMMETRIC_FALL);
        assert_eq!(ramp_after(&falling, 2 * step - 1), 101);
        assert_eq!(ramp_after(&falling, 2 * step), 100);
    }
}

#[test]
fn no_spin_up_without_code_or_target() {
    let mut state = ramping(0, 0, 5, rate(1));
    assert_eq!(ramp_after(&state, 1), 1);
    state.channels[0].config = 3 << 5;
    state.channels[0].target = 0;
    assert_eq!(after(&state, 1).channels[0].spin, 0);
}

#[test]
fn each_override_freezes_ramp_and_spin_up() {
    let mut moving = ramping(0, 100, 200, rate(1));
    moving.channels[1].ramp = 511;
    moving.channels[1].spin = 9;
    let low = pin(&moving, false).1;
    let mut expired = moving;
    expired.control |= 0x02;
    expired.idle = 2560;
    expired.expired = true;
    let mut all_failed = moving;
    all_failed.faults = 0x20;
    all_failed.options = 0x0C;
    for state in [low, expired, all_failed] {
        let later = after(&state, 10);
        assert_eq!(later.channels, state.channels);
        assert_eq!(later.clock, 10);
    }
    assert_ne!(after(&moving, 10).channels, moving.channels);
}

#[test]
fn single_ticks_and_a_jump_agree() {
    let mut random = Random::new(11);
    for turn in 0..150 {
        let state = match turn % 5 {
            0 => sound_state(&mut random),
            1 => unusual_sound_state(&mut random),
            2 => spinning_state(&mut random),
            3 => waiting_state(&mut random),
            _ => state_before_expiry(&mut random),
        };
        let count = random.between(0, 30_000);
        let mut single = state;
        for _ in 0..count {
            tick(&mut single);
        }
        assert_eq!(ticks(&state, count), (ACCEPTED, single));
    }
}

#[test]
fn what_rests_goes_on_resting() {
    let mut random = Random::new(12);
    for _ in 0..200 {
        let mut state = after(&sound_state(&mut random), u32::MAX);
        assert!(at_rest(&state));
        let rested = state;
        for _ in 0..300 {
            tick(&mut state);
        }
        let clock = rested.clock.wrapping_add(300);
        assert_eq!(state, State { clock, ..rested });
    }
}

// Which duty comes out

#[test]
fn the_first_line_that_applies() {
    let mut state = ramping(0, 511, 100, rate(3));
    state.channels[0].ramp = 300;
    assert_eq!(deciding_line(&state, 0), Line::Ramp);
    state.channels[0].ramp = 511;
    state.channels[0].spin = 4;
    assert_eq!(deciding_line(&state, 0), Line::SpinUp);
    state.faults = 1;
    state.options = 0x00;
    assert_eq!(deciding_line(&state, 0), Line::FailedFan(0));
    state.expired = true;
    assert_eq!(deciding_line(&state, 0), Line::WatchdogExpired);
    state.control |= STANDBY;
    assert_eq!(deciding_line(&state, 0), Line::Standby);
    state.pin = false;
    assert_eq!(deciding_line(&state, 0), Line::FullSpeed);
    state.channels[0].config = MONITOR_ONLY;
    assert_eq!(deciding_line(&state, 0), Line::MonitorOnly);
}

#[test]
fn duties_of_the_lines() {
    let mut state = ramping(0, 300, 300, rate(3));
    assert_eq!(output_duty(&state, 0), 300);
    state.pin = false;
    assert_eq!(output_duty(&state, 0), 511);
    state = written(&quiet(), 0x00, STANDBY);
    assert_eq!(output_duty(&state, 0), 0);
    assert_eq!(output_duty(&pin(&state, false).1, 0), 511);
    state = written(&quiet(), 0x02, MONITOR_ONLY);
    assert_eq!(output_duty(&pin(&state, false).1, 0), 0);
}

#[test]
fn failed_fan_options() {
    let mut state = ramping(0, 300, 300, rate(3));
    state.faults = 1;
    state.mask1 = 0x3F;
    let duties = |state: &State| (output_duty(state, 0), output_duty(state, 1));
    for (option, expected) in [(0, (0, 0)), (1, (300, 0)), (2, (511, 0)), (3, (511, 511))] {
        state.options = option << 2;
        assert_eq!(duties(&state), expected);
    }
    // Any fault bit counts, also that of a monitor-only channel, which itself stays at 0.
    state = written(&state, 0x02, MONITOR_ONLY);
    assert_eq!(duties(&state), (0, 511));
}

// Registers

#[test]
fn eighty_five_registers_are_carried() {
    assert_eq!((0..100_000).filter(|&address| carried(address)).count(), 85);
    assert_eq!(
        (0..100_000).filter(|&address| read_only(address)).count(),
        38
    );
    for address in [
        0x0D, 0x10, 0x14, 0x18, 0x3B, 0x40, 0x4B, 0x50, 0x5B, 0x60, 0x65,
    ] {
        assert!(carried(address));
    }
    for address in [
        0x0E, 0x0F, 0x15, 0x17, 0x3C, 0x3F, 0x4C, 0x4F, 0x5C, 0x5F, 0x66, 0x100,
    ] {
        assert!(!carried(address));
    }
}

#[test]
fn power_on_values() {
    let state = started(PinSet {
        watchdog: 3,
        spin_up: 2,
        target: 300,
        frequency: 0xB7,
        modification: 1,
    });
    let table = [
        (0x00, 0b0010_0110),
        (0x01, 0xB7),
        (0x02, 0b0100_0000),
        (0x0D, 0b0100_1100),
        (0x10, 0),
        (0x11, 0),
        (0x12, 0b0011_1111),
        (0x13, 0b0011_1111),
        (0x14, 0b0100_0101),
        (0x18, 0b1111_1111),
        (0x19, 0b1110_0000),
        (0x2E, 0b1111_1111),
        (0x2F, 0b1110_0000),
        (0x30, 0),
        (0x3B, 0),
        (0x40, 0x96),
        (0x41, 0x00),
        (0x5A, 0b0011_1100),
        (0x5B, 0),
        (0x65, 0),
    ];
    for (address, byte) in table {
        assert_eq!(byte_at(&state, address), byte, "{address:02X}h");
    }
    assert!(state.pin && sound(&state));
    assert_eq!((state.clock, state.idle), (0, 0));
}

#[test]
fn kept_bits_of_a_written_byte() {
    let kept = [
        (0x00, 0xBF, 0xAE),
        (0x01, 0xFF, 0xFF),
        (0x02, 0x7A, 0x7A),
        (0x08, 0xFF, 0xFE),
        (0x12, 0xFF, 0x3F),
        (0x13, 0xFF, 0x3F),
        (0x14, 0xFF, 0xEF),
        (0x65, 0xFF, 0xFF),
    ];
    for (address, byte, shown) in kept {
        assert_eq!(byte_at(&written(&quiet(), address, byte), address), shown);
    }
}

#[test]
fn a_word_to_a_duty_is_stored_without_its_low_bits() {
    for (word, duty, high, low) in [
        (0x0000, 0, 0x00, 0x00),
        (0x007F, 0, 0x00, 0x00),
        (0x0080, 1, 0x00, 0x80),
        (0x00FF, 1, 0x00, 0x80),
        (0x0100, 2, 0x01, 0x00),
        (0x6400, 200, 0x64, 0x00),
        (0x64E5, 201, 0x64, 0x80),
        (0xFF7F, 510, 0xFF, 0x00),
        (0xFF80, 511, 0xFF, 0x80),
        // Bit 0 of the low byte at 511 is the output duty's alone.
        (0xFFFF, 511, 0xFF, 0x80),
    ] {
        let state = word_written(&quiet(), 0x4A, word);
        assert_eq!(state.channels[5].target, duty);
        assert_eq!((byte_at(&state, 0x4A), byte_at(&state, 0x4B)), (high, low));
    }
}

#[test]
fn a_word_to_a_count_is_stored_without_its_low_bits() {
    for (word, count, high, low) in [
        (0x0000, 0, 0x00, 0x00),
        (0x001F, 0, 0x00, 0x00),
        (0x0020, 1, 0x00, 0x20),
        (0x003F, 1, 0x00, 0x20),
        (0x8000, 1024, 0x80, 0x00),
        (0x80FF, 1031, 0x80, 0xE0),
        (0xFFDF, 2046, 0xFF, 0xC0),
        (0xFFE0, 2047, 0xFF, 0xE0),
        (0xFFFF, 2047, 0xFF, 0xE0),
    ] {
        let state = word_written(&quiet(), 0x52, word);
        assert_eq!(state.channels[1].target_count, count);
        assert_eq!((byte_at(&state, 0x52), byte_at(&state, 0x53)), (high, low));
    }
}

#[test]
fn a_word_changes_the_target_of_its_channel_alone() {
    for index in 0..CHANNELS {
        let mut expected = quiet();
        expected.channels[index].target = 300;
        let address = 0x40 + 2 * index as u32;
        assert_eq!(word_written(&quiet(), address, 0x9600), expected);
        let mut expected = quiet();
        expected.channels[index].target_count = 1000;
        let address = 0x50 + 2 * index as u32;
        assert_eq!(word_written(&quiet(), address, 0x7D00), expected);
    }
}

#[test]
fn refusals_of_a_byte_write_come_in_their_order() {
    let state = quiet();
    for (address, refusal) in [
        (0x3B, 3),
        (0x3C, 2),
        (0x3F, 2),
        (0x40, 8),
        (0x41, 8),
        (0x4A, 8),
        (0x4B, 8),
        (0x4C, 2),
        (0x4F, 2),
        (0x50, 8),
        (0x5B, 8),
        (0x5C, 2),
        (0x5F, 2),
        (0x11, 3),
        (0x02, 4),
        (0x07, 4),
        (0x140, 2),
        (0x1_0050, 2),
        (0xFFFF_FF40, 2),
    ] {
        // These bits are refusal 4's.
        assert_eq!(write(&state, address, 0x85), (refusal, state));
    }
    for address in [0x40, 0x4B, 0x50, 0x5B] {
        for byte in [0x00, 0x80, 0xE0, 0xFF] {
            assert_eq!(write(&state, address, byte), (BYTE_OR_WORD, state));
        }
    }
    for address in [0x01, 0x08, 0x0D, 0x12, 0x13, 0x14, 0x60, 0x65] {
        assert_eq!(write(&state, address, 0x85).0, ACCEPTED);
    }
}

#[test]
fn refusals_of_a_word_write_come_in_their_order() {
    let state = quiet();
    let beside_the_rows = [0x0E, 0x16, 0x3C, 0x3E, 0x4C, 0x4E, 0x5C, 0x5E, 0x66];
    let far_away = [0x140, 0x1_0050, 0xFFFF_FF40, u32::MAX];
    let read_only = [0x10, 0x11, 0x18, 0x3A, 0x3B];
    let of_bytes = [0x00, 0x01, 0x02, 0x0D, 0x12, 0x13, 0x14, 0x60, 0x65];
    let odd = [0x41, 0x4B, 0x51, 0x5B];
    for (refusal, addresses) in [
        (2, &beside_the_rows[..]),
        (2, &far_away),
        (3, &read_only),
        (8, &of_bytes),
        (8, &odd),
    ] {
        for &address in addresses {
            for word in [0x0000, 0x0080, 0x8585, 0xFFFF] {
                assert_eq!(write_word(&state, address, word), (refusal, state));
            }
        }
    }
    for address in [0x40, 0x42, 0x4A, 0x50, 0x52, 0x5A] {
        assert_eq!(write_word(&state, address, 0xFFFF).0, ACCEPTED);
    }
}

#[test]
fn a_register_takes_a_byte_or_has_half_of_a_word() {
    let refused = |refusal: u32, by: fn(&State, u32) -> u32| {
        let refusals = (0..0x1000).map(|address| by(&quiet(), address));
        refusals.filter(|&number| number == refusal).count()
    };
    let byte = |state: &State, address| write(state, address, 0x00).0;
    let word = |state: &State, address| write_word(state, address, 0x0000).0;
    // 85 are carried: 38 of them read-only, 24 of targets, 23 others.
    assert_eq!(refused(ACCEPTED, byte), 23);
    assert_eq!(refused(BYTE_OR_WORD, byte), 24);
    assert_eq!(refused(ACCEPTED, word), 12);
    assert_eq!(refused(BYTE_OR_WORD, word), 12 + 23);
    for either in [byte, word] {
        assert_eq!(refused(READ_ONLY, either), 38);
        assert_eq!(refused(NOT_CARRIED, either), 4096 - 85);
    }
}

#[test]
fn tachometers_seven_to_twelve_read_full_scale() {
    let mut state = quiet();
    state
        .channels
        .iter_mut()
        .for_each(|channel| channel.count = 0);
    assert_eq!((byte_at(&state, 0x22), byte_at(&state, 0x23)), (0, 0));
    for address in (0x24..=0x2E).step_by(2) {
        assert_eq!(byte_at(&state, address), 0xFF);
        assert_eq!(byte_at(&state, address + 1), 0xE0);
    }
}

// Start, reset, standby, monitor only

#[test]
fn start_refuses_values_out_of_range() {
    let nothing = State::default();
    assert!(!nothing.pin && sound(&nothing));
    let highest = PinSet {
        watchdog: 3,
        spin_up: 3,
        target: 511,
        frequency: 255,
        modification: 1,
    };
    assert_eq!(start(&highest).0, ACCEPTED);
    for (watchdog, spin_up, target) in [
        (4, 3, 511),
        (3, 4, 511),
        (3, 3, 512),
        (256, 0, 0),
        (0, 65_536, 0),
        (0, 0, 65_536),
        (u32::MAX, u32::MAX, u32::MAX),
    ] {
        let refused = PinSet {
            watchdog,
            spin_up,
            target,
            ..highest
        };
        assert_eq!(start(&refused), (PIN_SET_VALUE, nothing));
    }
    // The pin is low: every duty is 511.
    assert_eq!(output_duty(&nothing, 0), 511);
}

#[test]
fn reset_keeps_clock_and_pin_alone() {
    let fresh = started(PinSet {
        watchdog: 1,
        spin_up: 2,
        target: 33,
        frequency: 0x77,
        modification: 1,
    });
    let mut state = fresh;
    for (address, byte) in [
        (0x00, 0xA6),
        (0x02, 0x18),
        (0x09, 0x00),
        (0x13, 0),
        (0x14, 0),
        (0x61, 9),
    ] {
        state = written(&state, address, byte);
    }
    state.faults = 0x15;
    state.channels[2].queue = 5;
    state.control |= STATUS;
    state = pin(&after(&state, 12_345), false).1;
    state.wait = 2048;
    let reset = written(&state, 0x00, 0xFF);
    assert_eq!(
        reset,
        State {
            clock: 12_345,
            pin: false,
            ..fresh
        }
    );
}

#[test]
fn standby_and_monitor_zero_ramp_and_spin_up() {
    let mut state = ramping(0, 300, 300, rate(3));
    state.channels[1].ramp = 511;
    state.channels[1].spin = 7;
    state.channels[0].queue = 3;
    state.faults = 1;
    let standby = written(&state, 0x00, 0x80);
    assert!(standby
        .channels
        .iter()
        .all(|channel| channel.ramp == 0 && channel.spin == 0));
    assert_eq!((standby.faults, standby.channels[0].queue), (1, 3));
    let monitor = written(&state, 0x03, MONITOR_ONLY);
    assert_eq!((monitor.channels[1].ramp, monitor.channels[1].spin), (0, 0));
    assert_eq!(monitor.channels[0], state.channels[0]);
    // A changed spin-up code does not shorten one that runs.
    let recoded = written(&state, 0x03, 0x00);
    assert_eq!(
        (recoded.channels[1].ramp, recoded.channels[1].spin),
        (511, 7)
    );
}

// Bus accesses, the status bit and the expiry

#[test]
fn an_access_ends_an_expiry_and_keeps_the_status_bit() {
    let expired = after(&written(&quiet(), 0x00, 0x02), 2560);
    assert_eq!(byte_at(&expired, 0x30), 0xFF);
    let read_elsewhere = read(&expired, 0x30).2;
    assert!(!read_elsewhere.expired && read_elsewhere.idle == 0);
    assert_eq!(read_elsewhere.control, 0x03);
    let rewritten = written(&expired, 0x00, 0x00);
    assert_eq!((rewritten.control, rewritten.expired), (0x01, false));
    let (_, byte, cleared) = read(&expired, 0x00);
    assert_eq!((byte, cleared.control), (0x03, 0x02));
}

#[test]
fn other_calls_do_not_feed_the_watchdog() {
    let counting = after(&written(&quiet(), 0x00, 0x02), 100);
    assert_eq!(counting.idle, 100);
    assert_eq!(write(&counting, 0x11, 0).1.idle, 100);
    assert_eq!(write(&counting, 0x02, 0x01).1.idle, 100);
    assert_eq!(write(&counting, 0x40, 0x64).1.idle, 100);
    assert_eq!(read(&counting, 0x3C).2.idle, 100);
    assert_eq!(with_result(&counting, 1, 5).idle, 100);
    assert_eq!(pin(&counting, false).1.idle, 100);
    assert_eq!(read(&counting, 0x3B).2.idle, 0);
    assert_eq!(written(&counting, 0x12, 0).idle, 0);
}

#[test]
fn an_accepted_word_is_an_access_and_a_refused_one_is_none() {
    let on = written(&quiet(), 0x00, 0x02);
    let (counting, expired) = (after(&on, 2559), after(&on, 2560));
    assert_eq!((counting.idle, counting.expired), (2559, false));
    assert_eq!((expired.idle, expired.expired), (2560, true));
    for state in [counting, expired] {
        for address in [0x00, 0x02, 0x18, 0x3C, 0x41, 0x4C, 0x51, 0x60, 0x140] {
            let (refusal, next) = write_word(&state, address, 0x6400);
            assert_ne!(refusal, ACCEPTED);
            assert_eq!(next, state);
        }
        for address in [0x40, 0x4A, 0x50, 0x5A] {
            let next = word_written(&state, address, 0x6400);
            assert_eq!((next.idle, next.expired), (0, false));
            // The status bit is cleared by a read of 00h alone.
            assert_eq!(next.control, state.control);
        }
    }
    assert!(after(&word_written(&counting, 0x40, 0), 2560).expired);
    assert!(!after(&word_written(&counting, 0x40, 0), 2559).expired);
}

// A target in one go

#[test]
fn a_small_duty_in_one_go_starts_no_spin_up() {
    let mut state = ramping(0, 200, 200, rate(0));
    state.channels[0].config = 1 << 5;
    let set = word_written(&state, 0x40, 0x0080);
    assert_eq!((set.channels[0].ramp, set.channels[0].target), (200, 1));
    for count in [1, 2, 300] {
        let next = after(&set, count);
        assert_eq!((next.channels[0].ramp, next.channels[0].spin), (1, 0));
    }
    // By way of 0 it is another matter: spin-up is due from there.
    let stopped = after(&word_written(&state, 0x40, 0x0000), 1);
    assert_eq!((stopped.channels[0].ramp, stopped.channels[0].spin), (0, 0));
    let next = after(&word_written(&stopped, 0x40, 0x0080), 1);
    assert_eq!((next.channels[0].ramp, next.channels[0].spin), (511, 256));
}

#[test]
fn a_word_moves_no_ramp_and_ends_no_spin_up() {
    let mut state = ramping(0, 100, 100, rate(3));
    state.channels[1].ramp = 511;
    state.channels[1].spin = 7;
    let mut expected = state;
    expected.channels[0].target = 511;
    expected.channels[1].target = 0;
    let next = word_written(&word_written(&state, 0x40, 0xFF80), 0x42, 0x0000);
    assert_eq!(next, expected);
}

// Queries and speed

#[test]
fn fan_fail_counts_unmasked_faults() {
    let mut state = quiet();
    state.faults = 0b10_1101;
    assert_eq!(fan_fail(&state), (ACCEPTED, false, 0, 0));
    state.mask1 = 0b00_0001;
    assert_eq!(fan_fail(&state), (ACCEPTED, true, 3, 3));
    state.mask1 = 0;
    assert_eq!(fan_fail(&state), (ACCEPTED, true, 4, 1));
}

#[test]
fn cabin_reading_is_exact() {
    let mut state = ramping(1, 510, 510, 0);
    state.channels[1].ramp = 511;
    let (refusal, seconds, shares) = cabin(&state);
    assert_eq!((refusal, seconds), (ACCEPTED, 1_953_125));
    assert_eq!(shares, [996_093_750, 1_000_000_000, 0, 0, 0, 0]);
}

#[test]
fn speeds_and_their_refusals() {
    assert_eq!(speed(0, 1, 1), Speed::Rpm(491_520));
    assert_eq!(speed(7, 1, 1), Speed::Rpm(15_728_640));
    assert_eq!(speed(5, 4, 2046), Speed::Rpm(1921));
    for (range_code, pulses, count) in [
        (8, 1, 1),
        (0, 0, 1),
        (0, 5, 1),
        (0, 1, 2048),
        (0, 1, u32::MAX),
        (u32::MAX, u32::MAX, u32::MAX),
    ] {
        assert_eq!(speed(range_code, pulses, count), Speed::Refused);
    }
}

#[test]
fn no_speed_has_two_words_after_the_refusals() {
    for range_code in 0..8 {
        for pulses in 1..=4 {
            assert_eq!(speed(range_code, pulses, 2047), Speed::Stopped);
            assert_eq!(speed(range_code, pulses, 0), Speed::TooFast);
        }
    }
    for (range_code, pulses) in [(8, 1), (u32::MAX, 4), (0, 0), (7, 5), (8, 5)] {
        assert_eq!(speed(range_code, pulses, 2047), Speed::Refused);
        assert_eq!(speed(range_code, pulses, 0), Speed::Refused);
    }
}

//! Soundness, clause by clause, and that every call keeps it.

use super::*;

/// A change that alone makes a sound state not sound.
fn spoils(change: impl Fn(&mut State)) {
    let mut state = ramping(0, 300, 300, rate(3));
    change(&mut state);
    assert!(!sound(&state), "{state:?}");
    for address in [0x02, 0x11, 0x40, 0x41, 0xFFFF] {
        assert_eq!(write(&state, address, 0x80), (NOT_SOUND, state));
        assert_eq!(write_word(&state, address, 0x0080), (NOT_SOUND, state));
    }
    assert_eq!(read(&state, 0xFFFF), (NOT_SOUND, 0, state));
    assert_eq!(ticks(&state, 0), (NOT_SOUND, state));
    assert_eq!(ticks(&state, 9), (NOT_SOUND, state));
    assert_eq!(tachometer(&state, 0, 0), (NOT_SOUND, state));
    for channel in [0, 1, 6, 7, u32::MAX] {
        assert_eq!(pulse(&state, channel), (NOT_SOUND, state));
    }
    assert_eq!(pin(&state, false), (NOT_SOUND, state));
    assert_eq!(cabin(&state), (NOT_SOUND, 0, [0; 6]));
    assert_eq!(fan_fail(&state), (NOT_SOUND, false, 0, 0));
}

fn keeps_sound(change: impl Fn(&mut State)) {
    let mut state = ramping(0, 300, 300, rate(3));
    change(&mut state);
    assert!(sound(&state), "{state:?}");
}

#[test]
fn fields_of_the_box_in_range() {
    spoils(|state| state.control |= 0x40);
    spoils(|state| state.control |= 0x10);
    spoils(|state| state.mask2 = 0x40);
    spoils(|state| state.mask1 = 0x80);
    spoils(|state| state.options |= 0x10);
    spoils(|state| state.start_watchdog = 4);
    spoils(|state| state.start_spinup = 4);
    spoils(|state| state.start_target = 512);
    for modification in [2, 3, 128, 254, 255] {
        spoils(|state| state.modification = modification);
    }
    for wait in [2049, 4096, 65_535] {
        spoils(|state| state.wait = wait);
    }
    keeps_sound(|state| {
        state.control = 0x29;
        state.frequency = 0xFF;
        state.mask1 = 0x3F;
        state.options = 0xEF;
        state.start_watchdog = 3;
        state.start_spinup = 3;
        state.start_target = 511;
        state.start_frequency = 0xFF;
        state.modification = 1;
        state.wait = 2048;
        state.faults = 0x3F;
    });
    // Under any delay code: a running wait is that of an earlier one.
    for wait in [0, 1, 2047, 2048] {
        keeps_sound(|state| {
            state.options = 0x04;
            state.wait = wait;
        });
    }
}

#[test]
fn fields_of_a_channel_in_range() {
    for bit in [0x80, 0x04, 0x01] {
        spoils(|state| state.channels[5].config |= bit);
    }
    spoils(|state| state.channels[4].dynamics |= 1);
    spoils(|state| state.channels[3].count = 2048);
    spoils(|state| state.channels[2].ramp = 512);
    spoils(|state| state.channels[1].target = 512);
    spoils(|state| state.channels[0].target_count = 2048);
    spoils(|state| state.channels[5].queue = 7);
    spoils(|state| {
        state.channels[0].ramp = 511;
        state.channels[0].spin = 1025;
    });
    keeps_sound(|state| {
        state.channels[0].ramp = 511;
        state.channels[0].spin = 1024;
        state.channels[0].config = 0x0A;
        state.channels[0].dynamics = 0xFE;
        state.channels[0].count = 2047;
        state.channels[0].target = 511;
        state.channels[0].target_count = 2047;
        state.channels[0].window = 0xFF;
        state.channels[0].queue = 6;
    });
}

#[test]
fn ramp_and_spin_up_agree_with_the_mode() {
    spoils(|state| state.channels[0].config |= MONITOR_ONLY);
    spoils(|state| state.control |= STANDBY);
    spoils(|state| state.channels[0].spin = 1);
    spoils(|state| {
        state.channels[1].config |= MONITOR_ONLY;
        state.channels[1].spin = 1;
    });
    keeps_sound(|state| state.channels[1].config |= MONITOR_ONLY);
    keeps_sound(|state| {
        state.control |= STANDBY;
        state.channels[0].ramp = 0;
    });
}

#[test]
fn watchdog_counts_agree() {
    spoils(|state| state.idle = 1);
    spoils(|state| state.expired = true);
    for (code, limit) in [(1, 2560), (2, 5120), (3, 15_360)] {
        let set = |state: &mut State, idle, expired| {
            state.control |= code << 1;
            state.idle = idle;
            state.expired = expired;
        };
        spoils(|state| set(state, limit, false));
        spoils(|state| set(state, limit + 1, false));
        spoils(|state| set(state, limit + 1, true));
        spoils(|state| set(state, limit - 1, true));
        spoils(|state| set(state, 0, true));
        keeps_sound(|state| set(state, limit - 1, false));
        // Expired with the status bit clear is sound.
        keeps_sound(|state| set(state, limit, true));
    }
    keeps_sound(|state| state.control |= STATUS);
}

/// Channel 3 within a spin-up.
fn spinning_up(state: &mut State, modification: u8, pulses: u8) {
    state.modification = modification;
    state.channels[2].ramp = 511;
    state.channels[2].spin = 256;
    state.channels[2].pulses = pulses;
}

#[test]
fn pulses_agree_with_modification_and_spin_up() {
    keeps_sound(|state| spinning_up(state, 0, 0));
    keeps_sound(|state| spinning_up(state, 1, 0));
    keeps_sound(|state| spinning_up(state, 1, 1));
    // Under an override too: the ticks that are left are what counts.
    keeps_sound(|state| {
        spinning_up(state, 1, 1);
        state.pin = false;
    });
    for pulses in [2, 3, 128, 255] {
        spoils(|state| spinning_up(state, 1, pulses));
    }
    for pulses in [1, 2, 255] {
        spoils(|state| spinning_up(state, 0, pulses));
        spoils(|state| spinning_up(state, 2, pulses));
        for ramp in [0, 1, 510, 511] {
            spoils(|state| {
                spinning_up(state, 1, pulses);
                state.channels[2].ramp = ramp;
                state.channels[2].spin = 0;
            });
        }
    }
    // The last tick that is left is enough.
    keeps_sound(|state| {
        spinning_up(state, 1, 1);
        state.channels[2].spin = 1;
    });
}

#[test]
fn a_count_of_pulses_stands_on_its_own_channel() {
    spoils(|state| {
        spinning_up(state, 1, 0);
        state.channels[3].pulses = 1;
    });
    keeps_sound(|state| {
        spinning_up(state, 1, 1);
        state.channels[5] = state.channels[2];
    });
}

fn random_sound_state(random: &mut Random) -> State {
    match random.below(3) {
        0 => sound_state(random),
        1 => spinning_state(random),
        _ => waiting_state(random),
    }
}

#[test]
fn states_after_sound_ones_are_sound() {
    let mut random = Random::new(13);
    for _ in 0..3000 {
        let state = random_sound_state(&mut random);
        let address = random.below(0x68);
        let byte = random.byte();
        let channel = random.between(1, 6);
        let count = random.below(2100);
        let word = random.any() as u16;
        assert!(sound(&write(&state, address, byte).1));
        assert!(sound(&write_word(&state, address, word).1));
        assert!(sound(&read(&state, address).2));
        assert!(sound(&tachometer(&state, channel, count).1));
        assert!(sound(&pulse(&state, channel).1));
        assert!(sound(&ticks(&state, count).1));
        assert!(sound(&pin(&state, !state.pin).1));
    }
}

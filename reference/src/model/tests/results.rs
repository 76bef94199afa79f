//! Tachometer results: which are stored, which are judged, and what the queue and the fault bit do.

use super::*;

#[test]
fn a_disabled_tachometer_changes_nothing() {
    let state = ramping(0, 100, 100, rate(3));
    assert_eq!(tachometer(&state, 1, 2047), (ACCEPTED, state));
}

#[test]
fn results_are_judged_by_the_state_before_them() {
    let standing = watched(0);
    let bad = |state: &State| with_result(state, 1, 481).channels[0].queue;
    assert_eq!(bad(&standing), 1);
    assert_eq!(bad(&written(&standing, 0x00, STANDBY)), 0);
    let mut state = standing;
    state.channels[0].ramp = 0;
    assert_eq!(bad(&state), 0);
    // Monitor only is judged at duty 0; FULL_SPEED low gives a duty of 511.
    assert_eq!(bad(&written(&standing, 0x02, 0x18)), 1);
    assert_eq!(bad(&pin(&state, false).1), 1);
    state.channels[0].ramp = 511;
    state.channels[0].spin = 1;
    assert_eq!(bad(&state), 0);
    // A spin-up frozen under an override still has time left.
    assert_eq!(bad(&pin(&state, false).1), 0);
}

#[test]
fn option_zero_leaves_results_of_a_failed_channel_unjudged() {
    let mut state = watched(0);
    state.options = 0x00;
    state = with_result(&state, 1, 481);
    assert_eq!((state.faults, state.channels[0].queue), (1, 1));
    let good = with_result(&state, 1, 3);
    assert_eq!((good.channels[0].count, good.channels[0].queue), (3, 1));
    let full_speed = with_result(&pin(&state, false).1, 1, 3);
    assert_eq!(full_speed.channels[0].queue, 0);
}

#[test]
fn a_count_at_the_target_is_good_and_keeps_the_fault() {
    let mut state = watched(0);
    state = with_result(&state, 1, 481);
    assert_eq!((state.faults, state.channels[0].queue), (1, 1));
    state = with_result(&state, 1, 480);
    assert_eq!((state.faults, state.channels[0].queue), (1, 0));
}

#[test]
fn a_count_of_2047_is_bad_for_any_target() {
    let standing = watched(1);
    for (target, count, queue) in [
        (0, 0, 0),
        (0, 1, 1),
        (2045, 2045, 0),
        (2045, 2046, 1),
        (2046, 2046, 0),
        (2046, 2047, 1),
        (2047, 2046, 0),
        (2047, 2047, 1),
        (2047, 2048, 1),
        (2047, u32::MAX, 1),
    ] {
        let mut state = standing;
        state.channels[0].target_count = target;
        let next = with_result(&state, 1, count);
        assert_eq!((next.channels[0].queue, next.faults), (queue, 0));
        assert_eq!(u32::from(next.channels[0].count), count.min(2047));
    }
}

#[test]
fn a_stopped_fan_fails_at_a_target_count_of_2047() {
    for (code, length) in [(0, 1), (1, 2), (2, 4), (3, 6)] {
        let mut state = watched(code);
        state.mask1 = 0x00;
        state.channels[0].target_count = 2047;
        for results in 1..=7 {
            state = with_result(&state, 1, 5000);
            let (_, asserted, ..) = fan_fail(&state);
            assert_eq!(asserted, results >= length);
        }
    }
}

#[test]
fn a_count_of_2047_that_is_not_judged_is_only_stored() {
    let mut state = watched(0);
    state.channels[0].target_count = 2047;
    state.channels[0].queue = 3;
    state.channels[0].ramp = 0;
    let next = with_result(&state, 1, 2047);
    assert_eq!((next.channels[0].queue, next.faults), (3, 0));
}

#[test]
fn queue_lengths_and_the_cap() {
    for (code, length) in [(0, 1), (1, 2), (2, 4), (3, 6)] {
        let mut state = watched(code);
        for results in 1..=9 {
            state = with_result(&state, 1, 2047);
            assert_eq!(state.faults, u8::from(results >= length));
            assert_eq!(state.channels[0].queue, results.min(6));
        }
    }
}

#[test]
fn a_word_to_a_duty_clears_fault_and_queue_of_its_channel() {
    let mut state = watched(0);
    state.faults = 0x03;
    state.channels[0].queue = 4;
    state.channels[1].queue = 5;
    // The present target, 0, is as good as another one.
    for word in [0x0000, 0x1000] {
        let next = word_written(&state, 0x42, word);
        assert_eq!(
            (next.faults, next.channels[0].queue, next.channels[1].queue),
            (1, 4, 0)
        );
    }
    for address in [0x02, 0x08, 0x13, 0x14, 0x60] {
        let next = written(&state, address, 0x00);
        assert_eq!((next.faults, next.channels[0].queue), (3, 4));
    }
    let counted = word_written(&state, 0x50, 0x1000);
    assert_eq!((counted.faults, counted.channels[0].queue), (3, 4));
    for (address, refusal) in [(0x41, 8), (0x3C, 2), (0x30, 3)] {
        assert_eq!(write_word(&state, address, 0x1000), (refusal, state));
    }
    for address in [0x40, 0x41] {
        assert_eq!(write(&state, address, 0x10), (BYTE_OR_WORD, state));
    }
    assert_eq!(read(&state, 0x11).2.faults, 3);
}

#[test]
fn a_channel_from_one_to_six() {
    let state = quiet();
    for channel in [0, 7, 256, u32::MAX] {
        assert_eq!(tachometer(&state, channel, 5), (NO_SUCH_CHANNEL, state));
    }
    for channel in 1..=6 {
        assert_eq!(tachometer(&state, channel, 5).0, ACCEPTED);
    }
}

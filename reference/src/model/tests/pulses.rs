//! The two modifications, and what one pulse and the next do to a spin-up. The numbers are worked
//! out from the papers.

use super::*;

const A: u32 = 0;
const B: u32 = 1;

/// A box whose fans are all to start: spin-up code 1 and target 200, with rate code 3 and start
/// delay code 2 as at power-on. Channel 1 starts with the first tick.
fn starting(modification: u32) -> State {
    started(PinSet {
        spin_up: 1,
        target: 200,
        modification,
        ..PinSet::default()
    })
}

/// The same one with start delay code 0, after its first tick: every channel has 256 ticks of
/// spin-up left.
fn spinning(modification: u32) -> State {
    let state = State {
        options: 0x05,
        ..starting(modification)
    };
    after(&state, 1)
}

fn pulsed(state: &State, channel: u32) -> State {
    let (refusal, next) = pulse(state, channel);
    assert_eq!(refusal, ACCEPTED);
    assert!(sound(&next));
    next
}

/// Remaining ticks and count of pulses of channel 1.
fn spin_up_of(state: &State) -> (u16, u8) {
    (state.channels[0].spin, state.channels[0].pulses)
}

// Two pulses

#[test]
fn the_second_pulse_ends_a_spin_up() {
    let begun = spinning(B);
    assert_eq!((begun.clock, begun.channels[0].ramp), (1, 511));
    assert_eq!(spin_up_of(&begun), (256, 0));
    let first = pulsed(&begun, 1);
    assert_eq!(spin_up_of(&first), (256, 1));
    assert_eq!(output_duty(&first, 0), 511);
    let second = pulsed(&first, 1);
    assert_eq!(spin_up_of(&second), (0, 0));
    assert_eq!(output_duty(&second, 0), 511);
    // The ramp goes on from 511 at clock 1 with period 4: 510 at clock 4, 509 at clock 8, and the
    // target after (0 + 311) x 4 - 1 = 1,243 ticks.
    for (count, ramp) in [
        (2, 511),
        (3, 510),
        (6, 510),
        (7, 509),
        (1242, 201),
        (1243, 200),
    ] {
        assert_eq!(ramp_after(&second, count), ramp);
    }
}

#[test]
fn under_a_pulses_change_nothing() {
    let begun = spinning(A);
    let mut state = begun;
    for _ in 0..5 {
        state = pulsed(&state, 1);
        assert_eq!(state, begun);
    }
    assert_eq!(spin_up_of(&after(&state, 255)), (1, 0));
    let done = after(&state, 256);
    assert_eq!(spin_up_of(&done), (0, 0));
    // The same 1,243 ticks from clock 257: (64 + 311) x 4 - 257.
    assert_eq!(ramp_after(&done, 1242), 201);
    assert_eq!(ramp_after(&done, 1243), 200);
}

#[test]
fn the_coded_time_is_the_longest() {
    // The paper's trial at rate code 1: 511 after 257 ticks, 510 after 258, 200 after 568.
    for (modification, pulses) in [(A, 0), (A, 2), (B, 0), (B, 1)] {
        let mut state = after(&with_rate_code_1(modification), 100);
        for _ in 0..pulses {
            state = pulsed(&state, 1);
        }
        for (count, ramp) in [(257, 511), (258, 510), (567, 201), (568, 200)] {
            assert_eq!(ramp_after(&state, count - 100), ramp);
        }
        assert_eq!(spin_up_of(&after(&state, 257 - 100)), (0, 0));
    }
    // Two pulses after 100 ticks: 510 after 101, and 311 ticks in all to 200.
    let early = after(&with_rate_code_1(B), 100);
    assert_eq!(spin_up_of(&early), (157, 0));
    let ended = pulsed(&pulsed(&early, 1), 1);
    for (count, ramp) in [(100, 511), (101, 510), (410, 201), (411, 200)] {
        assert_eq!(ramp_after(&ended, count - 100), ramp);
    }
}

fn with_rate_code_1(modification: u32) -> State {
    let mut state = starting(modification);
    state.channels[0].dynamics = rate(1);
    state
}

#[test]
fn with_rate_code_0_the_next_tick_is_at_the_target() {
    let state = written(&spinning(B), 0x08, 0x40);
    let ended = pulsed(&pulsed(&state, 1), 1);
    assert_eq!(output_duty(&ended, 0), 511);
    assert_eq!(ramp_after(&ended, 1), 200);
    assert_eq!(ramp_after(&state, 1), 511);
}

#[test]
fn ticks_between_the_two_pulses_do_not_matter() {
    let first = pulsed(&spinning(B), 1);
    for count in [0, 1, 2, 100, 254, 255] {
        let later = after(&first, count);
        assert_eq!(spin_up_of(&later), (256 - count as u16, 1));
        let second = pulsed(&later, 1);
        assert_eq!(spin_up_of(&second), (0, 0));
        assert_eq!(second.channels[0].ramp, 511);
        assert_eq!(second.clock, 1 + count);
    }
}

#[test]
fn spin_ups_of_all_codes_end_early() {
    for (code, ticks) in [(1, 256), (2, 512), (3, 1024)] {
        let state = after(
            &started(PinSet {
                spin_up: code,
                target: 511,
                modification: B,
                ..PinSet::default()
            }),
            1,
        );
        assert_eq!(spin_up_of(&state), (ticks, 0));
        assert_eq!(spin_up_of(&pulsed(&state, 1)), (ticks, 1));
        assert_eq!(spin_up_of(&pulsed(&pulsed(&state, 1), 1)), (0, 0));
    }
}

#[test]
fn each_channel_counts_its_own_pulses() {
    let mut expected = spinning(B);
    let mut state = expected;
    for channel in [1, 2, 3, 4, 5, 6] {
        state = pulsed(&state, channel);
        expected.channels[channel as usize - 1].pulses = 1;
        assert_eq!(state, expected);
    }
    for channel in [4, 1, 6] {
        state = pulsed(&state, channel);
        expected.channels[channel as usize - 1].pulses = 0;
        expected.channels[channel as usize - 1].spin = 0;
        assert_eq!(state, expected);
    }
}

// Where no spin-up runs

#[test]
fn with_no_spin_up_running_nothing_changes() {
    let due = starting(B);
    let ended = pulsed(&pulsed(&spinning(B), 1), 1);
    let standby = written(&spinning(B), 0x00, STANDBY);
    let monitor = written(&spinning(B), 0x02, MONITOR_ONLY | 0x20);
    let mut resting = quiet();
    resting.modification = 1;
    for state in [due, ended, after(&ended, 9), standby, monitor, resting] {
        assert_eq!(state.channels[0].spin, 0);
        for low in [false, true] {
            let state = pin(&state, !low).1;
            assert_eq!(pulsed(&state, 1), state);
        }
    }
}

#[test]
fn a_pulse_before_the_spin_up_is_not_counted() {
    let state = pulsed(&pulsed(&starting(B), 1), 1);
    let begun = after(&state, 1);
    assert_eq!(spin_up_of(&begun), (256, 0));
    assert_eq!(spin_up_of(&pulsed(&begun, 1)), (256, 1));
}

#[test]
fn pulses_beside_the_last_tick() {
    let last = after(&spinning(B), 255);
    assert_eq!(spin_up_of(&last), (1, 0));
    let counted = pulsed(&last, 1);
    assert_eq!(spin_up_of(&counted), (1, 1));
    assert_eq!(spin_up_of(&pulsed(&counted, 1)), (0, 0));
    // With the last tick the count is gone, and what comes later is no second pulse.
    let done = after(&counted, 1);
    assert_eq!(spin_up_of(&done), (0, 0));
    assert_eq!(pulsed(&done, 1), done);
    // A jump over the end and far beyond it.
    for count in [1, 2, 1000, u32::MAX] {
        assert_eq!(spin_up_of(&after(&counted, count)), (0, 0));
    }
}

// The count begins anew

/// A spin-up of its own for the second pulse and no sooner: its first pulse is a first one.
fn counts_from_the_start(state: &State) {
    assert_eq!(spin_up_of(state), (256, 0));
    let first = pulsed(state, 1);
    assert_eq!(spin_up_of(&first), (256, 1));
    assert_eq!(spin_up_of(&pulsed(&first, 1)), (0, 0));
}

/// By way of target 0 at rate code 0 to the next spin-up.
fn spun_up_again(state: &State) -> State {
    let stopped = after(&word_written(state, 0x40, 0x0000), 1);
    assert_eq!((stopped.channels[0].ramp, stopped.channels[0].spin), (0, 0));
    after(&word_written(&stopped, 0x40, 0x6400), 1)
}

#[test]
fn the_count_begins_anew_after_a_spin_up() {
    let counted = pulsed(&written(&spinning(B), 0x08, 0x40), 1);
    assert_eq!(spin_up_of(&counted), (256, 1));
    counts_from_the_start(&spun_up_again(&after(&counted, 256)));
    counts_from_the_start(&spun_up_again(&pulsed(&counted, 1)));
}

#[test]
fn the_count_begins_anew_after_standby_monitor_only_and_reset() {
    let counted = pulsed(&spinning(B), 1);
    let standby = written(&counted, 0x00, STANDBY);
    assert_eq!(spin_up_of(&standby), (0, 0));
    counts_from_the_start(&after(&written(&standby, 0x00, 0x20), 1));
    let monitor = written(&counted, 0x02, MONITOR_ONLY | 0x20);
    assert_eq!(spin_up_of(&monitor), (0, 0));
    assert_eq!(monitor.channels[1], counted.channels[1]);
    counts_from_the_start(&after(&written(&monitor, 0x02, 0x20), 1));
    let reset = written(&counted, 0x00, RESET);
    assert_eq!(spin_up_of(&reset), (0, 0));
    counts_from_the_start(&after(&reset, 1));
}

#[test]
fn standby_and_reset_end_the_counts_of_all_channels() {
    let mut state = spinning(B);
    for channel in 1..=6 {
        state = pulsed(&state, channel);
    }
    for byte in [STANDBY, RESET, STANDBY | RESET, 0xFF] {
        let stopped = written(&state, 0x00, byte);
        let at_zero = |channel: &Channel| channel.spin == 0 && channel.pulses == 0;
        assert!(stopped.channels.iter().all(at_zero));
    }
}

// Under an override

fn failed(state: &State, option: u8) -> State {
    State {
        faults: 0x01,
        options: option << 2,
        ..*state
    }
}

#[test]
fn a_frozen_spin_up_counts_and_ends() {
    let begun = spinning(B);
    let mut expired = begun;
    expired.control |= 0x02;
    expired.idle = 2560;
    expired.expired = true;
    for (frozen, duty) in [
        (pin(&begun, false).1, 511),
        (expired, 511),
        (failed(&begun, 0), 0),
        (failed(&begun, 2), 511),
        (failed(&begun, 3), 511),
    ] {
        assert!(sound(&frozen) && deciding_line(&frozen, 0).is_override());
        assert_eq!(output_duty(&frozen, 0), duty);
        let first = pulsed(&frozen, 1);
        assert_eq!(spin_up_of(&first), (256, 1));
        assert_eq!(spin_up_of(&after(&first, 1000)), (256, 1));
        let second = pulsed(&first, 1);
        assert_eq!(spin_up_of(&second), (0, 0));
        assert_eq!(output_duty(&second, 0), duty);
        // The override holds the ramp value.
        assert_eq!(after(&second, 1000).channels[0].ramp, 511);
    }
}

#[test]
fn after_the_override_the_ramp_goes_on() {
    let frozen = pin(&spinning(B), false).1;
    let ended = pulsed(&pulsed(&frozen, 1), 1);
    let free = pin(&ended, true).1;
    // The clock is at 1: the first step of period 4 comes with the third tick.
    assert_eq!(ramp_after(&free, 2), 511);
    assert_eq!(ramp_after(&free, 3), 510);
}

#[test]
fn an_expiry_keeps_a_spin_up_and_its_count() {
    let mut state = pulsed(&spinning(B), 1);
    state.control |= 0x02;
    state.idle = 2558;
    // One tick runs, the next is the one of the expiry.
    assert_eq!(spin_up_of(&after(&state, 1)), (255, 1));
    let expired = after(&state, 2);
    assert!(expired.expired);
    assert_eq!(spin_up_of(&expired), (255, 1));
    assert_eq!(spin_up_of(&after(&expired, u32::MAX)), (255, 1));
    // Its last tick would be that of the expiry.
    state.channels[0].spin = 2;
    assert_eq!(spin_up_of(&after(&state, 2)), (1, 1));
    state.channels[0].spin = 1;
    assert_eq!(spin_up_of(&after(&state, 2)), (0, 0));
}

// What a pulse does not ask for, and what it leaves alone

#[test]
fn a_pulse_is_no_bus_access() {
    let mut counting = spinning(B);
    counting.control |= 0x02;
    counting.idle = 100;
    let mut expired = counting;
    expired.idle = 2560;
    expired.expired = true;
    expired.control |= STATUS;
    for state in [counting, expired] {
        let mut expected = state;
        expected.channels[0].spin = 0;
        assert_eq!(pulsed(&pulsed(&state, 1), 1), expected);
    }
    let fed = after(&pulsed(&counting, 1), 2460);
    assert!(fed.expired);
}

#[test]
fn a_pulse_asks_for_no_tachometer() {
    for config in [0x20, 0x20 | TACHOMETER_ENABLED] {
        let state = written(&spinning(B), 0x02, config);
        assert_eq!(spin_up_of(&pulsed(&state, 1)), (256, 1));
        assert_eq!(spin_up_of(&pulsed(&pulsed(&state, 1), 1)), (0, 0));
    }
}

#[test]
fn results_are_judged_after_the_second_pulse() {
    let state = written(&spinning(B), 0x02, 0x20 | TACHOMETER_ENABLED);
    let state = written(&state, 0x14, 0x04);
    let first = pulsed(&state, 1);
    assert_eq!(with_result(&first, 1, 2047).faults, 0);
    let second = pulsed(&first, 1);
    assert_eq!(with_result(&second, 1, 2047).faults, 1);
}

#[test]
fn other_calls_leave_the_count_alone() {
    let state = pulsed(&spinning(B), 1);
    for next in [
        written(&state, 0x02, 0x00),
        written(&state, 0x02, 0x68),
        written(&state, 0x08, 0x00),
        written(&state, 0x00, 0x02),
        written(&state, 0x14, 0x0F),
        word_written(&state, 0x40, 0x0000),
        word_written(&state, 0x50, 0xFFFF),
        read(&state, 0x30).2,
        with_result(&state, 1, 0),
        pin(&state, false).1,
        after(&state, 0),
    ] {
        assert_eq!(spin_up_of(&next), (256, 1));
    }
}

// Refusals, start and reset

#[test]
fn a_pulse_on_no_channel_is_refused() {
    for modification in [A, B] {
        let state = spinning(modification);
        for channel in [0, 7, 8, 255, 256, 257, 65_537, u32::MAX] {
            assert_eq!(pulse(&state, channel), (NO_SUCH_CHANNEL, state));
        }
        for channel in 1..=6 {
            assert_eq!(pulse(&state, channel).0, ACCEPTED);
        }
    }
}

#[test]
fn start_takes_a_or_b() {
    let (of_a, of_b) = (starting(A), starting(B));
    assert_eq!((of_a.modification, of_b.modification), (0, 1));
    assert_eq!(
        of_b,
        State {
            modification: 1,
            ..of_a
        }
    );
    for modification in [2, 3, 255, 256, 257, 65_536, 65_537, u32::MAX] {
        let refused = PinSet {
            spin_up: 1,
            target: 200,
            modification,
            ..PinSet::default()
        };
        assert_eq!(start(&refused), (PIN_SET_VALUE, State::default()));
    }
    assert_eq!(State::default().modification, 0);
}

#[test]
fn reset_keeps_the_modification() {
    for modification in [A, B] {
        let state = pulsed(&spinning(modification), 1);
        for byte in [RESET, 0xFF] {
            let expected = State {
                clock: 1,
                ..starting(modification)
            };
            assert_eq!(written(&state, 0x00, byte), expected);
        }
    }
}

#[test]
fn a_pulse_changes_no_more_than_one_spin_up() {
    let mut random = Random::new(15);
    for turn in 0..3000 {
        let state = match FREEZES.get(turn % 6) {
            Some(&freeze) => frozen_state(&mut random, freeze),
            None => spinning_state(&mut random),
        };
        let channel = random.between(1, 6);
        let index = channel as usize - 1;
        let next = pulsed(&state, channel);
        let mut back = next;
        back.channels[index].spin = state.channels[index].spin;
        back.channels[index].pulses = state.channels[index].pulses;
        assert_eq!(back, state);
        assert_eq!(
            next != state,
            state.modification == 1 && state.channels[index].spin > 0
        );
    }
}

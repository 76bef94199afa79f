//! One fan at a time: which channel leaves ramp value 0 in which tick, and what the wait does
//! meanwhile. The numbers are worked out from the papers.

use super::*;

/// 14h with this start delay code, failed-fan option 1 and queue code 0.
fn delay(code: u8) -> u8 {
    code << 5 | 0x04
}

/// A quiet box with this delay code, and these targets at rate code 0: each fan would start with
/// the first tick.
fn eager(code: u8, targets: [u16; CHANNELS]) -> State {
    let mut state = quiet();
    state.options = delay(code);
    for (channel, target) in state.channels.iter_mut().zip(targets) {
        channel.dynamics = rate(0);
        channel.target = target;
    }
    state
}

fn ramps(state: &State) -> [u16; CHANNELS] {
    state.channels.map(|channel| channel.ramp)
}

/// The clock of each tick in which some channel leaves ramp value 0, with the channels that do.
fn departures(state: &State, count: u32) -> Vec<(u32, Vec<usize>)> {
    let mut state = *state;
    let mut found = Vec::new();
    for _ in 0..count {
        let before = state;
        tick(&mut state);
        let left = |index: &usize| before.channels[*index].ramp == 0 && ramps(&state)[*index] > 0;
        let channels: Vec<usize> = (0..CHANNELS).filter(left).map(|index| index + 1).collect();
        if !channels.is_empty() {
            found.push((state.clock, channels));
        }
    }
    found
}

/// The same list where never two leave together.
fn one_by_one(places: &[(u32, usize)]) -> Vec<(u32, Vec<usize>)> {
    let alone = |&(clock, channel): &(u32, usize)| (clock, vec![channel]);
    places.iter().map(alone).collect()
}

// How far apart two fans start

#[test]
fn delays_of_all_codes() {
    let delays = [0, 128, 256, 512, 1024, 2048, 2048, 2048];
    for (code, delay) in (0..).zip(delays) {
        assert_eq!(start_delay(code), delay);
        let state = eager(code, [100, 200, 0, 0, 0, 0]);
        let first = after(&state, 1);
        assert_eq!(first.wait, delay);
        // The wait falls first: the second leaves exactly the coded ticks after the first.
        let second = 1 + u32::from(delay);
        if delay > 0 {
            assert_eq!(ramps(&after(&state, second - 1)), [100, 0, 0, 0, 0, 0]);
            assert_eq!(after(&state, second - 1).wait, 1);
        }
        assert_eq!(ramps(&after(&state, second)), [100, 200, 0, 0, 0, 0]);
        assert_eq!(after(&state, second).wait, delay);
        assert_eq!(after(&state, 10_000).wait, 0);
    }
}

#[test]
fn six_spin_ups_after_power_on() {
    // Delay code 2 as at power-on, spin-up code 1: channel 1 with the first tick, and the others
    // 256 ticks after each other.
    let state = started(PinSet {
        spin_up: 1,
        target: 200,
        ..PinSet::default()
    });
    let places = [(1, 1), (257, 2), (513, 3), (769, 4), (1025, 5), (1281, 6)];
    assert_eq!(departures(&state, 5000), one_by_one(&places));
    // At clock 257 the spin-up of channel 1 has run out, and that of channel 2 has all its ticks.
    let second = after(&state, 257);
    assert_eq!(second.channels[0].spin, 0);
    assert_eq!((second.channels[1].spin, second.channels[2].spin), (256, 0));
    assert_eq!(after(&state, 1281 + 255).wait, 1);
    assert_eq!(after(&state, 1281 + 256).wait, 0);
}

#[test]
fn six_ramps_after_power_on() {
    // Rate code 3 as at power-on: the first step comes at clock 4, and 256 is a multiple of 4.
    let state = started(PinSet {
        target: 200,
        ..PinSet::default()
    });
    let places = [(4, 1), (260, 2), (516, 3), (772, 4), (1028, 5), (1284, 6)];
    assert_eq!(departures(&state, 5000), one_by_one(&places));
    // Channel 1 goes on while the others wait: 64 steps more by clock 260.
    assert_eq!(ramps(&after(&state, 260)), [65, 1, 0, 0, 0, 0]);
}

#[test]
fn delay_0_lets_several_leave_in_one_tick() {
    let state = eager(0, [1, 2, 300, 0, 511, 7]);
    let next = after(&state, 1);
    assert_eq!(ramps(&next), [1, 2, 300, 0, 511, 7]);
    assert_eq!(next.wait, 0);
}

#[test]
fn the_channels_go_from_one_to_six() {
    for first in 0..CHANNELS {
        let mut state = eager(1, [0; CHANNELS]);
        for channel in &mut state.channels[first..] {
            channel.target = 50;
        }
        let places: Vec<(u32, usize)> = (first + 1..=CHANNELS)
            .map(|channel| (1 + 128 * (channel - first - 1) as u32, channel))
            .collect();
        assert_eq!(departures(&state, 1000), one_by_one(&places));
    }
}

#[test]
fn a_period_that_no_departure_meets() {
    // Clock 5, wait 7, delay code 1. The wait is 0 at clock 12, where channel 1 with period 64 has
    // no step: channel 2 goes (rate code 0), and 3 and 4 stay. At clocks 64 and 128 channel 1 would
    // step, but the wait is at 128 - 52 = 76 and at 12. It is 0 at clock 140, where channel 3
    // starts its spin-up, and at 268, where channel 4 makes its first step: each 12 above a
    // multiple of 64. It is 0 again at clock 396, and the next multiple of 64 is 448.
    let mut state = eager(1, [3, 300, 50, 9, 0, 0]);
    state.clock = 5;
    state.wait = 7;
    state.channels[0].dynamics = rate(7);
    state.channels[2].config = 2 << 5;
    state.channels[3].dynamics = rate(1);
    let places = [(12, 2), (140, 3), (268, 4), (448, 1)];
    assert_eq!(departures(&state, 5000), one_by_one(&places));
    for (clock, wait) in [(6, 6), (11, 1), (12, 128), (64, 76), (128, 12), (139, 1)] {
        assert_eq!(after(&state, clock - 5).wait, wait);
    }
    for (clock, wait) in [(140, 128), (396, 0), (447, 0), (448, 128), (576, 0)] {
        assert_eq!(after(&state, clock - 5).wait, wait);
    }
    assert_eq!(after(&state, 140 - 5).channels[2].spin, 512);
    assert_eq!(ramps(&after(&state, 448 - 5)), [1, 300, 511, 9, 0, 0]);
}

#[test]
fn across_the_end_of_the_clock() {
    // Clock 4,294,967,290, delay code 1: channel 2 with period 32 steps first at clock 0, after 6
    // ticks. Channel 6 (rate code 0) goes at once and sets the wait to 128 at ...291, so that it is
    // at 123 at clock 0 and 0 at clock 123: channel 2 goes at clock 128.
    let mut state = eager(1, [0, 40, 0, 0, 0, 500]);
    state.clock = 4_294_967_290;
    state.channels[1].dynamics = rate(6) | ASYMMETRIC_FALL;
    let places = [(4_294_967_291, 6), (128, 2)];
    assert_eq!(departures(&state, 1000), one_by_one(&places));
    assert_eq!(after(&state, 6).wait, 123);
    assert_eq!(after(&state, 4_294_967_295).wait, 0);
    assert_eq!(after(&state, 4_294_967_295).channels[1].ramp, 40);
}

// What the wait holds, and what it does not

#[test]
fn a_wait_of_one_holds_nothing() {
    for (wait, first) in [(0, 1), (1, 1), (2, 2), (5, 5), (2048, 2048)] {
        let mut state = eager(0, [9, 0, 0, 0, 0, 0]);
        state.wait = wait;
        assert_eq!(departures(&state, 3000), one_by_one(&[(first, 1)]));
    }
}

#[test]
fn the_trials_with_a_wait_begin_later_or_not_at_all() {
    // The trial of the spin-up, 9 ticks later for a wait of 10.
    let mut state = ramping(0, 0, 200, rate(1));
    state.channels[0].config = 1 << 5;
    state.wait = 10;
    for (count, ramp) in [(9, 0), (10, 511), (266, 511), (267, 510), (577, 200)] {
        assert_eq!(ramp_after(&state, count), ramp);
    }
    // A ramp value above 0 goes on under the longest wait, and down to 0 too.
    let mut state = ramping(6, 100, 110, rate(3));
    state.wait = 2048;
    assert_eq!(ramp_after(&state, 37), 109);
    assert_eq!(ramp_after(&state, 38), 110);
    let mut state = ramping(6, 10, 0, rate(3) | ASYMMETRIC_FALL);
    state.wait = 2048;
    assert_eq!(ramp_after(&state, 73), 1);
    assert_eq!(ramp_after(&state, 74), 0);
    assert_eq!(after(&state, 74).wait, 2048 - 74);
}

#[test]
fn a_fan_that_stops_starts_as_any_other() {
    let state = eager(2, [80, 0, 0, 0, 0, 0]);
    let running = after(&state, 100);
    assert_eq!((running.channels[0].ramp, running.wait), (80, 256 - 99));
    let stopped = after(&word_written(&running, 0x40, 0x0000), 1);
    assert_eq!((stopped.channels[0].ramp, stopped.wait), (0, 156));
    let again = word_written(&stopped, 0x40, 0x0080);
    assert_eq!(ramp_after(&again, 155), 0);
    assert_eq!(ramp_after(&again, 156), 1);
    assert_eq!(after(&again, 156).wait, 256);
}

#[test]
fn a_held_channel_changes_in_nothing() {
    let mut random = Random::new(16);
    for _ in 0..500 {
        let mut state = waiting_state(&mut random);
        state.wait = 2000;
        let next = after(&state, 1999);
        for (old, new) in state.channels.iter().zip(&next.channels) {
            if old.ramp == 0 {
                assert_eq!(old, new);
            }
        }
        assert_eq!(next.wait, 1);
    }
}

#[test]
fn a_fan_with_no_target_and_one_that_is_overridden_set_no_wait() {
    let mut state = eager(3, [0, 100, 100, 0, 100, 0]);
    state.channels[1].config = MONITOR_ONLY;
    state.faults = 0b00_0100;
    for option in [0, 2] {
        state.options = 3 << 5 | option << 2;
        assert_eq!(departures(&state, 3000), one_by_one(&[(1, 5)]));
        // Without its fault channel 3 is the next one.
        let mended = after(&word_written(&after(&state, 1), 0x44, 0x3200), 512);
        assert_eq!(ramps(&mended), [0, 0, 100, 0, 100, 0]);
    }
    state.options = 3 << 5 | 3 << 2;
    assert_eq!(departures(&state, 3000), []);
    state.wait = 700;
    assert_eq!(after(&state, 699).wait, 1);
    assert_eq!(after(&state, 701).wait, 0);
}

#[test]
fn with_wait_and_delay_code_0_each_channel_goes_by_itself() {
    let mut random = Random::new(17);
    for _ in 0..300 {
        let mut state = waiting_state(&mut random);
        state.options = delay(0);
        state.wait = 0;
        let mut alone = state;
        for _ in 0..700 {
            alone.clock = alone.clock.wrapping_add(1);
            for index in 0..CHANNELS {
                if !deciding_line(&alone, index).is_override() {
                    alone.channels[index] = moved(&alone.channels[index], alone.clock);
                }
            }
        }
        assert_eq!(after(&state, 700), alone);
    }
}

#[test]
fn departures_lie_at_least_the_delay_apart() {
    let mut random = Random::new(18);
    for _ in 0..300 {
        let state = waiting_state(&mut random);
        let delay = u32::from(start_delay(state.start_delay_code()));
        let ticks_until = |clock: u32| clock.wrapping_sub(state.clock);
        let found = departures(&state, 15_000);
        let first = found.first().map_or(u32::MAX, |place| ticks_until(place.0));
        assert!(first >= u32::from(state.wait).max(1));
        if delay > 0 {
            assert!(found.iter().all(|(_, channels)| channels.len() == 1));
        }
        for pair in found.windows(2) {
            assert!(ticks_until(pair[1].0) >= ticks_until(pair[0].0) + delay);
        }
    }
}

// Where the wait falls

#[test]
fn the_wait_falls_under_every_override() {
    let mut state = eager(5, [100; CHANNELS]);
    state.wait = 300;
    let low = pin(&state, false).1;
    let standby = written(&state, 0x00, STANDBY);
    let mut expired = state;
    expired.control |= 0x02;
    expired.idle = 2560;
    expired.expired = true;
    let mut monitor = state;
    for channel in &mut monitor.channels {
        channel.config = MONITOR_ONLY;
    }
    let mut failed = state;
    failed.faults = 0x20;
    failed.options |= 0x0C;
    for frozen in [low, standby, expired, monitor, failed] {
        assert_eq!(frozen.wait, 300);
        for (count, wait) in [(1, 299), (299, 1), (300, 0), (301, 0), (u32::MAX, 0)] {
            let next = after(&frozen, count);
            assert_eq!((next.wait, ramps(&next)), (wait, [0; CHANNELS]));
        }
    }
}

#[test]
fn the_tick_of_an_expiry_holds_the_fans_and_not_the_wait() {
    // The expiry comes with the fourth tick. At wait 3 channel 1 goes in the third.
    let mut state = eager(3, [100, 100, 0, 0, 0, 0]);
    state.control |= 0x02;
    state.idle = 2556;
    state.wait = 3;
    let next = after(&state, 4);
    assert!(next.expired);
    assert_eq!((next.wait, ramps(&next)[..2].to_vec()), (511, vec![100, 0]));
    // At wait 4 the wait is 0 in the tick of the expiry, and nobody goes before it has ended.
    state.wait = 4;
    let next = after(&state, 4);
    assert!(next.expired);
    assert_eq!((next.wait, ramps(&next)), (0, [0; CHANNELS]));
    assert_eq!(ramps(&after(&next, u32::MAX)), [0; CHANNELS]);
    let fed = after(&read(&next, 0x00).2, 1);
    assert_eq!((fed.wait, ramps(&fed)[..2].to_vec()), (512, vec![100, 0]));
    // At wait 9 it falls on while the expiry lasts.
    state.wait = 9;
    assert_eq!(after(&state, 4).wait, 5);
    assert_eq!(after(&state, 8).wait, 1);
    assert_eq!(after(&state, 9).wait, 0);
}

// What changes the wait, and what does not

#[test]
fn a_changed_code_leaves_a_running_wait() {
    let first = after(&eager(5, [100; CHANNELS]), 1);
    assert_eq!(first.wait, 2048);
    // Delay code 0: the other five are held up all the same, and then leave in one tick.
    let none = written(&first, 0x14, delay(0));
    assert_eq!(none.wait, 2048);
    assert_eq!(ramps(&after(&none, 2047)), [100, 0, 0, 0, 0, 0]);
    assert_eq!(ramps(&after(&none, 2048)), [100; CHANNELS]);
    assert_eq!(after(&none, 2048).wait, 0);
    // A shorter one: clock 2,049, and then 128 ticks from each to the next.
    let shorter = written(&first, 0x14, delay(1));
    let places = [(2049, 2), (2177, 3), (2305, 4), (2433, 5), (2561, 6)];
    assert_eq!(departures(&shorter, 9000), one_by_one(&places));
    // A longer one after the first 128.
    let first = after(&eager(1, [100, 100, 100, 0, 0, 0]), 1);
    let longer = written(&first, 0x14, delay(7));
    assert_eq!(longer.wait, 128);
    let places = [(129, 2), (129 + 2048, 3)];
    assert_eq!(departures(&longer, 9000), one_by_one(&places));
}

#[test]
fn start_and_reset_begin_at_wait_0() {
    let values = PinSet {
        target: 200,
        ..PinSet::default()
    };
    let refused = PinSet {
        watchdog: 4,
        ..values
    };
    assert_eq!(started(values).wait, 0);
    assert_eq!(start(&refused).1.wait, 0);
    let running = after(&started(values), 100);
    assert_eq!(running.wait, 256 - 96);
    for byte in [RESET, RESET | STANDBY, 0xFF] {
        let reset = written(&running, 0x00, byte);
        let expected = State {
            clock: 100,
            ..started(values)
        };
        assert_eq!(reset, expected);
        // Clock 100 is a multiple of 4, and 104 is the next.
        assert_eq!(departures(&reset, 10), one_by_one(&[(104, 1)]));
    }
}

#[test]
fn standby_does_not_clear_the_wait() {
    let running = after(&eager(4, [100, 100, 0, 0, 0, 0]), 25);
    assert_eq!(running.wait, 1000);
    let standby = written(&running, 0x00, STANDBY);
    assert_eq!((standby.wait, ramps(&standby)), (1000, [0; CHANNELS]));
    let later = after(&standby, 400);
    assert_eq!(later.wait, 600);
    let left = written(&later, 0x00, 0x20);
    assert_eq!(left.wait, 600);
    // Clock 425, so that the wait is 0 at clock 1,025: channel 1 first, as ever.
    let places = [(1025, 1), (2049, 2)];
    assert_eq!(departures(&left, 3000), one_by_one(&places));
    let monitor = written(&running, 0x02, MONITOR_ONLY);
    assert_eq!((monitor.wait, ramps(&monitor)), (1000, [0; CHANNELS]));
}

#[test]
fn other_calls_leave_the_wait_alone() {
    let mut state = after(&eager(2, [100, 100, 0, 0, 0, 0]), 7);
    state.modification = MODIFICATION_B;
    assert_eq!(state.wait, 250);
    for next in [
        written(&state, 0x02, 0x68),
        written(&state, 0x08, 0xFE),
        written(&state, 0x14, 0x00),
        written(&state, 0x14, 0xFF),
        written(&state, 0x00, 0x26),
        word_written(&state, 0x40, 0x0000),
        word_written(&state, 0x4A, 0xFFFF),
        read(&state, 0x14).2,
        with_result(&state, 2, 2047),
        pulse(&state, 2).1,
        pin(&state, false).1,
        after(&state, 0),
    ] {
        assert_eq!(next.wait, 250);
    }
}

#[test]
fn a_spin_up_that_pulses_end_lets_nobody_go_sooner() {
    let mut state = eager(2, [100, 100, 0, 0, 0, 0]);
    state.modification = MODIFICATION_B;
    state.channels[0].config = 3 << 5;
    let mut state = after(&state, 10);
    for _ in 0..2 {
        state = pulse(&state, 1).1;
    }
    assert_eq!((state.channels[0].spin, state.wait), (0, 256 - 9));
    assert_eq!(departures(&state, 3000), one_by_one(&[(257, 2)]));
    assert_eq!(ramp_after(&state, 1), 100);
}

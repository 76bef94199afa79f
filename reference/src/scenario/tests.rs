//! Scenarios of some length, and what they have met.

use super::*;
use crate::galley::ROWS;
use crate::seen::{SeenDelays, SeenPulses};

/// The lines of a scenario that answer.
fn answered(input: &str) -> usize {
    let words = input.lines().map(str::trim);
    words
        .filter(|text| !text.is_empty() && !text.starts_with('#'))
        .count()
}

#[test]
fn a_seed_always_gives_the_same_scenario() {
    let (first, second) = (scenario(12, 500), scenario(12, 500));
    assert_eq!(first.input, second.input);
    assert_eq!(first.answers, second.answers);
    assert_ne!(first.input, scenario(13, 500).input);
}

#[test]
fn every_call_has_its_answer() {
    for (seed, calls) in [(1, 1), (2, 10), (3, 3000), (4, 3000)] {
        let made = scenario(seed, calls);
        assert!(made.seen.calls >= calls);
        assert_eq!(answered(&made.input), made.seen.calls);
        assert_eq!(made.answers.lines().count(), made.seen.calls);
    }
}

#[test]
fn a_scenario_of_some_length_meets_every_part_of_the_paper() {
    let seen = scenario(1, 30_000).seen;
    assert!(seen.answers.iter().all(|&times| times >= 30));
    assert!(seen.results.iter().all(|&times| times >= 100));
    assert!(seen.lines.iter().all(|&times| times >= 200));
    assert!(seen.near_full.iter().flatten().all(|&times| times >= 15));
    assert!(seen.faults_raised >= 150 && seen.faults_cleared >= 100);
    assert!(seen.faults_at_full_target >= 30);
    assert!(seen.fan_fail_asserted >= 80);
    assert!(seen.expiries >= 200 && seen.expiries_ended >= 200);
    assert!(seen.spin_ups_begun >= 400);
    assert!(seen.clock_wraps >= 100 && seen.resets >= 40);
    assert!(seen.speeds_stopped >= 30 && seen.speeds_too_fast >= 30);
    assert!(seen.speed_edges.iter().all(|&times| times >= 30));
    assert!(seen.sound_loads >= 200 && seen.flawed_loads >= 4 * FLAWS.len());
}

#[test]
fn a_scenario_of_some_length_runs_strings_of_every_kind() {
    let seen = scenario(2, 30_000).seen;
    let runs = &seen.runs;
    assert!(7 * runs.calls() >= seen.calls);
    for refusal in [0, 1, 2, 3, 4, 5, 8, 10, 11, 12, 13, 15] {
        assert!(runs.answers[refusal] >= 65, "{refusal}");
    }
    for refusal in [2, 3, 8, 10, 13] {
        assert!(runs.stopped_at_words[&refusal] >= 15, "{refusal}");
    }
    assert!(runs.stopped_at_words[&11] >= 5 && runs.stopped_at_words[&12] >= 5);
    assert!(runs.whole_strings >= 1000 && runs.allowances_used_up >= 500);
    assert!(runs.empty_strings >= 50 && runs.hidden_answers >= 200);
    assert!(runs.records >= 20_000 && runs.most_records >= 300);
    assert!(seen.encodings >= 100);
}

#[test]
fn a_scenario_of_some_length_writes_words_of_every_kind() {
    let seen = scenario(4, 30_000).seen;
    let words = &seen.words;
    assert!(16 * words.lines >= seen.calls);
    assert!(words.duties >= 1500 && words.counts >= 500);
    assert_eq!(words.targets.len(), 2 * CHANNELS);
    for refusal in [1, 2, 3, 8] {
        assert!(words.refused[&refusal] >= 40, "{refusal}");
    }
    assert!(words.bytes_refused >= 50 && words.bits_dropped >= 2500);
    assert!(words.edges.iter().all(|&times| times >= 50));
    assert!(words.faults_cleared >= 200 && words.queues_cleared >= 400);
    assert!(words.faults_kept >= 80);
    assert!(words.expiries_ended >= 80 && words.expiries_kept >= 20);
    assert!(words.idle_counts_kept >= 20);
    assert!(words.falls >= 200 && words.falls_to_one >= 100);
}

/// Whether every way in which a pulse can do something, or nothing, was met so often.
fn every_pulse_was_met(pulses: &SeenPulses, times: usize) -> bool {
    let (still, turning) = (&pulses.still, &pulses.turning);
    let ways = [
        &pulses.starts[..],
        &pulses.loads,
        &pulses.edges,
        &pulses.accepted,
        &pulses.dropped,
        &turning.ended_early,
        &turning.gaps,
        &turning.ended_under,
        &turning.enabled,
        &turning.counted_anew,
        &[still.due, still.at_full_duty],
        &[still.in_standby, still.in_monitor_only],
        &[pulses.expiries_kept, pulses.idle_counts_kept],
        &[pulses.starts_of_no_modification, pulses.without_effect],
    ];
    ways.iter().copied().flatten().all(|&met| met >= times)
}

#[test]
fn a_scenario_of_some_length_lets_fans_turn_in_every_way() {
    for seed in 5..=7 {
        let seen = scenario(seed, 30_000).seen;
        let (pulses, runs) = (&seen.pulses, &seen.runs);
        assert!(every_pulse_was_met(pulses, 8));
        assert!(40 * pulses.lines >= seen.calls);
        assert!(pulses.accepted.iter().all(|&times| times >= 1000));
        assert!(pulses.loads.iter().all(|&times| times >= 80));
        assert!(pulses.without_effect >= 400);
        assert!(pulses.refused[&1] >= 60 && pulses.refused[&5] >= 60);
        assert!(pulses.turning.counted >= 300 && pulses.turning.ended >= 200);
        assert!(pulses.still.times >= 400);
        assert!(runs.stopped_at_pulses[&5] >= 40 && runs.stopped_at_pulses[&10] >= 10);
        assert!(runs.stopped_at_pulses.contains_key(&11));
        assert!(runs.stopped_at_pulses.contains_key(&12));
    }
}

/// Whether every way in which a fan can start or wait, and all that the wait can meet, was met so
/// often.
fn every_delay_was_met(delays: &SeenDelays, times: usize) -> bool {
    let (departures, held, wait) = (&delays.departures, &delays.held, &delays.wait);
    let ways = [
        &delays.loads[..],
        &departures.kinds,
        &departures.codes,
        &departures.ends,
        &held.kinds,
        &held.together,
        &wait.fell_under,
        &wait.fell_in_expiry,
        &wait.codes_changed,
        &wait.kept,
        &[departures.at_once, departures.overtaking, departures.ahead],
        &[departures.again, departures.together, held.without_delay],
        &[delays.samples, wait.resets, wait.turned],
    ];
    ways.iter().copied().flatten().all(|&met| met >= times)
}

#[test]
fn a_scenario_of_some_length_starts_one_fan_at_a_time_in_every_way() {
    for seed in 8..=10 {
        let delays = scenario(seed, 30_000).seen.delays;
        let (departures, held, wait) = (&delays.departures, &delays.held, &delays.wait);
        assert!(every_delay_was_met(&delays, 5));
        assert!(delays.loads.iter().all(|&times| times >= 12));
        assert!(departures.kinds.iter().all(|&times| times >= 200));
        assert!(departures.codes.iter().all(|&times| times >= 80));
        assert!(departures.ends.iter().all(|&times| times >= 80));
        assert!(departures.at_once >= 800 && departures.again >= 80);
        assert!(departures.overtaking >= 300 && departures.ahead >= 600);
        assert!(departures.together >= 150 && held.without_delay >= 60);
        assert!(held.kinds.iter().all(|&times| times >= 200));
        assert!(held.together.iter().all(|&times| times >= 20));
        assert!(wait.codes_changed.iter().all(|&times| times >= 25));
        assert!(wait.kept.iter().all(|&times| times >= 20));
        assert!(delays.samples >= 20 && wait.resets >= 20 && wait.turned >= 15);
    }
}

/// The scenario that `rt ci` runs the console on.
#[test]
fn the_scenario_that_is_kept_meets_every_pulse_delay_and_refusal() {
    let seen = scenario(1, 5000).seen;
    assert!(every_pulse_was_met(&seen.pulses, 1));
    assert!(every_delay_was_met(&seen.delays, 1));
    assert!(seen.answers.iter().all(|&times| times > 0));
    for refusal in [0, 1, 2, 3, 4, 5, 8, 10, 11, 12, 13, 15] {
        assert!(seen.runs.answers[refusal] > 0, "{refusal}");
    }
}

#[test]
fn a_scenario_of_some_length_meets_every_part_of_the_galley() {
    let seen = scenario(3, 30_000).seen;
    let galley = &seen.galley;
    assert!(7 * galley.calls >= seen.calls);
    for (name, refusals) in [
        ("gfresh", &[0, 22][..]),
        ("gsample", &[0, 1, 20, 22]),
        ("gspan", &[0, 1, 20, 21]),
        ("gread", &[0, 1]),
    ] {
        for &refusal in refusals {
            assert!(galley.answers[&(name, refusal)] >= 15, "{name} {refusal}");
        }
    }
    assert!(galley.not_sound.iter().all(|&times| times >= 20));
    assert!(galley.several_reasons >= 30 && galley.readings_below_zero >= 20);
    assert!(galley.sound_loads >= 50 && galley.flawed_loads >= 50);
    let (rows, pins, writes) = (&galley.rows, &galley.pins, &galley.writes);
    assert!(rows.rose >= 200 && rows.fell >= 200 && rows.fell_and_held >= 100);
    assert!(rows.held.iter().all(|&times| times >= 100));
    assert!(rows.above_the_range >= 20 && rows.limits() == UPPER_LIMITS.len());
    assert_eq!(rows.rows.len(), ROWS);
    assert!(pins.alerts.iter().all(|&times| times >= 300));
    assert!(pins.shutdowns.iter().all(|&times| times >= 300));
    assert!(pins.beside_high.iter().all(|&times| times >= 15));
    assert!(pins.beside_over.iter().all(|&times| times >= 15));
    assert!(writes.differing.iter().all(|&times| times >= 12));
    assert!(writes.tables.iter().all(|&times| times >= 300));
    assert!(writes.full_bytes >= 50 && writes.bytes_below_full >= 50);
    assert!(writes.expiries_ended >= 20 && writes.expiries_kept >= 8);
    assert!(writes.idle_counts_kept >= 20);
    assert!(writes.faults_cleared >= 80 && writes.faults_kept >= 15);
}

#[test]
fn five_thousand_calls_stay_small() {
    for seed in 1..=3 {
        let made = scenario(seed, 5000);
        assert!(made.input.len() + made.answers.len() < 700_000);
    }
}

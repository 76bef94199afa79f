//! Numbers in bytes and back, the refusals of odd strings and their order, and runs in parts.

use super::*;
use crate::model::{PinSet, BYTE_OR_WORD, CONFIGURATION, NOT_CARRIED, NO_SUCH_CHANNEL, READ_ONLY};
use crate::random::Random;
use crate::states::sound_state;
use crate::strings::{any_record, string_of};

fn fresh() -> State {
    let values = PinSet {
        frequency: 0x77,
        ..PinSet::default()
    };
    model::start(&values).1
}

/// A run with all the allowance and room that it needs: refusal and records taken.
fn outcome(string: &[u8]) -> (u32, u32) {
    let run = run(&fresh(), string, u32::MAX, &mut vec![0; string.len()]);
    (run.refusal, run.taken)
}

// Numbers

#[test]
fn numbers_in_one_byte_to_five() {
    let forms: [(u32, &[u8]); 10] = [
        (0, &[0x00]),
        (127, &[0x7F]),
        (128, &[0x80, 0x01]),
        (16_383, &[0xFF, 0x7F]),
        (16_384, &[0x80, 0x80, 0x01]),
        (2_097_151, &[0xFF, 0xFF, 0x7F]),
        (2_097_152, &[0x80, 0x80, 0x80, 0x01]),
        (268_435_455, &[0xFF, 0xFF, 0xFF, 0x7F]),
        (268_435_456, &[0x80, 0x80, 0x80, 0x80, 0x01]),
        (u32::MAX, &[0xFF, 0xFF, 0xFF, 0xFF, 0x0F]),
    ];
    for (number, bytes) in forms {
        assert_eq!(number_bytes(number), bytes);
        assert_eq!(number_at(bytes), Ok((number, bytes.len())));
        assert_eq!(number_at(&[bytes, &[0xFF]].concat()).unwrap().0, number);
    }
}

#[test]
fn numbers_that_are_malformed() {
    let top = [0x80; 4];
    assert_eq!(number_at(&[]), Err(ENDS_FIRST));
    assert_eq!(number_at(&[0x81]), Err(ENDS_FIRST));
    assert_eq!(number_at(&top), Err(ENDS_FIRST));
    assert_eq!(number_at(&[0x80, 0x00]), Err(LAST_BYTE_ZERO));
    assert_eq!(number_at(&[0xFF, 0x80, 0x00]), Err(LAST_BYTE_ZERO));
    for (fifth, refusal) in [
        (0x00, LAST_BYTE_ZERO),
        (0x10, FIFTH_BYTE),
        (0x7F, FIFTH_BYTE),
        (0x80, FIFTH_BYTE),
        (0x8F, FIFTH_BYTE),
    ] {
        assert_eq!(number_at(&[&top[..], &[fifth]].concat()), Err(refusal));
        assert_eq!(number_at(&[&top[..], &[fifth, 0]].concat()), Err(refusal));
    }
    assert_eq!(number_at(&[&top[..], &[0x0F]].concat()).unwrap().1, 5);
}

// Refusals of a record

#[test]
fn an_unknown_kind_is_refused_as_soon_as_it_is_read() {
    assert_eq!(KINDS.len(), 7);
    for kind in [7, 8, 127, 128, 134, 256, 262, 65_536, u32::MAX] {
        let bytes = number_bytes(kind);
        assert_eq!(outcome(&bytes), (KIND_OR_VALUE, 0));
        let malformed_number = [&bytes[..], &[0x80, 0x00]].concat();
        assert_eq!(outcome(&malformed_number), (KIND_OR_VALUE, 0));
    }
    assert_eq!(outcome(&[0x80]), (ENDS_FIRST, 0));
    assert_eq!(outcome(&[0x81, 0x00]), (LAST_BYTE_ZERO, 0));
    assert_eq!(outcome(&[0x81, 0x80, 0x80, 0x80, 0x10]), (FIFTH_BYTE, 0));
}

#[test]
fn a_value_is_refused_once_the_record_is_read() {
    assert_eq!(outcome(&[0, 1, 0xFF, 0x01]), (ACCEPTED, 1));
    assert_eq!(outcome(&[0, 1, 0x80, 0x02]), (KIND_OR_VALUE, 0));
    assert_eq!(outcome(&[0, 1, 0x80]), (ENDS_FIRST, 0));
    assert_eq!(outcome(&[0, 1, 0x80, 0x82, 0x00]), (LAST_BYTE_ZERO, 0));
    assert_eq!(outcome(&[4, 1]), (ACCEPTED, 1));
    assert_eq!(outcome(&[4, 2]), (KIND_OR_VALUE, 0));
    assert_eq!(outcome(&[4]), (ENDS_FIRST, 0));
    // Before the call's own refusal: not carried, read-only, of a target, configuration.
    for address in [0x0E, 0x11, 0x40, 0x02] {
        assert_eq!(outcome(&[0, address, 0x80, 0x02]), (KIND_OR_VALUE, 0));
    }
}

#[test]
fn a_word_above_65535_is_refused_once_the_record_is_read() {
    let word = |address, value| outcome(&record_bytes(&[5, address, value]));
    // 65,535 is FFh, FFh, 03h and 65,536 is 80h, 80h, 04h.
    assert_eq!(outcome(&[5, 0x40, 0xFF, 0xFF, 0x03]), (ACCEPTED, 1));
    assert_eq!(outcome(&[5, 0x40, 0x80, 0x80, 0x04]), (KIND_OR_VALUE, 0));
    for value in [65_536, 65_664, 131_071, 1 << 24, u32::MAX] {
        assert_eq!(word(0x40, value), (KIND_OR_VALUE, 0));
        assert_eq!(word(0x5A, value), (KIND_OR_VALUE, 0));
    }
    // Before the call's own refusal: not carried, read-only, elsewhere than a target, odd.
    for (address, refusal) in [
        (0x3C, NOT_CARRIED),
        (0x140, NOT_CARRIED),
        (0x18, READ_ONLY),
        (0x02, BYTE_OR_WORD),
        (0x41, BYTE_OR_WORD),
    ] {
        assert_eq!(word(address, 65_535), (refusal, 0));
        assert_eq!(word(address, 65_536), (KIND_OR_VALUE, 0));
    }
    // After the number's own: this one is longer than it need be, those end first.
    assert_eq!(
        outcome(&[5, 0x40, 0x80, 0x80, 0x84, 0x00]),
        (LAST_BYTE_ZERO, 0)
    );
    for string in [&[5][..], &[5, 0x40], &[5, 0x3C], &[5, 0x40, 0x80, 0x80]] {
        assert_eq!(outcome(string), (ENDS_FIRST, 0));
    }
}

#[test]
fn a_word_in_a_string_is_written_in_one_go() {
    // 9600h (80h, ACh, 02h) to 42h, 7D1Fh (9Fh, FAh, 01h) to 5Ah, and the four bytes read back.
    let string = [
        5, 0x42, 0x80, 0xAC, 0x02, 5, 0x5A, 0x9F, 0xFA, 0x01, 1, 0x42, 1, 0x43, 1, 0x5A, 1, 0x5B,
    ];
    let mut state = fresh();
    state.faults = 0x3F;
    state.channels[1].queue = 2;
    let mut buffer = [0x33; 18];
    let done = run(&state, &string, u32::MAX, &mut buffer);
    assert_eq!((done.refusal, done.taken, done.written), (ACCEPTED, 6, 4));
    assert_eq!(buffer[..5], [0x96, 0x00, 0x7D, 0x00, 0x33]);
    state.faults = 0x3D;
    state.channels[1].queue = 0;
    state.channels[1].target = 300;
    state.channels[5].target_count = 1000;
    assert_eq!(done.state, state);
}

#[test]
fn a_pulse_has_one_number() {
    for channel in 1..=6 {
        assert_eq!(outcome(&[6, channel]), (ACCEPTED, 1));
        assert_eq!(outcome(&[6, channel, 6, channel]), (ACCEPTED, 2));
    }
    for string in [&[6][..], &[6, 0x81], &[6, 0x80, 0x80, 0x80, 0x80]] {
        assert_eq!(outcome(string), (ENDS_FIRST, 0));
    }
    assert_eq!(outcome(&[6, 0x81, 0x00]), (LAST_BYTE_ZERO, 0));
    assert_eq!(outcome(&[6, 0x81, 0x80, 0x80, 0x80, 0x10]), (FIFTH_BYTE, 0));
}

#[test]
fn a_pulse_on_no_channel_is_the_calls_own_refusal() {
    for channel in [0, 7, 8, 127, 128, 129, 255, 256, 257, 65_537, u32::MAX] {
        let bytes = record_bytes(&[6, channel]);
        assert_eq!(outcome(&bytes), (NO_SUCH_CHANNEL, 0));
        let after_another = [&[6, 1], &bytes[..]].concat();
        assert_eq!(outcome(&after_another), (NO_SUCH_CHANNEL, 1));
    }
}

#[test]
fn two_pulses_in_a_string_end_a_spin_up() {
    // A tick, two pulses on channel 1 and one on channel 2, three ticks, and the duty of channel 1.
    let string = [2, 1, 6, 1, 6, 2, 6, 1, 2, 3, 1, 0x30, 1, 0x31];
    let state = |modification| {
        let values = PinSet {
            spin_up: 1,
            target: 200,
            modification,
            ..PinSet::default()
        };
        // With no start delay all fans start with the first tick.
        model::write(&model::start(&values).1, 0x14, 0x05).1
    };
    let spin_ups = |run: &Run| {
        let channels = &run.state.channels[..3];
        let pairs = channels
            .iter()
            .map(|channel| (channel.spin, channel.pulses));
        pairs.collect::<Vec<_>>()
    };
    let mut buffer = [0x33; 14];
    let of_b = run(&state(1), &string, u32::MAX, &mut buffer);
    assert_eq!((of_b.refusal, of_b.taken, of_b.written), (ACCEPTED, 7, 2));
    // At clock 4 the ramp of channel 1 has made its first step: 510 is FFh, 00h.
    assert_eq!(buffer[..3], [0xFF, 0x00, 0x33]);
    assert_eq!(spin_ups(&of_b), [(0, 0), (253, 1), (253, 0)]);
    let of_a = run(&state(0), &string, u32::MAX, &mut buffer);
    assert_eq!((of_a.refusal, of_a.taken, of_a.written), (ACCEPTED, 7, 2));
    assert_eq!(buffer[..3], [0xFF, 0x81, 0x33]);
    assert_eq!(spin_ups(&of_a), [(253, 0), (253, 0), (253, 0)]);
}

#[test]
fn numbers_are_tested_one_after_the_other() {
    assert_eq!(outcome(&[0, 0x80, 0x00]), (LAST_BYTE_ZERO, 0));
    assert_eq!(outcome(&[3, 0x80, 0x00, 0x80]), (LAST_BYTE_ZERO, 0));
    assert_eq!(outcome(&[3, 7, 0x80]), (ENDS_FIRST, 0));
    assert_eq!(outcome(&[3, 7]), (ENDS_FIRST, 0));
}

#[test]
fn refusals_of_the_calls() {
    for (record, refusal) in [
        (vec![0, 0x0E, 0], NOT_CARRIED),
        (vec![1, 0x0E], NOT_CARRIED),
        (vec![1, 0x100], NOT_CARRIED),
        (vec![0, 0x101, 5], NOT_CARRIED),
        (vec![1, u32::MAX], NOT_CARRIED),
        (vec![0, 0x11, 0], READ_ONLY),
        (vec![0, 0x02, 0x80], CONFIGURATION),
        (vec![0, 0x40, 0], BYTE_OR_WORD),
        (vec![0, 0x5B, 0xFF], BYTE_OR_WORD),
        (vec![5, 0x3C, 0x6400], NOT_CARRIED),
        (vec![5, u32::MAX, 0x6400], NOT_CARRIED),
        (vec![5, 0x18, 0x6400], READ_ONLY),
        (vec![5, 0x41, 0x6400], BYTE_OR_WORD),
        (vec![5, 0x00, 0x6400], BYTE_OR_WORD),
        (vec![3, 0, 5], NO_SUCH_CHANNEL),
        (vec![3, 257, 5], NO_SUCH_CHANNEL),
        (vec![6, 0], NO_SUCH_CHANNEL),
        (vec![6, 7], NO_SUCH_CHANNEL),
        (vec![6, 257], NO_SUCH_CHANNEL),
    ] {
        let bytes = record_bytes(&record);
        assert_eq!(outcome(&bytes), (refusal, 0), "{record:?}");
        assert_eq!(outcome(&[&[2, 1], &bytes[..]].concat()), (refusal, 1));
    }
}

// Runs

#[test]
fn an_unsound_state_comes_first_and_a_short_buffer_second() {
    let state = State {
        mask1: 0x40,
        ..fresh()
    };
    let nothing = |refusal, state| Run {
        refusal,
        taken: 0,
        written: 0,
        state,
    };
    let malformed = [0x80, 0x00];
    for allowance in [0, 1, u32::MAX] {
        let mut room = [0xA5; 2];
        let unsound = nothing(NOT_SOUND, state);
        assert_eq!(run(&state, &malformed, allowance, &mut room), unsound);
        assert_eq!(run(&state, &malformed, allowance, &mut []), unsound);
        let short = nothing(SHORT_BUFFER, fresh());
        let ticks = [2, 9];
        for string in [malformed, ticks] {
            assert_eq!(run(&fresh(), &string, allowance, &mut room[..1]), short);
        }
        let empty = nothing(ACCEPTED, fresh());
        assert_eq!(run(&fresh(), &[], allowance, &mut []), empty);
        assert_eq!(room, [0xA5; 2]);
    }
    assert_eq!(
        run(&fresh(), &malformed, 0, &mut [0; 2]),
        nothing(ACCEPTED, fresh())
    );
}

#[test]
fn a_run_stops_before_the_record_that_is_refused() {
    // A write of A5h to 01h, a read of it, 300 ticks, a read of 0Eh, a write to 01h.
    let string = [0, 1, 0xA5, 0x01, 1, 1, 2, 0xAC, 0x02, 1, 0x0E, 0, 1, 9];
    let mut buffer = [0x33; 14];
    let whole = run(&fresh(), &string, u32::MAX, &mut buffer);
    assert_eq!((whole.refusal, whole.taken, whole.written), (2, 3, 1));
    assert_eq!((whole.state.frequency, whole.state.clock), (0xA5, 300));
    assert_eq!(buffer[..2], [0xA5, 0x33]);
    let allowed = run(&fresh(), &string, 3, &mut buffer);
    assert_eq!(
        allowed,
        Run {
            refusal: ACCEPTED,
            ..whole
        }
    );
}

#[test]
fn read_bytes_go_in_order_into_the_buffer() {
    let string = [1, 0x13, 1, 0x01, 4, 0, 1, 0x30, 1, 0x31];
    let mut buffer = [0x33; 12];
    let run = run(&fresh(), &string, u32::MAX, &mut buffer);
    assert_eq!((run.refusal, run.taken, run.written), (ACCEPTED, 5, 4));
    assert_eq!(buffer[..4], [0x3F, 0x77, 0xFF, 0x81]);
    assert_eq!(buffer[4..], [0x33; 8]);
}

#[test]
fn a_run_in_two_parts_equals_one() {
    let mut random = Random::new(14);
    for _ in 0..300 {
        let state = sound_state(&mut random);
        let records: Vec<Record> = (0..8).map(|_| any_record(&mut random)).collect();
        let string = string_of(&mut random, &records);
        let allowance = random.pick(&[1, 2, 4, 8, u32::MAX]);
        let mut buffer = vec![0x33; string.len()];
        let whole = run(&state, &string, allowance, &mut buffer);

        let mut parts = vec![0x33; string.len()];
        let part = random.below(allowance.min(9));
        let first = run(&state, &string, part, &mut parts);
        let mut reader = Reader { rest: &string };
        (0..first.taken).for_each(|_| assert!(reader.call().is_ok()));
        let left = allowance - first.taken;
        let second = run(&first.state, reader.rest, left, &mut parts[first.written..]);
        assert_eq!(second.state, whole.state);
        assert_eq!(second.refusal, whole.refusal);
        assert_eq!(first.taken + second.taken, whole.taken);
        assert_eq!(first.written + second.written, whole.written);
        assert_eq!(parts, buffer);
    }
}

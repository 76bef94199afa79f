//! Table 7's limits, the hysteresis both ways, the thresholds, the refusals in their order, and what
//! a sample leaves of the controller. The numbers are worked out from the papers.

use super::*;
use crate::choices::galley::{tables_about, temperature_about};
use crate::model::{pulse, start, ticks, write, write_word, PinSet, STATUS, TACHOMETER_ENABLED};
use crate::random::Random;
use crate::states::galley::{flawed_galley, sound_galley, GALLEY_FLAWS};
use crate::states::sound_state;

fn degrees(number: i32) -> i32 {
    8 * number
}

/// A galley in a row, with the thresholds at 70 and 80 degrees.
fn galley_in(row: u8, hysteresis: bool) -> Galley {
    Galley {
        row,
        hysteresis,
        ..fresh(degrees(70), degrees(80), false, false).1
    }
}

/// A box that runs with the watchdog off, all of its targets at this duty.
fn controller_at(target: u32) -> State {
    let (refusal, state) = start(&PinSet {
        target,
        ..PinSet::default()
    });
    assert_eq!(refusal, ACCEPTED);
    state
}

/// Both tables with one byte in every row.
fn level(byte: u8) -> Tables {
    Tables {
        normal: vec![byte; ROWS],
        quiet: vec![byte; ROWS],
    }
}

/// The normal table holds the row's number in each row, the quiet one 100 more.
fn numbered() -> Tables {
    Tables {
        normal: (0..48).collect(),
        quiet: (100..148).collect(),
    }
}

/// The row after an accepted sample.
fn row_of_sample(galley: &Galley, temperature: i32) -> u8 {
    let done = sample(galley, &controller_at(0), temperature, &numbered());
    assert_eq!(done.refusal, ACCEPTED);
    assert_eq!(i32::from(done.galley.temperature), temperature);
    done.galley.row
}

fn targets(state: &State) -> [u16; CHANNELS] {
    state.channels.map(|channel| channel.target)
}

fn sampled(galley: &Galley, controller: &State, temperature: i32, tables: &Tables) -> State {
    let done = sample(galley, controller, temperature, tables);
    assert_eq!(done.refusal, ACCEPTED);
    assert!(sound(&done.galley) && model::sound(&done.controller));
    done.controller
}

// Rows

#[test]
fn every_row_begins_at_its_limit() {
    for row in 1..=47 {
        let limit = degrees(16 + 2 * i32::from(row));
        assert_eq!(row_of(limit), row);
        assert_eq!(row_of(limit + 1), row);
        assert_eq!(row_of(limit - 1), row - 1);
    }
}

#[test]
fn rows_of_single_temperatures() {
    let rows = [
        (-1024, 0), // -128 degrees
        (-17, 0),
        (-1, 0), // -0.125
        (0, 0),
        (143, 0),   // +17.875
        (144, 1),   // +18
        (159, 1),   // +19.875
        (160, 2),   // +20
        (400, 17),  // +50
        (847, 44),  // +105.875
        (848, 45),  // +106
        (863, 45),  // +107.875
        (864, 46),  // +108
        (879, 46),  // +109.875
        (880, 47),  // +110
        (1023, 47), // +127.875
        (1055, 47), // the highest with 4 degrees more
    ];
    for (temperature, row) in rows {
        assert_eq!(row_of(temperature), row, "{temperature}");
    }
}

#[test]
fn rows_by_the_readings_formula() {
    for temperature in LOWEST..=HIGHEST + 32 {
        let row = (temperature.div_euclid(16) - 8).clamp(0, 47);
        assert_eq!(i32::from(row_of(temperature)), row);
    }
}

#[test]
fn a_warmer_sample_rises_at_once() {
    for hysteresis in [false, true] {
        assert_eq!(row_of_sample(&galley_in(0, hysteresis), 143), 0);
        assert_eq!(row_of_sample(&galley_in(0, hysteresis), 144), 1);
        assert_eq!(row_of_sample(&galley_in(5, hysteresis), degrees(30)), 7);
        assert_eq!(row_of_sample(&galley_in(0, hysteresis), 1023), 47);
    }
}

#[test]
fn a_cooler_sample_holds_the_row_for_two_degrees() {
    // Row 1 begins at +18: it stays down to +16 and is left at +15.875.
    for (temperature, row) in [(144, 1), (143, 1), (128, 1), (127, 0), (-1024, 0)] {
        assert_eq!(row_of_sample(&galley_in(1, false), temperature), row);
    }
    // Row 47 begins at +110.
    for (temperature, row) in [(1023, 47), (880, 47), (864, 47), (863, 46), (847, 45)] {
        assert_eq!(row_of_sample(&galley_in(47, false), temperature), row);
    }
}

#[test]
fn a_cooler_sample_holds_the_row_for_four_degrees() {
    // Down to +14, left at +13.875.
    for (temperature, row) in [(144, 1), (127, 1), (112, 1), (111, 0), (-1024, 0)] {
        assert_eq!(row_of_sample(&galley_in(1, true), temperature), row);
    }
    for (temperature, row) in [(1023, 47), (848, 47), (847, 46), (832, 46), (831, 45)] {
        assert_eq!(row_of_sample(&galley_in(47, true), temperature), row);
    }
}

#[test]
fn a_far_fall_ends_above_the_samples_own_row() {
    // +50 is row 17, +52 row 18, +54 row 19.
    assert_eq!(row_of_sample(&galley_in(47, false), degrees(50)), 18);
    assert_eq!(row_of_sample(&galley_in(47, true), degrees(50)), 19);
    assert_eq!(row_of_sample(&galley_in(18, true), degrees(50)), 18);
    assert_eq!(row_of_sample(&galley_in(17, true), degrees(50)), 17);
}

// Duties

#[test]
fn bytes_as_duties() {
    let duties = [
        (0x00, 0),
        (0x01, 2),
        (0x80, 256),
        (0xFD, 506),
        (0xFE, 508),
        (0xFF, 511),
    ];
    for (byte, duty) in duties {
        assert_eq!(duty_of(byte), duty);
        let next = sampled(&galley_in(0, false), &controller_at(300), 0, &level(byte));
        assert_eq!(targets(&next), [duty; 6]);
    }
}

#[test]
fn the_flag_names_the_table() {
    let galley = galley_in(9, false);
    let quiet = Galley {
        quiet: true,
        ..galley
    };
    // +33.5 is row 8, and row 9 is held.
    let temperature = 268;
    let controller = controller_at(511);
    let loud = sampled(&galley, &controller, temperature, &numbered());
    assert_eq!(targets(&loud), [18; 6]);
    let hushed = sampled(&quiet, &controller, temperature, &numbered());
    assert_eq!(targets(&hushed), [218; 6]);
    let after = sample(&quiet, &controller, temperature, &numbered()).galley;
    assert!(after.quiet && !after.hysteresis);
}

#[test]
fn a_sample_makes_the_controllers_own_writes() {
    let mut controller = controller_at(300);
    controller.channels[1].target = 511;
    controller.channels[4].target = 510;
    // FFh is duty 511, the word FF80h. Channel 2 has it: one word each for the other five.
    let mut by_hand = controller;
    for address in [0x40, 0x44, 0x46, 0x48, 0x4A] {
        by_hand = write_word(&by_hand, address, 0xFF80).1;
    }
    let next = sampled(&galley_in(0, false), &controller, 0, &level(0xFF));
    assert_eq!(next, by_hand);
    assert_eq!(targets(&next), [511; 6]);
}

// Thresholds

#[test]
fn the_pins_are_asserted_above_their_thresholds() {
    let controller = controller_at(0);
    // High at 560, over at 640.
    for (temperature, alert, shutdown) in [
        (-1024, false, false),
        (559, false, false),
        (560, false, false),
        (561, true, false),
        (640, true, false),
        (641, true, true),
        (1023, true, true),
    ] {
        let done = sample(&galley_in(0, false), &controller, temperature, &level(0));
        assert_eq!((done.alert, done.shutdown), (alert, shutdown));
    }
    // Each looks at its own threshold, whichever is the higher one, and has no hysteresis.
    let (_, upside_down) = fresh(640, -8, true, false);
    for (temperature, alert, shutdown) in [(-8, false, false), (-7, false, true), (641, true, true)]
    {
        let done = sample(&upside_down, &controller, temperature, &level(0));
        assert_eq!((done.alert, done.shutdown), (alert, shutdown));
    }
    let (_, topmost) = fresh(1023, 1022, false, false);
    let done = sample(&topmost, &controller, 1023, &level(0));
    assert!(!done.alert && done.shutdown);
}

// What is left of the controller

#[test]
fn a_sample_that_writes_nothing_leaves_the_controller() {
    let mut controller = controller_at(256);
    controller.faults = 0x3F;
    controller.channels[3].queue = 4;
    let counting = write(&controller, 0x00, 0x02).1;
    let counting = ticks(&counting, 2559).1;
    assert_eq!(counting.idle, 2559);
    let expired = ticks(&counting, 1).1;
    assert!(expired.expired);
    for state in [controller, counting, expired] {
        let next = sampled(&galley_in(0, false), &state, 700, &level(0x80));
        assert_eq!(next, state);
    }
}

#[test]
fn one_channel_that_differs_is_the_one_that_changes() {
    let mut controller = write(&controller_at(256), 0x00, 0x02).1;
    controller.faults = 0x3F;
    controller.idle = 2000;
    for channel in &mut controller.channels {
        channel.queue = 5;
        channel.config = TACHOMETER_ENABLED;
    }
    controller.channels[2].target = 257;
    let mut expected = controller;
    expected.idle = 0;
    expected.faults = 0b11_1011;
    expected.channels[2].queue = 0;
    expected.channels[2].target = 256;
    let next = sampled(&galley_in(0, false), &controller, 700, &level(0x80));
    assert_eq!(next, expected);
}

#[test]
fn a_sample_that_writes_ends_an_expiry_and_keeps_the_status_bit() {
    let on = write(&controller_at(256), 0x00, 0x02).1;
    let expired = ticks(&on, 2560).1;
    let next = sampled(&galley_in(0, false), &expired, 0, &level(0x7F));
    assert!(!next.expired && next.idle == 0);
    assert_eq!(next.control & STATUS, STATUS);
    assert_eq!(targets(&next), [254; 6]);
}

#[test]
fn a_box_in_standby_gets_its_targets_all_the_same() {
    let standby = write(&controller_at(256), 0x00, 0x80).1;
    let next = sampled(&galley_in(0, false), &standby, 0, &level(0xFE));
    assert!(next.standby());
    assert_eq!(targets(&next), [508; 6]);
    assert!(next.channels.iter().all(|channel| channel.ramp == 0));
}

// Fresh galleys, soundness, refusals

#[test]
fn a_fresh_galley_has_what_it_is_given() {
    let given = Galley {
        row: 0,
        temperature: 0,
        high: -1024,
        over: 1023,
        hysteresis: true,
        quiet: true,
    };
    assert_eq!(fresh(-1024, 1023, true, true), (ACCEPTED, given));
    let nothing = (TEMPERATURE, Galley::default());
    for wrong in [-1025, 1024, 65_536, -65_536, i32::MIN, i32::MAX] {
        assert_eq!(fresh(wrong, 0, true, true), nothing);
        assert_eq!(fresh(0, wrong, true, true), nothing);
    }
}

#[test]
fn a_galley_is_sound_by_its_four_numbers() {
    let spoiled = |spoil: fn(&mut Galley)| {
        let mut galley = galley_in(0, false);
        spoil(&mut galley);
        sound(&galley)
    };
    assert!(sound(&Galley::default()));
    assert!(spoiled(|galley| galley.row = 47));
    assert!(!spoiled(|galley| galley.row = 48));
    assert!(!spoiled(|galley| galley.row = 255));
    assert!(spoiled(|galley| galley.temperature = -1024));
    assert!(!spoiled(|galley| galley.temperature = -1025));
    assert!(spoiled(|galley| galley.temperature = 1023));
    assert!(!spoiled(|galley| galley.temperature = 1024));
    assert!(!spoiled(|galley| galley.high = 1024));
    assert!(!spoiled(|galley| galley.high = i16::MIN));
    assert!(!spoiled(|galley| galley.over = -1025));
    assert!(!spoiled(|galley| galley.over = i16::MAX));
    // Row and temperature need not suit each other, nor the thresholds.
    assert!(spoiled(
        |galley| (galley.row, galley.temperature) = (47, -1024)
    ));
    assert!(spoiled(|galley| (galley.high, galley.over) = (1023, -1024)));
}

#[test]
fn refusals_of_a_sample_come_in_their_order() {
    let galley = galley_in(3, false);
    let unsound = galley_in(48, false);
    let controller = controller_at(100);
    let broken = State {
        mask1: 0x40,
        ..controller
    };
    let (mut short, mut long, whole) = (numbered(), numbered(), numbered());
    short.quiet.pop();
    long.normal.push(0);
    for (galley, controller, temperature, tables, refusal) in [
        (unsound, controller, 0, &whole, 1),
        (galley, broken, 0, &whole, 1),
        (unsound, broken, 1024, &short, 1),
        (galley, broken, -1025, &long, 1),
        (galley, controller, 0, &short, 20),
        (galley, controller, 0, &long, 20),
        (galley, controller, 1024, &short, 20),
        (galley, controller, 1024, &whole, 22),
        (galley, controller, -1025, &whole, 22),
        (galley, controller, i32::MAX, &whole, 22),
        (galley, controller, i32::MIN, &whole, 22),
    ] {
        let refused = Sample {
            refusal,
            alert: false,
            shutdown: false,
            galley,
            controller,
        };
        let done = sample(&galley, &controller, temperature, tables);
        assert_eq!(done, refused);
    }
}

#[test]
fn spans_of_the_table_in_force() {
    let galley = galley_in(0, false);
    let quiet = Galley {
        quiet: true,
        ..galley
    };
    let tables = numbered();
    assert_eq!(
        span(&galley, 0, 48, &tables),
        (ACCEPTED, &tables.normal[..])
    );
    assert_eq!(span(&quiet, 0, 48, &tables), (ACCEPTED, &tables.quiet[..]));
    assert_eq!(span(&galley, 3, 5, &tables), (ACCEPTED, &[3, 4][..]));
    assert_eq!(span(&quiet, 47, 48, &tables), (ACCEPTED, &[147][..]));
    for place in [0, 1, 47, 48] {
        assert_eq!(span(&galley, place, place, &tables), (ACCEPTED, &[][..]));
    }
    for (first, end) in [
        (1, 0),
        (48, 47),
        (0, 49),
        (48, 49),
        (49, 49),
        (49, 48),
        (u32::MAX, 0),
        (0, u32::MAX),
        (u32::MAX, u32::MAX),
    ] {
        let refused = (SPAN_OF_ROWS, &[][..]);
        assert_eq!(span(&galley, first, end, &tables), refused);
    }
}

#[test]
fn refusals_of_a_span_come_in_their_order() {
    let short = Tables {
        quiet: vec![],
        ..numbered()
    };
    let unsound = Galley {
        high: 1024,
        ..Galley::default()
    };
    assert_eq!(span(&unsound, 2, 1, &short), (NOT_SOUND, &[][..]));
    assert_eq!(span(&unsound, 1, 2, &numbered()), (NOT_SOUND, &[][..]));
    let galley = Galley::default();
    assert_eq!(span(&galley, 2, 1, &short), (TABLE_LENGTH, &[][..]));
    assert_eq!(span(&galley, 1, 2, &short), (TABLE_LENGTH, &[][..]));
    assert_eq!(span(&galley, 2, 1, &numbered()), (SPAN_OF_ROWS, &[][..]));
}

#[test]
fn readings_are_exact() {
    let reading_of = |temperature| {
        reading(&Galley {
            temperature,
            ..Galley::default()
        })
    };
    assert_eq!(reading_of(-1), (ACCEPTED, -125));
    assert_eq!(reading_of(0), (ACCEPTED, 0));
    assert_eq!(reading_of(143), (ACCEPTED, 17_875));
    assert_eq!(reading_of(-1024), (ACCEPTED, -128_000));
    assert_eq!(reading_of(1023), (ACCEPTED, 127_875));
    assert_eq!(reading_of(1024), (NOT_SOUND, 0));
    let unsound = Galley {
        temperature: 80,
        ..galley_in(48, false)
    };
    assert_eq!(reading(&unsound), (NOT_SOUND, 0));
}

#[test]
fn states_after_samples_of_sound_ones_are_sound() {
    let mut random = Random::new(13);
    for _ in 0..5000 {
        let galley = sound_galley(&mut random);
        let controller = sound_state(&mut random);
        let temperature = temperature_about(&mut random, &galley);
        let tables = tables_about(&mut random, &galley, &controller, temperature);
        let done = sample(&galley, &controller, temperature, &tables);
        assert!(sound(&done.galley) && model::sound(&done.controller));
        if done.refusal == ACCEPTED {
            let byte = tables.in_force(&galley)[usize::from(done.galley.row)];
            assert_eq!(targets(&done.controller), [duty_of(byte); 6]);
        } else {
            assert_eq!((done.galley, done.controller), (galley, controller));
        }
    }
}

#[test]
fn a_galley_with_a_flaw_is_refused() {
    let mut random = Random::new(14);
    for flaw in GALLEY_FLAWS.into_iter().cycle().take(1000) {
        let (_, flawed) = flawed_galley(&mut random, flaw);
        let done = sample(&flawed, &controller_at(0), 0, &numbered());
        assert_eq!((done.refusal, done.galley), (NOT_SOUND, flawed));
        assert_eq!(span(&flawed, 0, 1, &numbered()).0, NOT_SOUND);
        assert_eq!(reading(&flawed), (NOT_SOUND, 0));
    }
}

#[test]
fn a_sample_leaves_a_spin_up_and_its_count_alone() {
    let (_, state) = start(&PinSet {
        spin_up: 1,
        target: 200,
        modification: 1,
        ..PinSet::default()
    });
    let (_, state) = ticks(&state, 1);
    let (_, counted) = pulse(&state, 1);
    // The byte 40h is duty 128.
    let mut expected = counted;
    expected
        .channels
        .iter_mut()
        .for_each(|channel| channel.target = 128);
    assert_eq!(
        sampled(&galley_in(0, false), &counted, 0, &level(0x40)),
        expected
    );
    assert_eq!(
        (expected.channels[0].spin, expected.channels[0].pulses),
        (256, 1)
    );
}

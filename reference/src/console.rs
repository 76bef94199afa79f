//! The console's language: a call as a word with numbers, and the answer line that the model
//! expects for it.

mod galley;

pub use galley::GalleyCall;

use crate::model::{self, Billionths, Channel, PinSet, Speed, State, ACCEPTED, SPEED_REFUSED};
use crate::orders::{self, Record, KINDS};
use crate::text::{byte_pairs, Word};

#[derive(Clone, Debug)]
pub enum Call {
    Start(PinSet),
    Write {
        address: u32,
        byte: u8,
    },
    Read {
        address: u32,
    },
    Ticks {
        count: u32,
    },
    Tachometer {
        channel: u32,
        count: u32,
    },
    Pin {
        level: bool,
    },
    Word {
        address: u32,
        word: u16,
    },
    Pulse {
        channel: u32,
    },
    Cabin,
    FanFail,
    Speed {
        range_code: u32,
        pulses: u32,
        count: u32,
    },
    Dump,
    Load(State),
    Run {
        string: Vec<u8>,
        allowance: u32,
        room: u32,
    },
    /// Of a record of one of the kinds, its numbers in range or not.
    Encode(Record),
}

impl Call {
    fn name(&self) -> &'static str {
        match self {
            Call::Start(_) => "start",
            Call::Write { .. } => "write",
            Call::Read { .. } => "read",
            Call::Ticks { .. } => "ticks",
            Call::Tachometer { .. } => "tach",
            Call::Pin { .. } => "pin",
            Call::Word { .. } => "word",
            Call::Pulse { .. } => "pulse",
            Call::Cabin => "cabin",
            Call::FanFail => "fanfail",
            Call::Speed { .. } => "speed",
            Call::Dump => "dump",
            Call::Load(_) => "load",
            Call::Run { .. } => "run",
            Call::Encode(_) => "encode",
        }
    }

    /// The words of its line.
    pub fn words(&self) -> Vec<Word<'_>> {
        let mut words = vec![Word::Name(self.name())];
        match self {
            Call::Run { string, .. } => words.push(Word::Bytes(string)),
            Call::Encode(record) => words.push(Word::Name(KINDS[record[0] as usize])),
            _ => {}
        }
        words.extend(self.numbers().into_iter().map(Word::Number));
        words
    }

    /// The record that asks for it, if it is a call that has a kind.
    pub fn record(&self) -> Option<Record> {
        let kind = KINDS.iter().position(|&name| name == self.name())?;
        let mut record = vec![kind as u32];
        record.extend(self.numbers());
        Some(record)
    }

    /// The numbers on its line.
    fn numbers(&self) -> Vec<u32> {
        match *self {
            Call::Start(ref values) => pin_set_numbers(values),
            Call::Write { address, byte } => vec![address, u32::from(byte)],
            Call::Read { address } => vec![address],
            Call::Ticks { count } => vec![count],
            Call::Tachometer { channel, count } => vec![channel, count],
            Call::Pin { level } => vec![u32::from(level)],
            Call::Word { address, word } => vec![address, u32::from(word)],
            Call::Pulse { channel } => vec![channel],
            Call::Speed {
                range_code,
                pulses,
                count,
            } => vec![range_code, pulses, count],
            Call::Load(state) => state_numbers(&state),
            Call::Run {
                allowance, room, ..
            } => vec![allowance, room],
            Call::Encode(ref record) => record[1..].to_vec(),
            Call::Cabin | Call::FanFail | Call::Dump => vec![],
        }
    }

    /// Makes the call on the state in hand and gives its refusal number, 0 when accepted, and its
    /// answer line.
    pub fn make(&self, state: &mut State) -> (u32, String) {
        match *self {
            Call::Start(ref values) => changed(state, model::start(values)),
            Call::Write { address, byte } => changed(state, model::write(state, address, byte)),
            Call::Read { address } => read_answer(state, address),
            Call::Ticks { count } => changed(state, model::ticks(state, count)),
            Call::Tachometer { channel, count } => {
                changed(state, model::tachometer(state, channel, count))
            }
            Call::Pin { level } => changed(state, model::pin(state, level)),
            Call::Word { address, word } => changed(state, model::write_word(state, address, word)),
            Call::Pulse { channel } => changed(state, model::pulse(state, channel)),
            Call::Cabin => cabin_answer(state),
            Call::FanFail => fan_fail_answer(state),
            Call::Speed {
                range_code,
                pulses,
                count,
            } => speed_answer(model::speed(range_code, pulses, count)),
            Call::Dump => (ACCEPTED, decimal_words(&state_numbers(state))),
            Call::Load(given) => {
                *state = given;
                (ACCEPTED, "ok".to_string())
            }
            Call::Run {
                ref string,
                allowance,
                room,
            } => run_answer(state, string, allowance, room),
            Call::Encode(ref record) => (ACCEPTED, byte_pairs(&orders::record_bytes(record))),
        }
    }
}

/// The answer of a call that gives only a refusal and a state back.
fn changed(state: &mut State, (refusal, next): (u32, State)) -> (u32, String) {
    *state = next;
    (refusal, refusal.to_string())
}

fn read_answer(state: &mut State, address: u32) -> (u32, String) {
    let (refusal, byte, next) = model::read(state, address);
    *state = next;
    (refusal, format!("{refusal} {byte}"))
}

/// "`speed` answers refusal and speed as before, or `0 stopped`, or `0 too fast`."
fn speed_answer(speed: Speed) -> (u32, String) {
    match speed {
        Speed::Rpm(rpm) => (ACCEPTED, format!("{ACCEPTED} {rpm}")),
        Speed::Stopped => (ACCEPTED, format!("{ACCEPTED} stopped")),
        Speed::TooFast => (ACCEPTED, format!("{ACCEPTED} too fast")),
        Speed::Refused => (SPEED_REFUSED, format!("{SPEED_REFUSED} 0")),
    }
}

fn cabin_answer(state: &State) -> (u32, String) {
    let (refusal, seconds, shares) = model::cabin(state);
    let mut line = format!("{refusal} {}", nine_decimals(seconds));
    for share in shares {
        line.push(' ');
        line.push_str(&nine_decimals(share));
    }
    (refusal, line)
}

fn nine_decimals(number: Billionths) -> String {
    format!("{}.{:09}", number / 1_000_000_000, number % 1_000_000_000)
}

fn fan_fail_answer(state: &State) -> (u32, String) {
    let (refusal, asserted, failed, lowest) = model::fan_fail(state);
    let asserted = u32::from(asserted);
    (refusal, format!("{refusal} {asserted} {failed} {lowest}"))
}

/// "The buffer has ROOM bytes (0 to 2,048), every one A5h before the call, and is printed whole".
fn run_answer(state: &mut State, string: &[u8], allowance: u32, room: u32) -> (u32, String) {
    let mut buffer = vec![0xA5; room as usize];
    let run = orders::run(state, string, allowance, &mut buffer);
    *state = run.state;
    let counts = format!("{} {} {}", run.refusal, run.taken, run.written);
    (run.refusal, format!("{counts} {}", byte_pairs(&buffer)))
}

fn decimal_words(numbers: &[u32]) -> String {
    let words: Vec<String> = numbers.iter().map(u32::to_string).collect();
    words.join(" ")
}

/// `start WATCHDOG SPINUP TARGET FREQUENCY MODIFICATION`
fn pin_set_numbers(values: &PinSet) -> Vec<u32> {
    vec![
        values.watchdog,
        values.spin_up,
        values.target,
        u32::from(values.frequency),
        values.modification,
    ]
}

/// The state's numbers in the order of `dump` and `load`.
pub fn state_numbers(state: &State) -> Vec<u32> {
    let mut numbers = vec![
        state.clock,
        u32::from(state.pin),
        u32::from(state.control),
        u32::from(state.frequency),
        u32::from(state.faults),
        u32::from(state.mask2),
        u32::from(state.mask1),
        u32::from(state.options),
        u32::from(state.expired),
        u32::from(state.idle),
        u32::from(state.start_watchdog),
        u32::from(state.start_spinup),
        u32::from(state.start_target),
        u32::from(state.start_frequency),
        u32::from(state.modification),
        u32::from(state.wait),
    ];
    for channel in &state.channels {
        numbers.extend(channel_numbers(channel));
    }
    numbers
}

fn channel_numbers(channel: &Channel) -> [u32; 10] {
    [
        u32::from(channel.config),
        u32::from(channel.dynamics),
        u32::from(channel.count),
        u32::from(channel.ramp),
        u32::from(channel.spin),
        u32::from(channel.target),
        u32::from(channel.target_count),
        u32::from(channel.window),
        u32::from(channel.queue),
        u32::from(channel.pulses),
    ]
}

#[cfg(test)]
mod tests {
    use super::*;
    use crate::text::plain_line;

    fn answer(call: Call, state: &mut State) -> String {
        call.make(state).1
    }

    #[test]
    fn a_cabin_reading_has_nine_decimals() {
        let (_, mut state) = model::start(&PinSet::default());
        state.clock = u32::MAX;
        state.channels[0].ramp = 510;
        state.channels[1].ramp = 511;
        state.channels[2].ramp = 1;
        let expected = "0 8388607.998046875 0.996093750 1.000000000 0.001953125 0.000000000 \
                        0.000000000 0.000000000";
        assert_eq!(answer(Call::Cabin, &mut state), expected);
    }

    #[test]
    fn refused_queries_answer_with_nothing_but_zeros() {
        let mut state = State {
            mask1: 0x40,
            clock: 5,
            faults: 1,
            ..State::default()
        };
        let nothing = "1 0.000000000 0.000000000 0.000000000 0.000000000 0.000000000 0.000000000 \
                       0.000000000";
        assert_eq!(answer(Call::Cabin, &mut state), nothing);
        assert_eq!(answer(Call::FanFail, &mut state), "1 0 0 0");
        assert_eq!(answer(Call::Read { address: 1 }, &mut state), "1 0");
    }

    #[test]
    fn a_dump_gives_the_numbers_that_were_loaded() {
        let (_, mut given) = model::start(&PinSet {
            watchdog: 2,
            spin_up: 1,
            target: 300,
            frequency: 0x77,
            modification: 1,
        });
        given.channels[5] = Channel {
            ramp: 511,
            spin: 200,
            pulses: 1,
            ..given.channels[5]
        };
        given.wait = 2048;
        let mut state = State::default();
        assert_eq!(answer(Call::Load(given), &mut state), "ok");
        assert_eq!(state, given);
        let dump = answer(Call::Dump, &mut state);
        let the_box = "0 1 36 119 0 63 63 69 0 0 2 1 300 119 1 2048 ";
        let resting = "32 76 2047 0 0 300 480 0 0 0 ";
        let spinning_up = "32 76 2047 511 200 300 480 0 0 1";
        assert_eq!(dump, [the_box, &resting.repeat(5), spinning_up].concat());
        assert_eq!(dump.split(' ').count(), 76);
    }

    #[test]
    fn a_load_takes_what_a_byte_can_hold() {
        let (_, mut given) = model::start(&PinSet::default());
        given.modification = 255;
        given.channels[0].pulses = 255;
        let mut state = State::default();
        assert_eq!(answer(Call::Load(given), &mut state), "ok");
        assert_eq!(state, given);
        assert_eq!(answer(Call::Pulse { channel: 1 }, &mut state), "1");
        assert_eq!(state, given);
    }

    #[test]
    fn a_load_takes_a_wait_of_sixteen_bits() {
        let (_, fresh) = model::start(&PinSet::default());
        for (wait, line) in [(0, "0"), (2048, "0"), (2049, "1"), (65_535, "1")] {
            let given = State { wait, ..fresh };
            let mut state = State::default();
            assert_eq!(answer(Call::Load(given), &mut state), "ok");
            assert_eq!(state, given);
            assert_eq!(answer(Call::Pin { level: true }, &mut state), line);
            assert_eq!(state, given);
        }
    }

    #[test]
    fn answers_begin_with_the_refusal_number() {
        let mut state = State::default();
        let refused = Call::Start(PinSet {
            watchdog: 4,
            ..PinSet::default()
        });
        assert_eq!(answer(refused, &mut state), "7");
        assert_eq!(answer(Call::Read { address: 0x0E }, &mut state), "2 0");
        assert_eq!(answer(Call::Read { address: 0x30 }, &mut state), "0 255");
        let speed = |range_code, pulses, count| Call::Speed {
            range_code,
            pulses,
            count,
        };
        assert_eq!(answer(speed(2, 2, 1000), &mut state), "0 983");
        assert_eq!(answer(speed(2, 0, 1000), &mut state), "6 0");
        assert_eq!(answer(speed(2, 2, 2047), &mut state), "0 stopped");
        assert_eq!(answer(speed(2, 2, 0), &mut state), "0 too fast");
        assert_eq!(answer(speed(8, 2, 2047), &mut state), "6 0");
    }

    #[test]
    fn a_word_answers_with_its_refusal_alone() {
        let (_, mut state) = model::start(&PinSet::default());
        let word = |address| Call::Word {
            address,
            word: 0x6400,
        };
        assert_eq!(plain_line(&word(0x40).words()), "word 64 25600");
        for (address, line) in [(0x40, "0"), (0x41, "8"), (0x18, "3"), (0x3C, "2")] {
            assert_eq!(answer(word(address), &mut state), line);
        }
        let record = Call::Encode(vec![5, 64, 70_000]);
        assert_eq!(plain_line(&record.words()), "encode word 64 70000");
        assert_eq!(answer(Call::Read { address: 0x40 }, &mut state), "0 100");
        state.mask1 = 0x40;
        assert_eq!(answer(word(0x40), &mut state), "1");
    }

    #[test]
    fn a_start_says_its_five_numbers() {
        let start = |modification| {
            Call::Start(PinSet {
                watchdog: 3,
                spin_up: 1,
                target: 200,
                frequency: 0x77,
                modification,
            })
        };
        let mut state = State::default();
        assert_eq!(plain_line(&start(1).words()), "start 3 1 200 119 1");
        assert_eq!(answer(start(1), &mut state), "0");
        assert_eq!(state.modification, 1);
        assert_eq!(answer(start(0), &mut state), "0");
        assert_eq!(state.modification, 0);
        assert_eq!(
            plain_line(&start(u32::MAX).words()),
            "start 3 1 200 119 4294967295"
        );
        for modification in [2, 256, u32::MAX] {
            assert_eq!(answer(start(modification), &mut state), "7");
            assert_eq!(state, State::default());
        }
    }

    #[test]
    fn a_pulse_answers_with_its_refusal_alone() {
        let (_, mut state) = model::start(&PinSet {
            spin_up: 1,
            target: 200,
            modification: 1,
            ..PinSet::default()
        });
        let pulse = |channel| Call::Pulse { channel };
        // With no start delay all six start with the first tick.
        let address = 0x14;
        assert_eq!(answer(Call::Write { address, byte: 5 }, &mut state), "0");
        assert_eq!(answer(Call::Ticks { count: 1 }, &mut state), "0");
        assert_eq!(plain_line(&pulse(6).words()), "pulse 6");
        for (channel, line) in [(0, "5"), (1, "0"), (6, "0"), (7, "5"), (u32::MAX, "5")] {
            assert_eq!(answer(pulse(channel), &mut state), line);
        }
        assert_eq!(
            state.channels.map(|channel| channel.pulses),
            [1, 0, 0, 0, 0, 1]
        );
        let record = Call::Encode(vec![6, u32::MAX]);
        assert_eq!(plain_line(&record.words()), "encode pulse 4294967295");
    }

    #[test]
    fn a_run_answers_with_its_counts_and_the_whole_buffer() {
        let (_, mut state) = model::start(&PinSet {
            frequency: 0x77,
            ..PinSet::default()
        });
        let run = |string: &[u8], allowance, room| Call::Run {
            string: string.to_vec(),
            allowance,
            room,
        };
        assert_eq!(answer(run(&[], 9, 0), &mut state), "0 0 0 -");
        assert_eq!(answer(run(&[1, 1], 9, 4), &mut state), "0 1 1 77a5a5a5");
        assert_eq!(answer(run(&[1, 1], 9, 1), &mut state), "15 0 0 a5");
        // The answer cannot be told from the rest of the buffer, but the count can.
        let marked = run(&[0, 1, 0xA5, 0x01, 1, 1, 1, 5], 2, 8);
        assert_eq!(answer(marked, &mut state), "0 2 1 a5a5a5a5a5a5a5a5");
        assert_eq!(state.frequency, 0xA5);
    }

    #[test]
    fn an_encoding_is_the_record_as_bytes() {
        let mut state = State::default();
        let encodings = [
            (vec![0, 300, 256], "00ac028002"),
            (vec![1, 0], "0100"),
            (vec![2, u32::MAX], "02ffffffff0f"),
            (vec![3, 6, 127], "03067f"),
            (vec![4, 2], "0402"),
            (vec![5, 0x4A, 65_535], "054affff03"),
            (vec![5, 0x40, 65_536], "0540808004"),
            (vec![5, u32::MAX, 0], "05ffffffff0f00"),
            (vec![6, 1], "0601"),
            (vec![6, 0], "0600"),
            (vec![6, 128], "068001"),
            (vec![6, u32::MAX], "06ffffffff0f"),
        ];
        for (record, bytes) in encodings {
            assert_eq!(answer(Call::Encode(record), &mut state), bytes);
        }
        assert_eq!(state, State::default());
    }

    #[test]
    fn calls_with_a_kind_have_a_record() {
        let write = Call::Write {
            address: 300,
            byte: 9,
        };
        assert_eq!(write.record(), Some(vec![0, 300, 9]));
        assert_eq!(Call::Pin { level: true }.record(), Some(vec![4, 1]));
        let word = Call::Word {
            address: 0x5A,
            word: 65_535,
        };
        assert_eq!(word.record(), Some(vec![5, 0x5A, 65_535]));
        assert_eq!(Call::Pulse { channel: 4 }.record(), Some(vec![6, 4]));
        assert_eq!(Call::Dump.record(), None);
    }
}

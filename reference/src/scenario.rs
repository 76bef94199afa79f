//! Random scenarios: lines for the console and the answers that the model expects. A scenario is a
//! row of short drills, each about one part of the paper, all on the one state in hand.

mod delays;
mod galley;
mod pulses;

use std::mem;

use crate::choices;
use crate::console::{Call, GalleyCall};
use crate::galley::{Galley, UPPER_LIMITS};
use crate::model::{
    queue_length, Channel, PinSet, State, ACCEPTED, CHANNELS, FULL_DUTY, MONITOR_ONLY,
    TACHOMETER_ENABLED,
};
use crate::orders::{self, Record};
use crate::random::Random;
use crate::seen::Seen;
use crate::states::{flawed_state, sound_state, unusual_sound_state, FLAWS};
use crate::strings;
use crate::text::{call_line, skipped_line, Word};

type Drill = fn(&mut Scenario);

pub struct Scenario {
    random: Random,
    state: State,
    galley: Galley,
    /// The drills that are still to come before all of them are dealt anew.
    dealt: Vec<Drill>,
    /// The next of the flaws, which are taken in turn.
    next_flaw: usize,
    /// The next of the limits between the galley's rows, which are taken in turn.
    next_limit: usize,
    /// The next of the ways to freeze a spin-up, and to cut it off, which are taken in turn.
    next_freeze: usize,
    next_cut_off: usize,
    /// The next of the delay codes, and of the drills about fans that wait, taken in turn as well.
    next_delay: u8,
    next_waiting_drill: usize,
    /// While a string is packed, its records: calls become records then, and no lines.
    packed: Option<Vec<Record>>,
    pub input: String,
    pub answers: String,
    pub seen: Seen,
}

/// A scenario of at least `calls` answered lines. Until its first `start` or `load` the state in
/// hand is the one that a refused start gives, and until its first `gfresh` or `gload` the galley
/// state is the one that a refused fresh call gives.
pub fn scenario(seed: u64, calls: usize) -> Scenario {
    let mut made = Scenario {
        random: Random::new(seed),
        state: State::default(),
        galley: Galley::default(),
        dealt: Vec::new(),
        next_flaw: (seed % FLAWS.len() as u64) as usize,
        next_limit: (seed % UPPER_LIMITS.len() as u64) as usize,
        next_freeze: 0,
        next_cut_off: 0,
        next_delay: 0,
        next_waiting_drill: 0,
        packed: None,
        input: format!("# Scenario of seed {seed}.\n"),
        answers: String::new(),
        seen: Seen::default(),
    };
    made.try_the_galley();
    made.try_the_state();
    while made.seen.calls + 4 < calls {
        made.drill();
    }
    for call in [Call::Cabin, Call::FanFail, Call::Dump] {
        made.make(call);
    }
    made.make_galley(GalleyCall::Dump);
    if seed % 2 == 1 {
        // "A last line without a line feed counts."
        made.input.truncate(made.input.trim_end().len());
    }
    made
}

/// All drills in a random order, each as often as its share says: so a short scenario has every one
/// of them too.
fn dealt_anew(random: &mut Random) -> Vec<Drill> {
    let shares: [(usize, Drill); 13] = [
        (19, Scenario::traffic_drill),
        (11, Scenario::word_drill),
        (6, Scenario::pulse_drill),
        (2, Scenario::frozen_boxes_drill),
        (1, Scenario::no_channel_drill),
        (12, Scenario::delay_drill),
        (3, Scenario::start_drill),
        (4, Scenario::load_drill),
        (14, Scenario::flaw_drill),
        (4, Scenario::speed_drill),
        (3, Scenario::encode_drill),
        (65, Scenario::string_drill),
        (32, Scenario::galley_drill),
    ];
    let mut drills = Vec::new();
    for (times, drill) in shares {
        drills.extend(vec![drill; times]);
    }
    for place in (1..drills.len()).rev() {
        let other = random.below(place as u32 + 1) as usize;
        drills.swap(place, other);
    }
    drills
}

// The drills
impl Scenario {
    fn drill(&mut self) {
        if self.dealt.is_empty() {
            self.dealt = dealt_anew(&mut self.random);
        }
        if let Some(drill) = self.dealt.pop() {
            drill(self);
        }
        if self.random.chance(1, 2) {
            self.make(Call::Dump);
        }
    }

    /// One of the drills whose calls, but for queries and dumps, have a kind: they can be packed.
    fn traffic_drill(&mut self) {
        let drills: [(u32, Drill); 10] = [
            (18, Scenario::register_drill),
            (5, Scenario::sweep_drill),
            (16, Scenario::ramp_drill),
            (14, Scenario::spin_up_drill),
            (10, Scenario::turning_drill),
            (6, Scenario::waiting_drill),
            (12, Scenario::small_duty_drill),
            (14, Scenario::watchdog_drill),
            (44, Scenario::tachometer_drill),
            (16, Scenario::override_drill),
        ];
        let drill = self.random.weighted(&drills);
        drill(self);
    }

    /// Bus traffic of every kind, with some ticks between.
    fn register_drill(&mut self) {
        for _ in 0..self.random.between(4, 12) {
            match self.random.below(9) {
                0..=3 => self.write_something(),
                4..=5 => self.read_something(),
                6 => self.pass_ticks(),
                7 => self.query(),
                _ => self.galley_call(),
            }
        }
    }

    /// Reads of a row of registers, the gaps in it too, or writes of bytes or words to them.
    fn sweep_drill(&mut self) {
        let first = self.random.below(0x6A);
        let last = first + self.random.between(6, 24);
        let writes = self.random.below(5);
        for address in first..=last {
            match writes {
                0 => self.write_byte_for(address),
                1 => self.write_word_for(address),
                _ => {}
            }
            self.make(Call::Read { address });
        }
    }

    fn ramp_drill(&mut self) {
        let index = self.some_channel();
        self.clear_overrides(index);
        for _ in 0..self.random.between(1, 3) {
            let dynamics = self.random.byte();
            self.write(0x08 + index, dynamics);
            self.write_target(index);
            for _ in 0..self.random.between(1, 3) {
                let channel = self.channel(index);
                let count = choices::span_of_ramp(&mut self.random, &channel);
                self.pass(count);
                if self.random.chance(1, 4) {
                    self.read_duty(index);
                }
            }
        }
    }

    /// From ramp value 0 into a spin-up, which may be frozen, cut off, given another code or ended
    /// by pulses.
    fn spin_up_drill(&mut self) {
        let index = self.some_channel();
        self.clear_overrides(index);
        let code = self.random.between(1, 3) as u8;
        let others = self
            .random
            .pick(&[0x00, TACHOMETER_ENABLED, TACHOMETER_ENABLED | 0x02]);
        if self.channel(index).ramp > 0 {
            // Monitor only for a moment: the shortest way to ramp value 0.
            self.write(0x02 + index, others | MONITOR_ONLY);
        }
        self.write(0x02 + index, others | code << 5);
        self.write_target(index);
        for _ in 0..self.random.between(3, 8) {
            match self.random.below(16) {
                0..=5 => {
                    let channel = self.channel(index);
                    let count = choices::span_of_spin_up(&mut self.random, &channel);
                    self.pass(count);
                }
                6 => self.write_byte_for(0x02 + index),
                7..=8 => self.result(index),
                9 => self.flip_pin(),
                10 => self.write_byte_for(0x00),
                11 => self.write_target(index),
                12..=14 => self.pulse_and_look(index),
                _ => self.some_sample(),
            }
        }
    }

    /// Words and bytes where they are taken and where they are not, from a state with faults, or
    /// under a watchdog that counts and expires.
    fn word_drill(&mut self) {
        match self.random.below(3) {
            0 => {
                let state = unusual_sound_state(&mut self.random);
                self.make(Call::Load(state));
            }
            1 => {
                let code = self.random.between(1, 3) as u8;
                self.write(0x00, 0x20 | code << 1);
            }
            _ => {}
        }
        for _ in 0..self.random.between(4, 10) {
            match self.random.below(10) {
                0..=3 => self.write_word_somewhere(),
                4..=5 => {
                    self.refused_access();
                    self.query();
                }
                6 => self.write_something(),
                7 => self.read_something(),
                8 => self.pass(1),
                _ => {
                    let count = choices::span_to_expiry(&mut self.random, &self.state);
                    self.pass(count);
                }
            }
        }
    }

    /// A running fan with rate code 0 and a spin-up code gets a small duty in one go: it is there
    /// after one tick, and no spin-up runs.
    fn small_duty_drill(&mut self) {
        let index = self.some_channel();
        self.clear_overrides(index);
        if self.channel(index).spin > 0 {
            // Monitor only for a moment: the shortest way out of a spin-up.
            self.write(0x02 + index, MONITOR_ONLY);
        }
        let code = self.random.between(1, 3) as u8;
        let others = self.random.pick(&[0x00, TACHOMETER_ENABLED]);
        let dynamics = self.random.byte() & 0xE2;
        self.write(0x02 + index, others);
        self.write(0x08 + index, dynamics);
        for turn in 0..self.random.between(1, 3) {
            let large = self.random.between(3, FULL_DUTY.into()) as u16;
            self.set_duty(index, large);
            self.make(Call::Ticks { count: 1 });
            if turn == 0 {
                self.write(0x02 + index, others | code << 5);
            }
            let small = self.random.weighted(&[(6, 1), (2, 2), (1, 0), (1, 3)]);
            self.set_duty(index, small);
            self.make(Call::Ticks { count: 1 });
            self.make(Call::Dump);
        }
    }

    fn watchdog_drill(&mut self) {
        let code: u8 = self.random.weighted(&[(1, 0), (6, 1), (3, 2), (2, 3)]);
        let others: u8 = self.random.weighted(&[(8, 0x20), (1, 0x28), (1, 0x11)]);
        self.write(0x00, others | code << 1);
        for _ in 0..self.random.between(2, 6) {
            let index = self.some_channel();
            match self.random.below(18) {
                0..=4 => {
                    let count = choices::span_to_expiry(&mut self.random, &self.state);
                    self.pass(count);
                }
                5 => self.make(Call::Read { address: 0x00 }),
                6..=7 => {
                    self.refused_access();
                    self.make(Call::Dump);
                }
                8 => self.read_something(),
                9 => self.query(),
                10 => self.flip_pin(),
                11 => self.result(index),
                12..=13 => self.write_word_somewhere(),
                14 => self.pulse_somewhere(),
                _ => self.some_sample(),
            }
        }
    }

    /// Results that raise faults, with masks, queue codes and target writes that clear them.
    fn tachometer_drill(&mut self) {
        let index = self.some_channel();
        self.ready_for_results(index);
        for _ in 0..self.random.between(4, 14) {
            match self.random.below(24) {
                0..=6 => self.result(index),
                7..=9 => self.bad_results(index),
                10..=11 => self.make(Call::FanFail),
                12 => self.make(Call::Read { address: 0x11 }),
                13 => {
                    let address = 0x18 + self.random.below(24);
                    self.make(Call::Read { address });
                }
                14 => self.result_somewhere(),
                15 => self.write_byte_for(0x14),
                16 => self.write_byte_for(0x13),
                17..=18 => self.write_word_for(0x40 + 2 * index),
                19 => self.write_word_for(0x50 + 2 * index),
                20 => self.pass_ticks(),
                21 => self.pulse_somewhere(),
                _ => self.some_sample(),
            }
        }
        if self.random.chance(1, 2) {
            self.make(Call::FanFail);
            self.write_target(index);
        }
    }

    fn ready_for_results(&mut self, index: u32) {
        if self.random.chance(3, 4) {
            self.clear_overrides(index);
        }
        let monitor = self.random.chance(1, 6);
        self.write(0x02 + index, if monitor { 0x18 } else { 0x08 });
        self.write_target_count(index);
        self.write_byte_for(0x13);
        self.write_byte_for(0x14);
        if self.state.fault(index as usize) && self.random.chance(4, 5) {
            self.write_word_for(0x40 + 2 * index);
        }
        if self.channel(index).ramp == 0 && !monitor {
            self.clear_the_wait();
            self.write(0x08 + index, 0x40);
            self.set_duty(index, 200);
            self.pass(2);
        }
    }

    /// Pin, standby, monitor only, reset and failed-fan options, looked at through the duties.
    fn override_drill(&mut self) {
        for _ in 0..self.random.between(2, 4) {
            let index = self.some_channel();
            match self.random.below(11) {
                0..=1 => self.flip_pin(),
                2..=3 => self.write_byte_for(0x00),
                4 => {
                    let reset = self.random.pick(&[0x40, 0xC0, 0x60, 0x46, 0xFF]);
                    self.write(0x00, reset);
                }
                5 => self.write(0x02 + index, 0x3A),
                6 => self.write_byte_for(0x02 + index),
                7 => self.write_target(index),
                _ => self.write_byte_for(0x14),
            }
            if self.random.chance(1, 2) {
                self.pass_ticks();
            }
            self.result(index);
            self.query();
            if self.random.chance(1, 2) {
                self.some_sample();
            }
            if self.random.chance(1, 2) {
                self.pulse(index);
            }
            self.read_duty(index);
        }
        if self.random.chance(3, 4) {
            let index = self.some_channel();
            self.clear_overrides(index);
        }
    }

    fn start_drill(&mut self) {
        let several = self.random.between(1, 15);
        let refused = self.random.pick(&[several, several, 1, 2, 4, 8, 8, 8]);
        // A bit for each of the four values that can be out of range.
        let wrong = self.random.weighted(&[(1, 0), (1, refused)]);
        let call = Call::Start(PinSet {
            watchdog: choices::pin_set_value(&mut self.random, wrong & 1 != 0, 3),
            spin_up: choices::pin_set_value(&mut self.random, wrong & 2 != 0, 3),
            target: choices::pin_set_value(&mut self.random, wrong & 4 != 0, FULL_DUTY.into()),
            frequency: self.random.byte(),
            modification: choices::modification(&mut self.random, wrong & 8 != 0),
        });
        self.make(call);
        self.try_the_state();
    }

    fn load_drill(&mut self) {
        let state = if self.random.chance(1, 3) {
            unusual_sound_state(&mut self.random)
        } else {
            sound_state(&mut self.random)
        };
        self.make(Call::Load(state));
        self.try_the_state();
    }

    /// A state with a flaw in one field: every call that takes a state refuses it, and gives it
    /// back. Then the console gets a sound one again.
    fn flaw_drill(&mut self) {
        let flaw = FLAWS[self.next_flaw];
        self.next_flaw = (self.next_flaw + 1) % FLAWS.len();
        let (mended, flawed) = flawed_state(&mut self.random, flaw);
        self.make(Call::Load(flawed));
        let first = self.random.below(17);
        for turn in first..first + self.random.between(3, 11) {
            match turn % 17 {
                0 => self.write_something(),
                1 => self.read_something(),
                2 => {
                    let count = choices::span(&mut self.random, &self.state);
                    self.make(Call::Ticks { count });
                }
                3 => self.result_somewhere(),
                4 => self.flip_pin(),
                5 => self.make(Call::Cabin),
                6 => self.make(Call::FanFail),
                7 => self.one_speed(),
                8..=9 => self.run_records_for(mended),
                10 => self.some_sample(),
                11 => self.galley_call(),
                12..=13 => self.write_word_somewhere(),
                14..=15 => self.pulse_somewhere(),
                _ => self.galley_flaw_drill(),
            }
        }
        self.make(Call::Dump);
        match self.random.below(3) {
            0 => self.start_drill(),
            1 => self.load_drill(),
            _ => {
                self.make(Call::Load(mended));
                self.try_the_state();
            }
        }
    }

    fn speed_drill(&mut self) {
        for _ in 0..self.random.between(8, 16) {
            self.one_speed();
        }
    }

    /// Records as bytes, and some of them run.
    fn encode_drill(&mut self) {
        for _ in 0..self.random.between(2, 6) {
            let record = strings::any_record(&mut self.random);
            self.make(Call::Encode(record.clone()));
            if self.random.chance(1, 3) {
                self.run(orders::record_bytes(&record));
            }
        }
    }

    /// A row of runs, each on the state that the one before left.
    fn string_drill(&mut self) {
        for _ in 0..self.random.between(3, 8) {
            self.run_records_for(self.state);
            if self.random.chance(1, 2) {
                self.make(Call::Dump);
            }
        }
    }

    /// The whole state compared, and then a few calls of any kind on it.
    fn try_the_state(&mut self) {
        self.make(Call::Dump);
        if self.random.chance(1, 2) {
            self.make(Call::Cabin);
        }
        for _ in 0..self.random.between(3, 8) {
            if self.random.chance(1, 8) {
                self.run_records_for(self.state);
            } else {
                self.any_call();
            }
        }
    }
}

// Strings
impl Scenario {
    /// Runs a string whose records suit a sound state: the state in hand, or one without its flaw.
    fn run_records_for(&mut self, state: State) {
        let records = self.records_for(state);
        let string = strings::string_of(&mut self.random, &records);
        self.run(string);
    }

    fn run(&mut self, string: Vec<u8>) {
        let mut buffer = vec![0; string.len()];
        let whole = orders::run(&self.state, &string, u32::MAX, &mut buffer);
        let call = Call::Run {
            allowance: strings::allowance(&mut self.random, whole.taken),
            room: strings::room(&mut self.random, string.len(), whole.written),
            string,
        };
        self.make(call);
    }

    /// The records of calls that are accepted one after the other from this state on.
    fn records_for(&mut self, state: State) -> Vec<Record> {
        let number = strings::number_of_records(&mut self.random);
        let in_hand = mem::replace(&mut self.state, state);
        self.packed = Some(Vec::new());
        while self.packed_records() < number {
            match self.random.below(20) {
                0..=1 => self.read_what_the_buffer_holds(),
                2..=3 => self.number_of_some_length(),
                4..=7 => self.write_something(),
                8..=9 => self.read_something(),
                10..=15 if number > 6 => self.traffic_drill(),
                16 if number > 6 => self.turning_drill(),
                17 if number > 6 => self.waiting_drill(),
                _ => self.any_call(),
            }
        }
        self.state = in_hand;
        let mut records = self.packed.take().unwrap_or_default();
        records.truncate(number);
        records
    }

    fn packed_records(&self) -> usize {
        self.packed.as_ref().map_or(0, Vec::len)
    }

    /// Makes the call on the state in hand and packs its record, if it has a kind and is accepted.
    fn pack(&mut self, call: &Call) {
        if let (Some(records), Some(record)) = (&mut self.packed, call.record()) {
            let (refusal, _) = call.make(&mut self.state);
            if refusal == ACCEPTED {
                records.push(record);
            }
        }
    }

    /// An answer that only the number of answer bytes can tell from the rest of the buffer.
    fn read_what_the_buffer_holds(&mut self) {
        self.write(0x01, 0xA5);
        for _ in 0..self.random.between(1, 3) {
            self.make(Call::Read { address: 0x01 });
        }
    }

    fn number_of_some_length(&mut self) {
        let count = choices::number_of_some_length(&mut self.random);
        if self.random.chance(1, 2) {
            self.make(Call::Ticks { count });
        } else {
            let channel = self.some_channel() + 1;
            self.make(Call::Tachometer { channel, count });
        }
    }
}

// Single calls
impl Scenario {
    /// From 0 for channel 1 to 5 for channel 6.
    fn some_channel(&mut self) -> u32 {
        self.random.below(CHANNELS as u32)
    }

    fn channel(&self, index: u32) -> Channel {
        self.state.channels[index as usize]
    }

    /// Writes the call's line, makes the call on the model and writes the answer that it expects.
    fn make(&mut self, call: Call) {
        if self.packed.is_some() {
            self.pack(&call);
            return;
        }
        self.say(&call.words());
        let before = self.state;
        let (refusal, answer) = call.make(&mut self.state);
        self.seen
            .note(&call, &before, refusal, &answer, &self.state);
        self.expect(&answer);
    }

    /// A call's line, now and then with one before it that answers nothing.
    fn say(&mut self, words: &[Word]) {
        if self.random.chance(1, 40) {
            self.input.push_str(&skipped_line(&mut self.random));
        }
        let line = call_line(&mut self.random, words);
        self.input.push_str(&line);
    }

    fn expect(&mut self, answer: &str) {
        self.answers.push_str(answer);
        self.answers.push('\n');
    }

    fn write(&mut self, address: u32, byte: u8) {
        self.make(Call::Write { address, byte });
    }

    fn write_byte_for(&mut self, address: u32) {
        let byte = choices::byte_for(&mut self.random, address);
        self.write(address, byte);
    }

    /// A byte or a word.
    fn write_something(&mut self) {
        if self.random.chance(2, 5) {
            self.write_word_somewhere();
            return;
        }
        let address = choices::address(&mut self.random);
        self.write_byte_for(address);
    }

    fn write_word_for(&mut self, address: u32) {
        let word = choices::word_for(&mut self.random, address);
        self.make(Call::Word { address, word });
    }

    /// A word, and for every third one the state after it.
    fn write_word_somewhere(&mut self) {
        let address = choices::word_address(&mut self.random);
        self.write_word_for(address);
        if self.random.chance(1, 3) {
            self.make(Call::Dump);
        }
    }

    fn read_something(&mut self) {
        let address = choices::address(&mut self.random);
        self.make(Call::Read { address });
    }

    /// One that does not feed the watchdog.
    fn refused_access(&mut self) {
        match self.random.below(10) {
            0 => self.write(0x11, 0x00),
            1..=2 => {
                let index = self.some_channel();
                let byte = choices::refused_configuration(&mut self.random);
                self.write(0x02 + index, byte);
            }
            3 => self.write(0x66, 0x00),
            4..=5 => {
                let target = choices::target_address(&mut self.random);
                let half = self.random.below(2);
                self.write_byte_for(target + half);
            }
            6..=8 => {
                let address = choices::address_without_words(&mut self.random);
                self.write_word_for(address);
            }
            _ => self.make(Call::Read { address: 0x0E }),
        }
    }

    /// Ticks, and mostly a dump after them.
    fn pass(&mut self, count: u32) {
        self.make(Call::Ticks { count });
        if self.random.chance(7, 10) {
            self.make(Call::Dump);
        }
    }

    fn pass_ticks(&mut self) {
        let count = choices::span(&mut self.random, &self.state);
        self.pass(count);
    }

    fn flip_pin(&mut self) {
        let keep = self.random.chance(1, 5);
        let level = self.state.pin == keep;
        self.make(Call::Pin { level });
    }

    fn query(&mut self) {
        match self.random.below(3) {
            0 => self.make(Call::Cabin),
            1 => self.make(Call::FanFail),
            _ => self.make(Call::Dump),
        }
    }

    fn any_call(&mut self) {
        match self.random.below(12) {
            0 => self.write_something(),
            1 => self.read_something(),
            2 => self.result_somewhere(),
            3 => self.query(),
            4 => self.flip_pin(),
            5..=8 => self.pass_ticks(),
            9 => self.pulse_somewhere(),
            _ => self.galley_call(),
        }
    }

    /// Both bytes of an output duty.
    fn read_duty(&mut self, index: u32) {
        for address in [0x30 + 2 * index, 0x31 + 2 * index] {
            self.make(Call::Read { address });
        }
    }

    fn write_target(&mut self, index: u32) {
        let word = choices::word_of_duty(&mut self.random);
        self.write_word(0x40 + 2 * index, word);
    }

    fn write_target_count(&mut self, index: u32) {
        let word = choices::word_of_count(&mut self.random);
        self.write_word(0x50 + 2 * index, word);
    }

    /// A target duty, whatever the bits below it.
    fn set_duty(&mut self, index: u32, duty: u16) {
        let word = duty << 7 | choices::bits_below(&mut self.random, 1 << 7);
        self.write_word(0x40 + 2 * index, word);
    }

    /// A target in one go, and for every fourth one both of its bytes read.
    fn write_word(&mut self, address: u32, word: u16) {
        self.make(Call::Word { address, word });
        if self.random.chance(1, 4) {
            for address in [address, address + 1] {
                self.make(Call::Read { address });
            }
        }
    }

    fn result(&mut self, index: u32) {
        let about = self.channel(index);
        let count = choices::count_about(&mut self.random, &about);
        let channel = index + 1;
        self.make(Call::Tachometer { channel, count });
    }

    /// About as many bad results in a row as the queue is long.
    fn bad_results(&mut self, index: u32) {
        let channel = index + 1;
        let count = u32::from(self.channel(index).target_count) + 1;
        for _ in 0..u32::from(queue_length(self.state.queue_code())) + self.random.below(3) - 1 {
            self.make(Call::Tachometer { channel, count });
        }
    }

    /// On any channel, or on one that does not exist.
    fn result_somewhere(&mut self) {
        let index = self.some_channel();
        let about = self.channel(index);
        let count = choices::count_about(&mut self.random, &about);
        let none = choices::no_channel(&mut self.random);
        let channel = self.random.weighted(&[(3, index + 1), (1, none)]);
        self.make(Call::Tachometer { channel, count });
    }

    fn one_speed(&mut self) {
        let range_code = self.random.below(8);
        let pulses = self.random.between(1, 4);
        // The wrong ones are next to the range, or have a low byte or word in it.
        let call = Call::Speed {
            range_code: self.random.weighted(&[(12, range_code), (1, 8), (1, 258)]),
            pulses: self
                .random
                .weighted(&[(18, pulses), (1, 0), (1, 5), (1, 257)]),
            count: choices::count_of_speed(&mut self.random),
        };
        self.make(call);
    }

    /// Leaves the channel without an override, the watchdog mostly off, and mostly no wait.
    fn clear_overrides(&mut self, index: u32) {
        if !self.state.pin {
            self.make(Call::Pin { level: true });
        }
        if self.state.standby() || self.state.watchdog_code() != 0 {
            let code = self.random.weighted(&[(6, 0), (1, 1), (1, 2), (1, 3)]);
            self.write(0x00, 0x20 | code << 1);
        }
        let calm = self.random.chance(2, 3);
        if self.state.failed_fan_option() != 1 && self.random.chance(3, 4) {
            let others = self.random.byte() & if calm { 0x03 } else { 0xE3 };
            self.write(0x14, 0x04 | others);
        }
        if self.channel(index).monitor_only() {
            let others = self.random.byte() & 0x6A;
            self.write(0x02 + index, others);
        }
        if calm {
            self.clear_the_wait();
        }
    }

    /// Delay code 0, and the wait that an earlier code has left run out.
    fn clear_the_wait(&mut self) {
        let others = self.state.options & 0x1F;
        if self.state.options != others {
            self.write(0x14, others);
        }
        let wait = u32::from(self.state.wait);
        if wait > 0 {
            self.pass(wait);
        }
    }
}

#[cfg(test)]
mod tests;

//! The galley's drills, and the galley calls that the other drills make between their own.

use super::{Drill, Scenario};
use crate::choices;
use crate::choices::galley::{
    any_tables, beside_a_threshold, byte_of, span_of_rows, step_towards, tables_about,
    temperature_about, threshold_for, whole_tables, word_beside,
};
use crate::console::{Call, GalleyCall};
use crate::galley::{Tables, ROWS, UPPER_LIMITS};
use crate::states::galley::{any_temperature, flawed_galley, sound_galley, GALLEY_FLAWS};

// The drills
impl Scenario {
    pub(super) fn galley_drill(&mut self) {
        let drills: [(u32, Drill); 9] = [
            (6, Scenario::walk_drill),
            (8, Scenario::limit_drill),
            (10, Scenario::targets_drill),
            (5, Scenario::failed_fans_drill),
            (7, Scenario::fed_or_not_drill),
            (6, Scenario::span_drill),
            (11, Scenario::fresh_drill),
            (6, Scenario::galley_load_drill),
            (6, Scenario::galley_flaw_drill),
        ];
        let drill = self.random.weighted(&drills);
        drill(self);
        if self.random.chance(1, 2) {
            self.make_galley(GalleyCall::Dump);
        }
    }

    /// Up and down the rows on the same two tables, past where the hysteresis holds.
    fn walk_drill(&mut self) {
        if self.random.chance(1, 2) {
            self.fresh_galley(0);
        }
        let tables = whole_tables(&mut self.random);
        let mut upwards = true;
        let mut temperature = temperature_about(&mut self.random, &self.galley);
        for _ in 0..self.random.between(5, 14) {
            self.sample(temperature, tables.clone());
            if self.random.chance(1, 6) {
                self.any_call();
            }
            if self.random.chance(1, 4) {
                upwards = !upwards;
            }
            temperature = step_towards(&mut self.random, &self.galley, upwards);
        }
    }

    /// Both sides of some limits between two rows, with rising or falling samples.
    fn limit_drill(&mut self) {
        let tables = whole_tables(&mut self.random);
        let falling = self.random.chance(1, 2);
        let limits = self.random.between(2, 6);
        let mut temperatures = Vec::new();
        for _ in 0..limits {
            let limit = 8 * UPPER_LIMITS[self.next_limit];
            self.next_limit = (self.next_limit + 1) % UPPER_LIMITS.len();
            temperatures.extend([limit - 1, limit]);
        }
        if falling {
            temperatures.reverse();
        }
        for temperature in temperatures {
            self.sample(temperature, tables.clone());
        }
    }

    /// Targets that a sample has made equal, some of them written again, and the same sample once
    /// more: from none to all of them differ.
    fn targets_drill(&mut self) {
        for _ in 0..self.random.between(2, 4) {
            let any = self.random.byte();
            let byte = self.random.pick(&[0x00, 0x7F, 0xFE, 0xFF, any, any]);
            let temperature = any_temperature(&mut self.random);
            self.sample(temperature, level_tables(byte));
            let first = self.some_channel();
            let written = self.random.pick(&[1, 2, 2, 3, 3, 3, 4, 4, 5, 6]);
            for place in first..first + written {
                let word = word_beside(&mut self.random, byte);
                self.write_word(0x40 + 2 * (place % 6), word);
            }
            self.sample_and_dump(temperature, level_tables(byte));
        }
    }

    /// Fans that fail, and a sample by the target of one of them: its fault stays, and those of the
    /// channels that are written go.
    fn failed_fans_drill(&mut self) {
        let (first, second) = (self.some_channel(), self.some_channel());
        for index in [first, second] {
            self.ready_for_results(index);
            self.result(index);
            self.bad_results(index);
        }
        self.make(Call::FanFail);
        let byte = byte_of(&self.channel(second));
        let temperature = any_temperature(&mut self.random);
        self.sample_and_dump(temperature, level_tables(byte));
        self.make(Call::FanFail);
    }

    /// With the watchdog counting or expired, samples that write nothing and samples that write.
    fn fed_or_not_drill(&mut self) {
        let code = self.random.between(1, 3) as u8;
        self.write(0x00, 0x20 | code << 1);
        let (first, second) = (self.random.byte(), self.random.byte());
        let temperature = any_temperature(&mut self.random);
        self.sample(temperature, level_tables(first));
        for _ in 0..self.random.between(1, 3) {
            let some = self.random.between(1, 2500);
            let expiry = choices::span_to_expiry(&mut self.random, &self.state);
            let count = self.random.pick(&[some, expiry]);
            self.pass(count);
            let byte = self.random.weighted(&[(3, first), (1, second)]);
            self.sample_and_dump(temperature, level_tables(byte));
        }
    }

    fn span_drill(&mut self) {
        for _ in 0..self.random.between(3, 8) {
            self.span();
        }
    }

    fn fresh_drill(&mut self) {
        let refused = self.random.chance(1, 2);
        // A bit for each threshold that is out of range.
        let wrong = if refused {
            self.random.between(1, 3)
        } else {
            0
        };
        self.fresh_galley(wrong);
        self.try_the_galley();
    }

    fn galley_load_drill(&mut self) {
        let galley = sound_galley(&mut self.random);
        self.make_galley(GalleyCall::Load(galley));
        self.try_the_galley();
    }

    /// A galley state with a flaw in one field: every call that takes one refuses it, and both
    /// states stay. Then the console gets a sound one again.
    pub(super) fn galley_flaw_drill(&mut self) {
        let flaw = self.random.pick(&GALLEY_FLAWS);
        let (mended, flawed) = flawed_galley(&mut self.random, flaw);
        self.make_galley(GalleyCall::Load(flawed));
        let first = self.random.below(4);
        for turn in first..first + self.random.between(2, 4) {
            match turn % 4 {
                0 => self.some_sample(),
                1 => self.span(),
                2 => self.make_galley(GalleyCall::Read),
                _ => self.sample_for(mended.temperature.into()),
            }
        }
        self.make_galley(GalleyCall::Dump);
        if self.random.chance(1, 3) {
            self.fresh_galley(0);
        } else {
            self.make_galley(GalleyCall::Load(mended));
        }
        self.some_sample();
    }

    /// The whole galley state compared, and then a few calls on it.
    pub(super) fn try_the_galley(&mut self) {
        self.make_galley(GalleyCall::Dump);
        if self.random.chance(2, 3) {
            let temperature = beside_a_threshold(&mut self.random, &self.galley);
            self.sample_for(temperature);
        }
        for _ in 0..self.random.between(1, 3) {
            self.galley_call();
        }
    }
}

/// Both tables with one byte in every row.
pub(super) fn level_tables(byte: u8) -> Tables {
    Tables {
        normal: vec![byte; ROWS],
        quiet: vec![byte; ROWS],
    }
}

// Single calls
impl Scenario {
    /// Writes the call's line, makes the call on the model and writes the answer that it expects.
    /// It has no kind: while a string is packed, nothing is done.
    pub(super) fn make_galley(&mut self, call: GalleyCall) {
        if self.packed.is_some() {
            return;
        }
        self.say(&call.words());
        let (galley, controller) = (self.galley, self.state);
        let (refusal, answer) = call.make(&mut self.galley, &mut self.state);
        self.seen
            .note_galley(&call, refusal, &galley, &controller, &self.state);
        self.expect(&answer);
    }

    /// One of any kind that has no flaw in it.
    pub(super) fn galley_call(&mut self) {
        match self.random.below(16) {
            0..=7 => self.some_sample(),
            8..=10 => self.span(),
            11..=12 => self.make_galley(GalleyCall::Read),
            13..=14 => self.make_galley(GalleyCall::Dump),
            _ => self.fresh_galley(0),
        }
    }

    /// Suited to the states in hand.
    pub(super) fn some_sample(&mut self) {
        let temperature = temperature_about(&mut self.random, &self.galley);
        self.sample_for(temperature);
    }

    fn sample_for(&mut self, temperature: i32) {
        let tables = tables_about(&mut self.random, &self.galley, &self.state, temperature);
        self.sample(temperature, tables);
    }

    /// A sample, and for every third one both states after it.
    fn sample(&mut self, temperature: i32, tables: Tables) {
        if self.random.chance(1, 3) {
            self.sample_and_dump(temperature, tables);
            return;
        }
        self.make_galley(GalleyCall::Sample {
            temperature,
            tables,
        });
        match self.random.below(4) {
            0 => self.make_galley(GalleyCall::Dump),
            1 => self.make_galley(GalleyCall::Read),
            _ => {}
        }
    }

    pub(super) fn sample_and_dump(&mut self, temperature: i32, tables: Tables) {
        self.make_galley(GalleyCall::Sample {
            temperature,
            tables,
        });
        self.make(Call::Dump);
        self.make_galley(GalleyCall::Dump);
    }

    fn span(&mut self) {
        let (first, end) = span_of_rows(&mut self.random);
        let tables = any_tables(&mut self.random);
        self.make_galley(GalleyCall::Span { first, end, tables });
    }

    /// Bit 0 of `wrong` puts the high threshold out of range, bit 1 the other one.
    fn fresh_galley(&mut self, wrong: u32) {
        let call = GalleyCall::Fresh {
            high: threshold_for(&mut self.random, wrong & 1 != 0),
            over: threshold_for(&mut self.random, wrong & 2 != 0),
            hysteresis: self.random.chance(1, 2),
            quiet: self.random.chance(1, 2),
        };
        self.make_galley(call);
    }
}

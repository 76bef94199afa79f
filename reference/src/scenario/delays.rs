//! One fan at a time: the drills that let several fans wait for their turn, and look at them beside
//! the ticks in which they start.

use super::galley::level_tables;
use super::{Drill, Scenario};
use crate::choices;
use crate::console::Call;
use crate::model::{
    start_delay, PinSet, FULL_DUTY, LONGEST_WAIT, MONITOR_ONLY, STANDBY, TACHOMETER_ENABLED,
};
use crate::states::galley::any_temperature;
use crate::states::{above, waiting_before_expiry, waiting_state};

/// The drills whose calls, but for dumps and samples, have a kind: they can be packed.
const WAITING_DRILLS: [Drill; 10] = [
    Scenario::departures_drill,
    Scenario::single_ticks_drill,
    Scenario::changed_delay_drill,
    Scenario::standby_and_wait_drill,
    Scenario::monitor_and_wait_drill,
    Scenario::reset_and_wait_drill,
    Scenario::frozen_fans_drill,
    Scenario::failed_and_waiting_drill,
    Scenario::stop_and_start_drill,
    Scenario::turning_and_waiting_drill,
];

// The drills
impl Scenario {
    /// Fans that wait in a box that is loaded or started for them. The ways to begin, and the
    /// drills after them, are taken in turn.
    pub(super) fn delay_drill(&mut self) {
        match self.next_waiting_drill % 7 {
            0 | 2 | 4 => self.load_waiting_fans(),
            1 => self.expiry_and_wait_drill(),
            3 => self.overtaking_drill(),
            5 => self.start_all_fans(),
            _ => self.too_long_wait_drill(),
        }
        let drill = WAITING_DRILLS[self.next_waiting_drill % WAITING_DRILLS.len()];
        self.next_waiting_drill += 1;
        drill(self);
    }

    /// One of those that can be packed.
    pub(super) fn waiting_drill(&mut self) {
        let drill = self.random.pick(&WAITING_DRILLS);
        drill(self);
    }

    /// Jumps that end beside the ticks in which fans start, and some far beyond them.
    fn departures_drill(&mut self) {
        self.ready_waiting_fans();
        for _ in 0..self.random.between(3, 8) {
            self.jump_and_dump();
            if self.random.chance(1, 6) {
                self.call_between();
            }
        }
    }

    /// The ticks beside a departure one by one, each with the state after it.
    fn single_ticks_drill(&mut self) {
        self.ready_waiting_fans();
        for _ in 0..self.random.between(1, 2) {
            let next = choices::ticks_to_departure(&self.state).unwrap_or(1);
            let before = self.random.between(1, 3);
            self.make(Call::Ticks {
                count: next.saturating_sub(before),
            });
            for _ in 0..before + self.random.between(1, 3) {
                self.make(Call::Ticks { count: 1 });
                self.make(Call::Dump);
            }
        }
    }

    /// Another delay code while the wait runs, which it leaves: longer, shorter or none.
    fn changed_delay_drill(&mut self) {
        self.ready_waiting_fans();
        for _ in 0..self.random.between(2, 3) {
            self.let_the_wait_run();
            let code = u32::from(self.state.start_delay_code());
            let shorter = self.random.between(1, code.clamp(2, 5) - 1) as u8;
            let longer = self.random.between(code.min(6) + 1, 7) as u8;
            let other = self.random.pick(&[0, shorter, shorter, longer]);
            self.set_delay_code(other);
            self.make(Call::Dump);
            for _ in 0..self.random.between(1, 3) {
                self.jump_and_dump();
            }
        }
    }

    /// Standby while the wait runs: it stops the fans, and the wait falls on.
    fn standby_and_wait_drill(&mut self) {
        self.ready_waiting_fans();
        self.let_the_wait_run();
        let others = self.random.pick(&[0x00, 0x20, 0x28]);
        self.write(0x00, STANDBY | others);
        self.make(Call::Dump);
        self.pass_some_of_the_wait();
        self.write(0x00, others);
        self.make(Call::Dump);
        for _ in 0..self.random.between(2, 4) {
            self.jump_and_dump();
        }
    }

    /// Monitor only while the wait runs, on a fan that waits or on one that has started.
    fn monitor_and_wait_drill(&mut self) {
        self.ready_waiting_fans();
        self.let_the_wait_run();
        let index = self.some_channel();
        let others = self.channel(index).config & !MONITOR_ONLY;
        self.write(0x02 + index, others | MONITOR_ONLY);
        self.make(Call::Dump);
        self.jump_and_dump();
        self.write(0x02 + index, others);
        for _ in 0..self.random.between(1, 3) {
            self.jump_and_dump();
        }
    }

    /// A reset while the wait runs ends it; then the fans wait for the first time again.
    fn reset_and_wait_drill(&mut self) {
        self.ready_waiting_fans();
        self.let_the_wait_run();
        let reset = self.random.pick(&[0x40, 0xC0, 0x60, 0xFF]);
        self.write(0x00, reset);
        self.make(Call::Dump);
        if self.random.chance(1, 2) {
            self.give_all_a_target();
        }
        for _ in 0..self.random.between(2, 4) {
            self.jump_and_dump();
        }
    }

    /// FULL_SPEED low while fans wait, or a watchdog that may expire meanwhile: the wait falls on,
    /// and no fan starts until the override has ended.
    fn frozen_fans_drill(&mut self) {
        self.ready_waiting_fans();
        self.let_the_wait_run();
        if self.random.chance(1, 2) {
            self.make(Call::Pin { level: false });
            self.pass_some_of_the_wait();
            self.make(Call::Pin { level: true });
        } else {
            let code: u8 = self.random.weighted(&[(3, 1), (1, 2), (1, 3)]);
            self.write(0x00, 0x20 | code << 1);
            for _ in 0..self.random.between(1, 3) {
                let count = choices::span_to_expiry(&mut self.random, &self.state);
                self.make(Call::Ticks { count });
                self.make(Call::Dump);
                self.jump_and_dump();
            }
            self.write(0x00, 0x20);
        }
        for _ in 0..self.random.between(1, 3) {
            self.jump_and_dump();
        }
    }

    /// A fan that has failed and waits, under each of the failed-fan options; a target written anew
    /// clears its fault.
    fn failed_and_waiting_drill(&mut self) {
        self.ready_waiting_fans();
        let index = self.some_channel();
        self.fail_a_fan(index);
        self.let_the_wait_run();
        let code = self.state.start_delay_code();
        let first = self.random.below(3);
        for place in first..first + 3 {
            let option = [0, 2, 3][place as usize % 3];
            self.write(0x14, code << 5 | option << 2);
            let few = self.random.between(1, 20);
            let beyond = u32::from(self.state.wait) + few;
            let count = self.random.pick(&[1, few, beyond, beyond]);
            self.make(Call::Ticks { count });
            self.make(Call::Dump);
        }
        self.write(0x14, code << 5 | 0x04);
        self.jump_and_dump();
        self.set_some_duty(index);
        self.jump_and_dump();
    }

    /// A fan down to 0 and up again: down it needs no turn, and up it waits for one.
    fn stop_and_start_drill(&mut self) {
        self.ready_waiting_fans();
        self.let_the_wait_run();
        let index = choices::running_fan(&mut self.random, &self.state);
        for _ in 0..self.random.between(1, 2) {
            if self.random.chance(2, 3) {
                let dynamics = self.random.byte() & 0xE2 | self.random.pick(&[0x00, 0x00, 0x04]);
                self.write(0x08 + index, dynamics);
            }
            self.set_duty(index, 0);
            let channel = self.channel(index);
            let count = choices::span_of_ramp(&mut self.random, &channel).max(1);
            self.pass(count);
            self.set_some_duty(index);
            for _ in 0..self.random.between(1, 3) {
                self.jump_and_dump();
            }
        }
    }

    /// Two pulses end the spin-up of a fan that has started: those that wait are let go no sooner.
    fn turning_and_waiting_drill(&mut self) {
        self.ready_waiting_fans();
        let index = self.some_channel();
        self.set_spin_up_code(index);
        for _ in 0..self.random.between(1, 2) {
            self.let_the_wait_run();
            let channel = choices::channel_for_pulse(&mut self.random, &self.state);
            for _ in 0..2 {
                self.pulse_and_look(channel - 1);
            }
            self.make(Call::Dump);
            self.jump_and_dump();
        }
    }

    /// The wait runs out before, in or after the tick of an expiry.
    fn expiry_and_wait_drill(&mut self) {
        let state = waiting_before_expiry(&mut self.random);
        self.make(Call::Load(state));
        for _ in 0..self.random.between(1, 6) {
            self.make(Call::Ticks { count: 1 });
            self.make(Call::Dump);
        }
        self.jump_and_dump();
        self.make(Call::Read { address: 0x00 });
        for _ in 0..self.random.between(1, 2) {
            self.jump_and_dump();
        }
    }

    /// A wait above the longest makes the state not sound: every call refuses it, and gives it
    /// back. Then the same state has the longest one.
    fn too_long_wait_drill(&mut self) {
        let mut state = waiting_state(&mut self.random);
        state.wait = above(&mut self.random, LONGEST_WAIT);
        self.make(Call::Load(state));
        self.jump_and_dump();
        for _ in 0..self.random.between(1, 3) {
            self.any_call();
        }
        state.wait = LONGEST_WAIT;
        self.make(Call::Load(state));
        self.jump_and_dump();
    }

    /// A lower fan whose period is long beside a higher one that can start in any tick.
    fn overtaking_drill(&mut self) {
        let mut state = waiting_state(&mut self.random);
        let lower = self.random.below(5) as usize;
        let higher = self.random.between(lower as u32 + 1, 5) as usize;
        let slow = self.random.pick(&[5, 6, 7, 7]) << 2 | self.random.byte() & 0xE2;
        let quick = self.random.pick(&[0, 0, 1, 2]) << 2 | self.random.byte() & 0xE2;
        for (index, dynamics) in [(lower, slow), (higher, quick)] {
            let channel = &mut state.channels[index];
            channel.config &= !(MONITOR_ONLY | 0x60);
            channel.dynamics = dynamics;
            channel.ramp = 0;
            channel.spin = 0;
            channel.pulses = 0;
            channel.target = channel.target.max(1);
        }
        state.clock = state.clock.wrapping_mul(2).wrapping_add(1);
        self.make(Call::Load(state));
        for _ in 0..self.random.between(2, 5) {
            self.jump_and_dump();
        }
    }
}

// Fans that wait
impl Scenario {
    fn load_waiting_fans(&mut self) {
        let mut state = waiting_state(&mut self.random);
        let code = self.next_delay_code();
        state.options = state.options & 0x1F | code << 5;
        self.make(Call::Load(state));
    }

    /// A box whose fans all have a target from the first tick on, with the power-on delay or not.
    fn start_all_fans(&mut self) {
        let start = Call::Start(PinSet {
            watchdog: self.random.weighted(&[(5, 0), (1, 1), (1, 3)]),
            spin_up: self.random.weighted(&[(2, 0), (1, 1), (1, 2), (1, 3)]),
            target: self.random.between(1, FULL_DUTY.into()),
            frequency: self.random.byte(),
            modification: self.random.below(2),
        });
        self.make(start);
        if self.random.chance(2, 3) {
            let code = self.next_delay_code();
            self.set_delay_code(code);
        }
    }

    /// The delay codes are taken in turn.
    fn next_delay_code(&mut self) -> u8 {
        let code = self.next_delay;
        self.next_delay = (code + 1) % 8;
        code
    }

    /// Failed-fan option 1, so that no fault holds a fan.
    fn set_delay_code(&mut self, code: u8) {
        let others = self.random.byte() & 0x13;
        self.write(0x14, code << 5 | 0x04 | others);
    }

    /// Mostly those that wait already, if there are several; else those of another box, or of the
    /// one in hand.
    fn ready_waiting_fans(&mut self) {
        if choices::waiting_fans(&self.state) >= 2 && self.random.chance(4, 5) {
            return;
        }
        if self.packed.is_none() && self.random.chance(2, 3) {
            self.load_waiting_fans();
        } else {
            self.make_fans_wait();
        }
    }

    /// All fans are stopped, and some are given a target, or all of them one.
    fn make_fans_wait(&mut self) {
        self.write(0x00, STANDBY | 0x20);
        if !self.state.pin {
            self.make(Call::Pin { level: true });
        }
        let code = self.next_delay_code();
        self.set_delay_code(code);
        let waiting = self.random.between(2, 6);
        let first = self.some_channel();
        for place in first..first + waiting {
            self.set_how_it_starts(place % 6);
        }
        if self.random.chance(1, 3) {
            self.give_all_a_target();
        } else {
            for place in first..first + waiting {
                self.set_some_duty(place % 6);
            }
        }
        self.write(0x00, 0x20);
    }

    /// With a spin-up code or without one, at any rate code.
    fn set_how_it_starts(&mut self, index: u32) {
        let spin_up = self.random.pick(&[0x00, 0x00, 0x20, 0x40, 0x60]);
        let others = self.random.pick(&[0x00, TACHOMETER_ENABLED]);
        self.write(0x02 + index, spin_up | others);
        if self.random.chance(2, 3) {
            let dynamics = self.random.byte();
            self.write(0x08 + index, dynamics);
        }
    }

    /// Monitor only is judged at duty 0, and a queue of length 1 is full at once. Failed-fan option
    /// 1 lets the fan start.
    fn fail_a_fan(&mut self, index: u32) {
        let code = self.state.start_delay_code();
        let channel = index + 1;
        self.write(0x14, code << 5 | 0x04);
        self.write(0x02 + index, MONITOR_ONLY | TACHOMETER_ENABLED);
        self.make(Call::Tachometer {
            channel,
            count: 2047,
        });
        let spin_up = self.random.pick(&[0x00, 0x00, 0x20, 0x60]);
        self.write(0x02 + index, spin_up | TACHOMETER_ENABLED);
        if self.random.chance(1, 2) {
            self.write(0x08 + index, 0x40);
        }
    }

    /// By a sample of the galley, or by six words where there can be no sample.
    fn give_all_a_target(&mut self) {
        if self.packed.is_none() && self.random.chance(3, 4) {
            let byte = self.random.byte().max(1);
            let temperature = any_temperature(&mut self.random);
            self.sample_and_dump(temperature, level_tables(byte));
            return;
        }
        let word = choices::word_of_duty(&mut self.random) | 0x0080;
        for index in 0..6 {
            self.make(Call::Word {
                address: 0x40 + 2 * index,
                word,
            });
        }
    }

    /// To the next departure, if the wait does not run, and mostly some ticks more.
    fn let_the_wait_run(&mut self) {
        if start_delay(self.state.start_delay_code()) == 0 && self.random.chance(3, 4) {
            let code = self.random.between(1, 7) as u8;
            self.set_delay_code(code);
        }
        if self.state.wait == 0 {
            let count = choices::ticks_to_departure(&self.state).unwrap_or(1);
            self.make(Call::Ticks { count });
        }
        if self.random.chance(2, 3) {
            let wait = u32::from(self.state.wait);
            let count = self.random.between(0, wait.saturating_sub(1).min(300));
            self.make(Call::Ticks { count });
        }
    }

    /// Some of its ticks, all but one, all, or more; mostly with a dump after them.
    fn pass_some_of_the_wait(&mut self) {
        let wait = u32::from(self.state.wait);
        let some = self.random.between(0, wait);
        let count = self.random.weighted(&[
            (4, some),
            (2, wait.saturating_sub(1)),
            (2, wait),
            (1, wait + 1),
            (1, u32::MAX),
        ]);
        self.pass(count);
    }

    fn jump_and_dump(&mut self) {
        let count = choices::span_to_departure(&mut self.random, &self.state);
        self.make(Call::Ticks { count });
        self.make(Call::Dump);
    }

    /// A call that does not keep a fan from starting.
    fn call_between(&mut self) {
        let index = self.some_channel();
        match self.random.below(5) {
            0 => self.read_duty(index),
            1 => self.result(index),
            2 => self.some_sample(),
            3 => self.write_target(index),
            _ => self.query(),
        }
    }
}

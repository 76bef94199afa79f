//! Pulses: the drills that lead a fan into a spin-up and let it turn, and the pulses that the other
//! drills make between their own calls.

use super::{Drill, Scenario};
use crate::choices;
use crate::console::Call;
use crate::model::{PinSet, FULL_DUTY, MODIFICATION_B, MONITOR_ONLY, STANDBY, TACHOMETER_ENABLED};
use crate::states::{frozen_state, spinning_state, state_before_expiry, Freeze, FREEZES};

/// What ends a spin-up besides pulses.
#[derive(Clone, Copy)]
enum CutOff {
    LastTick,
    Standby,
    MonitorOnly,
    Reset,
}

const CUT_OFFS: [CutOff; 4] = [
    CutOff::LastTick,
    CutOff::Standby,
    CutOff::MonitorOnly,
    CutOff::Reset,
];

// The drills
impl Scenario {
    /// Pulses on a box that is loaded or started for them, or on the one in hand.
    pub(super) fn pulse_drill(&mut self) {
        match self.random.below(4) {
            0 => {
                let state = spinning_state(&mut self.random);
                self.make(Call::Load(state));
                self.crossed_pulses_drill();
            }
            1 => {
                self.start_with_spin_ups();
                self.crossed_pulses_drill();
            }
            2 => self.last_ticks_and_expiry(),
            _ => {}
        }
        for _ in 0..self.random.between(1, 2) {
            self.turning_drill();
        }
    }

    /// Boxes with frozen spin-ups, one under each of the overrides: two pulses on a channel, and what
    /// becomes of it.
    pub(super) fn frozen_boxes_drill(&mut self) {
        for freeze in FREEZES {
            let state = frozen_state(&mut self.random, freeze);
            self.make(Call::Load(state));
            let channel = choices::channel_for_pulse(&mut self.random, &self.state);
            for _ in 0..2 {
                self.pulse_under_override(channel - 1);
            }
            self.make(Call::Dump);
        }
        let index = self.some_channel();
        self.clear_overrides(index);
        self.pass(1);
        self.crossed_pulses_drill();
    }

    /// Pulses on every number beside those of the channels: nothing changes.
    pub(super) fn no_channel_drill(&mut self) {
        for channel in choices::CHANNEL_EDGES {
            self.make(Call::Pulse { channel });
        }
        self.make(Call::Dump);
    }

    /// One of the drills whose calls, but for dumps, have a kind: they can be packed.
    pub(super) fn turning_drill(&mut self) {
        let drills: [(u32, Drill); 8] = [
            (5, Scenario::first_turns_drill),
            (6, Scenario::last_tick_drill),
            (8, Scenario::cut_off_drill),
            (4, Scenario::second_spin_up_drill),
            (8, Scenario::frozen_drill),
            (3, Scenario::kept_pulse_drill),
            (3, Scenario::watched_pulses_drill),
            (2, Scenario::crossed_pulses_drill),
        ];
        let drill = self.random.weighted(&drills);
        drill(self);
    }

    /// Pulses before the tick that starts a spin-up, and a first and a second one after it.
    fn first_turns_drill(&mut self) {
        let index = self.some_channel();
        self.make_spin_up_due(index);
        for _ in 0..self.random.below(3) {
            self.pulse(index);
        }
        self.pass(1);
        if self.random.chance(1, 4) {
            let count = self.random.between(1, 40);
            self.pass(count);
        }
        self.pulse_and_look(index);
        let channel = self.channel(index);
        let count = choices::span_between_pulses(&mut self.random, &channel);
        if count > 0 {
            self.pass(count);
        }
        self.pulse_and_look(index);
        let channel = self.channel(index);
        let count = choices::span_of_ramp(&mut self.random, &channel);
        self.pass(count);
    }

    /// Pulses beside the last tick of a spin-up: before it, at it and after it.
    fn last_tick_drill(&mut self) {
        let index = self.some_channel();
        self.begin_spin_up(index);
        if self.random.chance(1, 2) {
            self.pulse(index);
        }
        let left = self.random.weighted(&[(3, 1), (2, 2), (1, 0), (1, 3)]);
        let spin = u32::from(self.channel(index).spin);
        self.pass(spin.saturating_sub(left));
        for _ in 0..self.random.between(2, 4) {
            self.pulse_and_look(index);
            if self.random.chance(1, 2) {
                self.pass(1);
            }
        }
    }

    /// A first pulse in a spin-up that is then cut off or runs out, and pulses in a new one: there
    /// the first is a first one again.
    fn cut_off_drill(&mut self) {
        let index = self.some_channel();
        self.begin_spin_up(index);
        self.pulse_and_look(index);
        self.cut_off(index);
        if self.random.chance(1, 2) {
            self.pulse(index);
        }
        self.make(Call::Dump);
        self.begin_spin_up(index);
        for _ in 0..self.random.between(1, 3) {
            self.pulse_and_look(index);
        }
    }

    /// Spin-ups as close to each other as can be: with rate code 0 a target of 0 is reached in one
    /// tick, and the next tick starts the next spin-up.
    fn second_spin_up_drill(&mut self) {
        let index = self.some_channel();
        self.make_spin_up_due(index);
        let dynamics = self.random.byte() & 0xE2;
        self.write(0x08 + index, dynamics);
        self.make(Call::Ticks { count: 1 });
        for _ in 0..self.random.between(1, 2) {
            self.pulse(index);
            if self.random.chance(1, 2) {
                self.pulse(index);
            } else {
                let spin = u32::from(self.channel(index).spin);
                self.make(Call::Ticks { count: spin });
            }
            self.set_duty(index, 0);
            self.make(Call::Ticks { count: 1 });
            self.set_some_duty(index);
            self.pass(1);
        }
        for _ in 0..self.random.between(1, 3) {
            self.pulse_and_look(index);
        }
    }

    /// A spin-up that an override freezes: pulses are counted there too and end it, and the ramp
    /// goes on when the override is gone.
    fn frozen_drill(&mut self) {
        let index = self.some_channel();
        if let Freeze::FailedFanOption(_) = FREEZES[self.next_freeze] {
            self.make_failed_fan_due(index);
            self.pass(1);
        } else {
            self.begin_spin_up(index);
        }
        if self.random.chance(1, 3) {
            self.pulse(index);
        }
        self.freeze();
        for _ in 0..self.random.between(2, 3) {
            self.pulse_under_override(index);
        }
        self.make(Call::Dump);
        self.clear_overrides(index);
        let count = self.random.between(1, 8);
        self.pass(count);
    }

    /// A first pulse, then calls that leave the spin-up and its count alone, then a second one.
    fn kept_pulse_drill(&mut self) {
        let index = self.some_channel();
        self.begin_spin_up(index);
        self.pulse(index);
        for _ in 0..self.random.between(1, 4) {
            match self.random.below(8) {
                0 => self.set_spin_up_code(index),
                1 => self.write_target(index),
                2 => self.write_byte_for(0x08 + index),
                3 => self.read_something(),
                4 => self.result(index),
                5 => self.flip_pin(),
                6 => self.some_sample(),
                _ => self.pass(1),
            }
        }
        self.make(Call::Dump);
        self.pulse_and_look(index);
    }

    /// Pulses while the watchdog counts and when it has expired: they do not feed it.
    fn watched_pulses_drill(&mut self) {
        let index = self.some_channel();
        if self.random.chance(1, 2) {
            self.make_spin_up_due(index);
        }
        let code: u8 = self.random.weighted(&[(3, 1), (1, 2), (1, 3)]);
        self.write(0x00, 0x20 | code << 1);
        for _ in 0..self.random.between(2, 4) {
            let some = self.random.between(1, 600);
            let expiry = choices::span_to_expiry(&mut self.random, &self.state);
            let count = self.random.pick(&[some, expiry, expiry]);
            self.make(Call::Ticks { count });
            self.pulse_on_some_channel();
            self.make(Call::Dump);
        }
    }

    /// Pulses on several channels in turn: the first one of a channel is no second one of another.
    fn crossed_pulses_drill(&mut self) {
        for _ in 0..self.random.between(3, 8) {
            self.pulse_on_some_channel();
            match self.random.below(6) {
                0..=1 => self.make(Call::Dump),
                2 => {
                    let channel = self.random.pick(&self.state.channels);
                    let count = choices::span_between_pulses(&mut self.random, &channel);
                    self.pass(count);
                }
                _ => {}
            }
        }
        self.make(Call::Dump);
    }
}

// Ways into a spin-up and out of it, and pulses
impl Scenario {
    /// A box whose fans mostly all start with the first tick; a pulse before it is not counted.
    fn start_with_spin_ups(&mut self) {
        let start = Call::Start(PinSet {
            watchdog: self.random.weighted(&[(3, 0), (1, 1), (1, 3)]),
            spin_up: self.random.between(1, 3),
            target: self.random.between(1, FULL_DUTY.into()),
            frequency: self.random.byte(),
            modification: self.random.weighted(&[(1, 0), (2, 1)]),
        });
        self.make(start);
        if self.random.chance(3, 4) {
            self.clear_the_wait();
        }
        if self.random.chance(1, 3) {
            self.pulse_on_some_channel();
        }
        self.pass(1);
    }

    /// Spin-ups that end beside the tick of an expiry, some of them with a pulse counted.
    fn last_ticks_and_expiry(&mut self) {
        let state = state_before_expiry(&mut self.random);
        self.make(Call::Load(state));
        if self.random.chance(1, 2) {
            self.pulse_on_some_channel();
        }
        let count = choices::span_to_expiry(&mut self.random, &self.state);
        self.make(Call::Ticks { count });
        self.make(Call::Dump);
        self.pulse_on_some_channel();
        self.make(Call::Dump);
    }

    /// Leads the channel to ramp value 0 with a spin-up code and a target above 0.
    fn make_spin_up_due(&mut self, index: u32) {
        self.clear_overrides(index);
        if self.channel(index).ramp > 0 {
            // Monitor only for a moment: the shortest way to ramp value 0.
            self.write(0x02 + index, MONITOR_ONLY);
        }
        self.set_spin_up_code(index);
        self.set_some_duty(index);
    }

    /// The same for a channel that fails before: monitor only is judged at duty 0, and a queue of
    /// length 1 is full at once. Failed-fan option 1 lets the spin-up start.
    fn make_failed_fan_due(&mut self, index: u32) {
        self.clear_overrides(index);
        self.write(0x14, 0x04);
        self.write(0x02 + index, MONITOR_ONLY | TACHOMETER_ENABLED);
        self.set_some_duty(index);
        let channel = index + 1;
        self.make(Call::Tachometer {
            channel,
            count: 2047,
        });
        self.set_spin_up_code(index);
    }

    fn begin_spin_up(&mut self, index: u32) {
        self.make_spin_up_due(index);
        self.pass(1);
    }

    /// Pulses ask for no tachometer enabled: it is set or not.
    pub(super) fn set_spin_up_code(&mut self, index: u32) {
        let code: u8 = self.random.weighted(&[(2, 1), (1, 2), (1, 3)]);
        let others = self
            .random
            .pick(&[0x00, TACHOMETER_ENABLED, TACHOMETER_ENABLED | 0x02]);
        self.write(0x02 + index, others | code << 5);
    }

    /// A target above 0.
    pub(super) fn set_some_duty(&mut self, index: u32) {
        let any = self.random.between(1, FULL_DUTY.into()) as u16;
        let duty = self.random.pick(&[1, 200, FULL_DUTY, any, any]);
        self.set_duty(index, duty);
    }

    /// The watchdog expires while a spin-up has ticks left: FULL_SPEED low holds the spin-up as long
    /// as the idle count grows.
    fn expire_over_spin_up(&mut self) {
        self.write(0x00, 0x22);
        let last = self.random.between(1, 4);
        self.make(Call::Pin { level: false });
        self.make(Call::Ticks { count: 2560 - last });
        self.make(Call::Pin { level: true });
        self.pass(last);
    }

    /// By the next of the ways. Under A, where pulses show nothing of it, the same one comes again.
    fn freeze(&mut self) {
        let way = FREEZES[self.next_freeze];
        if self.state.modification == MODIFICATION_B {
            self.next_freeze = (self.next_freeze + 1) % FREEZES.len();
        }
        match way {
            Freeze::FailedFanOption(option) => {
                let others = self.random.byte() & 0xE3;
                self.write(0x14, option << 2 | others);
            }
            Freeze::Expiry => self.expire_over_spin_up(),
            Freeze::FullSpeed => self.make(Call::Pin { level: false }),
        }
    }

    /// By the next of the ways, as `freeze` does it.
    fn cut_off(&mut self, index: u32) {
        let way = CUT_OFFS[self.next_cut_off];
        if self.state.modification == MODIFICATION_B {
            self.next_cut_off = (self.next_cut_off + 1) % CUT_OFFS.len();
        }
        match way {
            CutOff::LastTick => {
                let spin = u32::from(self.channel(index).spin);
                self.pass(spin);
            }
            CutOff::Standby => {
                let others = self.random.pick(&[0x00, 0x20, 0x26]);
                self.write(0x00, STANDBY | others);
            }
            CutOff::MonitorOnly => self.write(0x02 + index, MONITOR_ONLY | 0x28),
            CutOff::Reset => {
                let reset = self.random.pick(&[0x40, 0xC0, 0x60, 0xFF]);
                self.write(0x00, reset);
            }
        }
    }

    pub(super) fn pulse(&mut self, index: u32) {
        let channel = index + 1;
        self.make(Call::Pulse { channel });
    }

    /// A pulse, and mostly something that shows what it did.
    pub(super) fn pulse_and_look(&mut self, index: u32) {
        self.pulse(index);
        match self.random.below(8) {
            0..=3 => self.make(Call::Dump),
            4 => self.read_duty(index),
            5 => self.pass(1),
            6 => self.result(index),
            _ => {}
        }
    }

    /// No access to the bus here, which would end an expiry. A result is judged where no spin-up
    /// time remains.
    fn pulse_under_override(&mut self, index: u32) {
        self.pulse(index);
        match self.random.below(8) {
            0..=2 => self.make(Call::Dump),
            3 => self.result(index),
            4 => self.pass(1),
            _ => {}
        }
    }

    fn pulse_on_some_channel(&mut self) {
        let channel = choices::channel_for_pulse(&mut self.random, &self.state);
        self.make(Call::Pulse { channel });
    }

    /// On some channel, or on one that does not exist; for every second one the state after it.
    pub(super) fn pulse_somewhere(&mut self) {
        let some = choices::channel_for_pulse(&mut self.random, &self.state);
        let none = choices::no_channel(&mut self.random);
        let channel = self.random.weighted(&[(3, some), (1, none)]);
        self.make(Call::Pulse { channel });
        if self.random.chance(1, 2) {
            self.make(Call::Dump);
        }
    }
}

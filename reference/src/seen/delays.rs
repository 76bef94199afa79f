//! What a scenario has met of the start delay and the shared wait: counted so that one can see that
//! it covers the request that brought them.

use std::fmt;

use crate::model::{
    at_rest, deciding_line, moved, sound, start_delay, tick, Channel, Line, State, CHANNELS,
    LONGEST_WAIT, MONITOR_ONLY, RESET, STANDBY,
};

#[derive(Default)]
pub struct SeenDelays {
    /// Loads of sound states with no wait, of sound ones with a wait, and of ones with more than
    /// there can be.
    pub loads: [usize; 3],
    /// Galley samples that gave several fans at ramp value 0 a target.
    pub samples: usize,
    // From here on, what single calls did and what the records did that runs took.
    pub departures: SeenDepartures,
    pub held: SeenHeld,
    pub wait: SeenWait,
}

/// Channels that left ramp value 0.
#[derive(Default)]
pub struct SeenDepartures {
    /// By the start of a spin-up, by a move at rate code 0, by a step.
    pub kinds: [usize; 3],
    /// By the delay code that set the wait.
    pub codes: [usize; 8],
    /// In the tick in which the wait came to 0.
    pub at_once: usize,
    /// Past a lower channel that had no step in this tick.
    pub overtaking: usize,
    /// With a higher channel held back in the same tick.
    pub ahead: usize,
    /// Of a fan that ticks had led down to 0 before.
    pub again: usize,
    /// Ticks in which several left.
    pub together: usize,
    /// Jumps that ended one tick before a departure, with one, and one tick after it.
    pub ends: [usize; 3],
    /// Channels that ticks have led down to 0 since the last start or load.
    fallen: [bool; CHANNELS],
}

/// Channels that the wait held back.
#[derive(Default)]
pub struct SeenHeld {
    /// In a jump: at the start of a spin-up, at a move at rate code 0, at a step.
    pub kinds: [usize; 3],
    /// Jumps, by the most channels that were held back in one tick, from 1 to 6.
    pub together: [usize; CHANNELS],
    /// Jumps that held some back though the delay code was 0.
    pub without_delay: usize,
}

/// What became of the wait while it ran.
#[derive(Default)]
pub struct SeenWait {
    /// Jumps in which it fell under FULL_SPEED low, standby, watchdog expired, failed-fan options
    /// 0, 2 and 3.
    pub fell_under: [usize; 6],
    /// Ticks of an expiry in which it fell, and those in which it came to 0 with a fan to start.
    pub fell_in_expiry: [usize; 2],
    /// Bytes to 14h with a longer delay, with a shorter one, with none.
    pub codes_changed: [usize; 3],
    /// Kept by standby entered, by standby left, by monitor only.
    pub kept: [usize; 3],
    pub resets: usize,
    /// Spin-ups that the second pulse ended while another fan stood at 0 with a target.
    pub turned: usize,
}

impl SeenDelays {
    pub fn note_start(&mut self) {
        self.departures.fallen = Default::default();
    }

    pub fn note_load(&mut self, state: &State) {
        let kind = match (sound(state), state.wait) {
            (true, 0) => Some(0),
            (true, _) => Some(1),
            (false, wait) => (wait > LONGEST_WAIT).then_some(2),
        };
        if let Some(place) = kind {
            self.loads[place] += 1;
        }
        self.note_start();
    }

    pub fn note_sample(&mut self, before: &State, after: &State) {
        self.samples += usize::from(standing(after) >= standing(before) + 2);
    }

    /// The jump again, tick by tick, as long as the wait runs or a fan can start.
    pub fn note_ticks(&mut self, before: &State, count: u32, after: &State) {
        let mut state = *before;
        let mut jump = Jump::default();
        for number in 1..=count {
            if at_rest(&state) || state.wait == 0 && standing(&state) == 0 {
                break;
            }
            let earlier = state;
            tick(&mut state);
            if self.departures.note(&earlier, &state) {
                jump.last_departure = Some(number);
            }
            self.held.note_tick(&earlier, &state, &mut jump);
            self.wait.note_tick(&earlier, &state);
        }
        self.held.note_jump(before, &jump);
        if count > 0 {
            self.departures.note_end(count, jump.last_departure, after);
            self.wait.note_jump(before);
        }
        self.departures.note_falls(before, after);
    }

    /// An accepted byte write.
    pub fn note_write(&mut self, address: u32, byte: u8, before: &State, after: &State) {
        if before.wait > 0 {
            self.wait.note_write(address, byte, before, after);
        }
    }

    pub fn note_pulse(&mut self, index: usize, before: &State, after: &State) {
        let ended = before.channels[index].spin > 0 && after.channels[index].spin == 0;
        self.wait.turned += usize::from(ended && before.wait > 0 && standing(before) > 0);
    }
}

/// What one jump has met.
#[derive(Default)]
struct Jump {
    last_departure: Option<u32>,
    /// The channels that were held back in it, and what they would have done.
    held: [Option<usize>; CHANNELS],
    most_held: usize,
}

/// How many fans stand at ramp value 0 and have a target.
fn standing(state: &State) -> usize {
    let stands = |channel: &&Channel| channel.ramp == 0 && channel.target > 0;
    state.channels.iter().filter(stands).count()
}

/// How a channel leaves ramp value 0.
fn kind_of_departure(channel: &Channel) -> usize {
    match channel.rate_code() {
        _ if channel.spin_up_due() => 0,
        0 => 1,
        _ => 2,
    }
}

/// The states are those before and after one tick.
fn left(before: &State, after: &State, index: usize) -> bool {
    before.channels[index].ramp == 0 && after.channels[index].ramp > 0
}

fn held_back(before: &State, after: &State, index: usize) -> bool {
    let (old, new) = (&before.channels[index], &after.channels[index]);
    old.ramp == 0
        && new.ramp == 0
        && !deciding_line(after, index).is_override()
        && moved(old, after.clock).ramp > 0
}

impl SeenDepartures {
    /// Gives whether there was one in this tick.
    fn note(&mut self, before: &State, after: &State) -> bool {
        let mut leaving = 0;
        for index in 0..CHANNELS {
            if left(before, after, index) {
                leaving += 1;
                self.note_one(before, after, index);
            }
        }
        self.together += usize::from(leaving > 1);
        leaving > 0
    }

    fn note_one(&mut self, before: &State, after: &State, index: usize) {
        let no_step = |lower: usize| {
            let channel = &before.channels[lower];
            let wants = channel.ramp == 0 && channel.target > 0;
            let free = !deciding_line(after, lower).is_override();
            wants && free && moved(channel, after.clock).ramp == 0
        };
        let held = |higher: usize| held_back(before, after, higher);
        self.kinds[kind_of_departure(&before.channels[index])] += 1;
        self.codes[usize::from(after.start_delay_code())] += 1;
        self.at_once += usize::from(before.wait == 1);
        self.overtaking += usize::from((0..index).any(no_step));
        self.ahead += usize::from((index + 1..CHANNELS).any(held));
        self.again += usize::from(self.fallen[index]);
        self.fallen[index] = false;
    }

    fn note_end(&mut self, count: u32, last: Option<u32>, after: &State) {
        let mut later = *after;
        tick(&mut later);
        let next = (0..CHANNELS).any(|index| left(after, &later, index));
        self.ends[0] += usize::from(next);
        self.ends[1] += usize::from(last == Some(count));
        self.ends[2] += usize::from(last == Some(count - 1));
    }

    fn note_falls(&mut self, before: &State, after: &State) {
        for index in 0..CHANNELS {
            if before.channels[index].ramp > 0 && after.channels[index].ramp == 0 {
                self.fallen[index] = true;
            }
        }
    }
}

impl SeenHeld {
    fn note_tick(&mut self, before: &State, after: &State, jump: &mut Jump) {
        let mut held = 0;
        for index in 0..CHANNELS {
            if held_back(before, after, index) {
                held += 1;
                jump.held[index] = Some(kind_of_departure(&before.channels[index]));
            }
        }
        jump.most_held = jump.most_held.max(held);
    }

    fn note_jump(&mut self, before: &State, jump: &Jump) {
        for &kind in jump.held.iter().flatten() {
            self.kinds[kind] += 1;
        }
        if jump.most_held > 0 {
            let delay = start_delay(before.start_delay_code());
            self.together[jump.most_held - 1] += 1;
            self.without_delay += usize::from(delay == 0);
        }
    }
}

impl SeenWait {
    fn note_tick(&mut self, before: &State, after: &State) {
        if before.wait > 0 && after.expired && !before.expired {
            let held = |index: usize| {
                let channel = &before.channels[index];
                let frozen = deciding_line(after, index) == Line::WatchdogExpired;
                frozen && channel.ramp == 0 && moved(channel, after.clock).ramp > 0
            };
            let due = before.wait == 1 && (0..CHANNELS).any(held);
            self.fell_in_expiry[0] += 1;
            self.fell_in_expiry[1] += usize::from(due);
        }
    }

    fn note_jump(&mut self, before: &State) {
        if before.wait == 0 {
            return;
        }
        let lines: Vec<Line> = (0..CHANNELS)
            .map(|index| deciding_line(before, index))
            .collect();
        let failed = |option: u8| {
            let by_option = |line: &Line| matches!(line, Line::FailedFan(_));
            before.failed_fan_option() == option && lines.iter().any(by_option)
        };
        let met = [
            lines.contains(&Line::FullSpeed),
            lines.contains(&Line::Standby),
            lines.contains(&Line::WatchdogExpired),
            failed(0),
            failed(2),
            failed(3),
        ];
        for (times, met) in self.fell_under.iter_mut().zip(met) {
            *times += usize::from(met);
        }
    }

    /// The wait ran before it.
    fn note_write(&mut self, address: u32, byte: u8, before: &State, after: &State) {
        let (old, new) = (before.start_delay_code(), after.start_delay_code());
        match address {
            0x00 if byte & RESET != 0 => self.resets += 1,
            0x00 if byte & STANDBY != 0 => self.kept[0] += 1,
            0x00 if before.standby() => self.kept[1] += 1,
            0x02..=0x07 if byte & MONITOR_ONLY != 0 => self.kept[2] += 1,
            0x14 if start_delay(new) > start_delay(old) => self.codes_changed[0] += 1,
            0x14 if start_delay(new) == start_delay(old) => {}
            0x14 if start_delay(new) > 0 => self.codes_changed[1] += 1,
            0x14 => self.codes_changed[2] += 1,
            _ => {}
        }
    }
}

impl fmt::Display for SeenDelays {
    fn fmt(&self, out: &mut fmt::Formatter) -> fmt::Result {
        let [none, some, flawed] = self.loads;
        writeln!(
            out,
            "  loads of sound states with no wait: {none}, with one: {some}, with too long a one: {flawed}"
        )?;
        let samples = self.samples;
        writeln!(
            out,
            "  samples that gave several standing fans a target: {samples}"
        )?;
        write!(out, "{}{}{}", self.departures, self.held, self.wait)
    }
}

impl fmt::Display for SeenDepartures {
    fn fmt(&self, out: &mut fmt::Formatter) -> fmt::Result {
        let [spin_up, at_once, step] = self.kinds;
        writeln!(
            out,
            "  fans started by a spin-up: {spin_up}, at rate code 0: {at_once}, by a step: {step}"
        )?;
        for (code, times) in self.codes.iter().enumerate() {
            writeln!(out, "  fans started under delay code {code}: {times}")?;
        }
        let (due, again, several) = (self.at_once, self.again, self.together);
        writeln!(
            out,
            "  fans started when the wait came to 0: {due}, after a fall to 0: {again}"
        )?;
        let (past, ahead) = (self.overtaking, self.ahead);
        writeln!(
            out,
            "  fans started past a lower one that had no step: {past}, ahead of a higher one: {ahead}"
        )?;
        writeln!(out, "  ticks in which several fans started: {several}")?;
        let [before, with, after] = self.ends;
        writeln!(
            out,
            "  jumps that ended a tick before a start: {before}, with it: {with}, a tick after: {after}"
        )
    }
}

impl fmt::Display for SeenHeld {
    fn fmt(&self, out: &mut fmt::Formatter) -> fmt::Result {
        let [spin_up, at_once, step] = self.kinds;
        writeln!(
            out,
            "  fans held back from a spin-up: {spin_up}, at rate code 0: {at_once}, from a step: {step}"
        )?;
        for (fans, times) in (1..).zip(self.together) {
            writeln!(out, "  jumps with {fans} held back in one tick: {times}")?;
        }
        let without = self.without_delay;
        writeln!(out, "  jumps with some held back under code 0: {without}")
    }
}

impl fmt::Display for SeenWait {
    fn fmt(&self, out: &mut fmt::Formatter) -> fmt::Result {
        let [low, standby, expired, zero, two, three] = self.fell_under;
        writeln!(
            out,
            "  waits that fell under FULL_SPEED low: {low}, standby: {standby}, expiry: {expired}"
        )?;
        writeln!(
            out,
            "  waits that fell under failed-fan option 0: {zero}, 2: {two}, 3: {three}"
        )?;
        let [fell, due] = self.fell_in_expiry;
        writeln!(
            out,
            "  waits that fell in the tick of an expiry: {fell}, to 0 with a fan to start: {due}"
        )?;
        let [longer, shorter, none] = self.codes_changed;
        writeln!(
            out,
            "  delays changed while the wait ran to longer: {longer}, shorter: {shorter}, none: {none}"
        )?;
        let ([entered, left, monitor], resets) = (self.kept, self.resets);
        writeln!(
            out,
            "  waits kept by standby entered: {entered}, left: {left}, by monitor only: {monitor}, ended by reset: {resets}"
        )?;
        let turned = self.turned;
        writeln!(
            out,
            "  spin-ups ended by pulses while the wait held fans: {turned}"
        )
    }
}

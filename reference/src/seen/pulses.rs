//! What a scenario has met of pulses and of the two modifications: counted so that one can see that
//! it covers the request that brought them.

use std::collections::BTreeMap;
use std::fmt;

use crate::choices::CHANNEL_EDGES;
use crate::model::{
    deciding_line, spin_up_ticks, Channel, Line, PinSet, State, ACCEPTED, CHANNELS, FULL_DUTY,
    MODIFICATION_A, MODIFICATION_B, MONITOR_ONLY, NO_SUCH_CHANNEL, RESET, STANDBY,
};

#[derive(Default)]
pub struct SeenPulses {
    /// Starts accepted under A and under B, and those refused that had another modification.
    pub starts: [usize; 3],
    /// Refused for the modification alone.
    pub starts_of_no_modification: usize,
    /// Loads of sound states under A, and under B.
    pub loads: [usize; 2],
    /// Single calls; the others are records that runs took.
    pub lines: usize,
    /// Single calls that were refused, by refusal number.
    pub refused: BTreeMap<u32, usize>,
    /// Single calls refused with 5 at each of the edges.
    pub edges: [usize; CHANNEL_EDGES.len()],
    /// Accepted under A, and under B.
    pub accepted: [usize; 2],
    /// Accepted under A while a spin-up ran.
    pub without_effect: usize,
    /// Accepted while the watchdog was expired.
    pub expiries_kept: usize,
    /// Accepted while the watchdog was counting and its idle count above 0.
    pub idle_counts_kept: usize,
    // From here on, what pulses met and did under B.
    pub still: SeenStill,
    pub turning: SeenTurning,
    /// Spin-ups that ended with a pulse counted, by their last tick, standby, monitor only, reset.
    pub dropped: [usize; 4],
    pasts: [Past; CHANNELS],
}

/// Pulses with no spin-up running.
#[derive(Default)]
pub struct SeenStill {
    pub times: usize,
    /// The next tick starts one, if no override is in force.
    pub due: usize,
    /// The ramp value is at 511, as it is just after a spin-up.
    pub at_full_duty: usize,
    pub in_standby: usize,
    pub in_monitor_only: usize,
}

/// Pulses within a running spin-up.
#[derive(Default)]
pub struct SeenTurning {
    /// First ones.
    pub counted: usize,
    /// Second ones, each of which ends a spin-up.
    pub ended: usize,
    /// Ended by so many ticks that were left: one, all that are coded.
    pub ended_early: [usize; 2],
    /// Ended by the ticks since the first pulse: none, one, more.
    pub gaps: [usize; 3],
    /// Ended under FULL_SPEED low, watchdog expired, failed-fan options 0, 2 and 3.
    pub ended_under: [usize; 5],
    /// With tachometer enabled clear, and set.
    pub enabled: [usize; 2],
    /// Counted in a spin-up after one that ended with a pulse counted, and after one that the
    /// second pulse ended.
    pub counted_anew: [usize; 2],
}

/// What a channel's pulses have done since the last start or load.
#[derive(Clone, Copy, Default)]
struct Past {
    /// The clock at the pulse that is counted.
    counted_at: Option<u32>,
    last_end: Option<End>,
}

#[derive(Clone, Copy)]
enum End {
    WithPulseCounted,
    BySecondPulse,
}

const LAST_TICK: usize = 0;
const BY_STANDBY: usize = 1;
const BY_MONITOR_ONLY: usize = 2;
const BY_RESET: usize = 3;

impl SeenPulses {
    pub fn note_start(&mut self, values: &PinSet, refusal: u32) {
        let modifications = [MODIFICATION_A, MODIFICATION_B].map(u32::from);
        let named = modifications.iter().position(|&m| m == values.modification);
        match named {
            Some(place) => self.starts[place] += usize::from(refusal == ACCEPTED),
            None => {
                self.starts[2] += 1;
                let others_in_range =
                    values.watchdog <= 3 && values.spin_up <= 3 && values.target <= 511;
                self.starts_of_no_modification += usize::from(others_in_range);
            }
        }
        self.pasts = Default::default();
    }

    pub fn note_load(&mut self, state: &State, sound: bool) {
        if sound {
            self.loads[usize::from(state.modification)] += 1;
        }
        self.pasts = Default::default();
    }

    pub fn note_refused(&mut self, channel: u32, refusal: u32) {
        *self.refused.entry(refusal).or_default() += 1;
        for (edge, times) in CHANNEL_EDGES.iter().zip(&mut self.edges) {
            *times += usize::from(refusal == NO_SUCH_CHANNEL && channel == *edge);
        }
    }

    pub fn note_accepted(&mut self, index: usize, before: &State, after: &State) {
        let running = before.channels[index].spin > 0;
        self.accepted[usize::from(before.modification)] += 1;
        self.expiries_kept += usize::from(before.expired);
        self.idle_counts_kept += usize::from(before.idle > 0 && !before.expired);
        match (before.modification, running) {
            (MODIFICATION_A, true) => self.without_effect += 1,
            (MODIFICATION_A, false) => {}
            (_, true) => self
                .turning
                .note(index, before, after, &mut self.pasts[index]),
            (_, false) => self.still.note(index, before),
        }
    }

    /// An accepted byte write.
    pub fn note_write(&mut self, address: u32, byte: u8, before: &State, after: &State) {
        let way = match address {
            0x00 if byte & RESET != 0 => BY_RESET,
            0x00 if byte & STANDBY != 0 => BY_STANDBY,
            0x02..=0x07 if byte & MONITOR_ONLY != 0 => BY_MONITOR_ONLY,
            _ => return,
        };
        self.note_dropped(way, before, after);
    }

    pub fn note_ticks(&mut self, before: &State, after: &State) {
        self.note_dropped(LAST_TICK, before, after);
    }

    fn note_dropped(&mut self, way: usize, before: &State, after: &State) {
        for index in 0..CHANNELS {
            if before.channels[index].pulses > after.channels[index].pulses {
                self.dropped[way] += 1;
                self.pasts[index].last_end = Some(End::WithPulseCounted);
            }
        }
    }
}

impl SeenStill {
    fn note(&mut self, index: usize, state: &State) {
        let channel = &state.channels[index];
        self.times += 1;
        self.due += usize::from(channel.spin_up_due());
        self.at_full_duty += usize::from(channel.ramp == FULL_DUTY);
        self.in_standby += usize::from(state.standby());
        self.in_monitor_only += usize::from(channel.monitor_only());
    }
}

impl SeenTurning {
    fn note(&mut self, index: usize, before: &State, after: &State, past: &mut Past) {
        let channel = &before.channels[index];
        self.enabled[usize::from(channel.tachometer_enabled())] += 1;
        if after.channels[index].spin > 0 {
            self.note_first(before.clock, past);
        } else {
            self.note_second(channel, before.clock, past);
            if let Some(place) = place_of_override(before, index) {
                self.ended_under[place] += 1;
            }
        }
    }

    fn note_first(&mut self, clock: u32, past: &mut Past) {
        self.counted += 1;
        match past.last_end {
            Some(End::WithPulseCounted) => self.counted_anew[0] += 1,
            Some(End::BySecondPulse) => self.counted_anew[1] += 1,
            None => {}
        }
        past.counted_at = Some(clock);
        past.last_end = None;
    }

    /// A first pulse that was loaded has no clock, and so no gap after it.
    fn note_second(&mut self, channel: &Channel, clock: u32, past: &mut Past) {
        let coded = spin_up_ticks(channel.spin_up_code());
        self.ended += 1;
        self.ended_early[0] += usize::from(channel.spin == 1);
        self.ended_early[1] += usize::from(channel.spin == coded);
        if let Some(first) = past.counted_at {
            let ticks = clock.wrapping_sub(first);
            self.gaps[ticks.min(2) as usize] += 1;
        }
        past.counted_at = None;
        past.last_end = Some(End::BySecondPulse);
    }
}

/// Of the overrides under which a spin-up can have ticks left.
fn place_of_override(state: &State, index: usize) -> Option<usize> {
    match deciding_line(state, index) {
        Line::FullSpeed => Some(0),
        Line::WatchdogExpired => Some(1),
        Line::FailedFan(_) => match state.failed_fan_option() {
            0 => Some(2),
            2 => Some(3),
            _ => Some(4),
        },
        _ => None,
    }
}

impl fmt::Display for SeenPulses {
    fn fmt(&self, out: &mut fmt::Formatter) -> fmt::Result {
        let [of_a, of_b, of_none] = self.starts;
        let alone = self.starts_of_no_modification;
        writeln!(
            out,
            "  starts under A: {of_a}, B: {of_b}, refused with another: {of_none}, for it alone: {alone}"
        )?;
        let [of_a, of_b] = self.loads;
        writeln!(out, "  loads of sound states under A: {of_a}, B: {of_b}")?;
        writeln!(out, "  pulse lines: {}", self.lines)?;
        for (number, times) in &self.refused {
            writeln!(out, "  pulses refused with {number}: {times}")?;
        }
        for (edge, times) in CHANNEL_EDGES.iter().zip(self.edges) {
            writeln!(out, "  pulses refused on channel {edge}: {times}")?;
        }
        self.show_accepted(out)
    }
}

impl SeenPulses {
    fn show_accepted(&self, out: &mut fmt::Formatter) -> fmt::Result {
        let ([of_a, of_b], running) = (self.accepted, self.without_effect);
        writeln!(
            out,
            "  pulses accepted under A: {of_a}, with a spin-up running: {running}, under B: {of_b}"
        )?;
        let (expired, counting) = (self.expiries_kept, self.idle_counts_kept);
        writeln!(
            out,
            "  pulses while the watchdog was expired: {expired}, while it counted: {counting}"
        )?;
        write!(out, "{}{}", self.turning, self.still)?;
        let [last, standby, monitor, reset] = self.dropped;
        writeln!(
            out,
            "  spin-ups ended with a pulse counted by the last tick: {last}, standby: {standby}, monitor only: {monitor}, reset: {reset}"
        )
    }
}

impl fmt::Display for SeenTurning {
    fn fmt(&self, out: &mut fmt::Formatter) -> fmt::Result {
        writeln!(out, "  first pulses counted: {}", self.counted)?;
        let [dropped, ended] = self.counted_anew;
        writeln!(
            out,
            "  first pulses after a spin-up that dropped one: {dropped}, after one that a second ended: {ended}"
        )?;
        let (ended, [last, whole]) = (self.ended, self.ended_early);
        writeln!(
            out,
            "  spin-ups ended by the second pulse: {ended}, with 1 tick left: {last}, with all left: {whole}"
        )?;
        let [none, one, more] = self.gaps;
        writeln!(
            out,
            "  second pulses in the tick of the first: {none}, one tick later: {one}, more: {more}"
        )?;
        let [low, expired, zero, two, three] = self.ended_under;
        writeln!(
            out,
            "  spin-ups ended by pulses under FULL_SPEED low: {low}, expiry: {expired}, failed-fan option 0: {zero}, 2: {two}, 3: {three}"
        )?;
        let [clear, set] = self.enabled;
        writeln!(
            out,
            "  pulses within a spin-up with tachometer enabled clear: {clear}, set: {set}"
        )
    }
}

impl fmt::Display for SeenStill {
    fn fmt(&self, out: &mut fmt::Formatter) -> fmt::Result {
        let (times, due, full) = (self.times, self.due, self.at_full_duty);
        writeln!(
            out,
            "  pulses with no spin-up running: {times}, with one due: {due}, at ramp value 511: {full}"
        )?;
        let (standby, monitor) = (self.in_standby, self.in_monitor_only);
        writeln!(
            out,
            "  pulses in standby: {standby}, in monitor only: {monitor}"
        )
    }
}

//! What a scenario has met of word writes: counted so that one can see that it covers the request
//! that brought them.

use std::collections::{BTreeMap, BTreeSet};
use std::fmt;

use super::gained;
use crate::choices::WORD_EDGES;
use crate::model::{deciding_line, Line, State, BYTE_OR_WORD, CHANNELS, NOT_SOUND};

#[derive(Default)]
pub struct SeenWords {
    /// Single calls; the others are records that runs took.
    pub lines: usize,
    /// Accepted at a target duty, and at a target count.
    pub duties: usize,
    pub counts: usize,
    /// Single calls that were refused, by refusal number.
    pub refused: BTreeMap<u32, usize>,
    /// Byte writes that were refused with 8.
    pub bytes_refused: usize,
    /// The addresses at which words were accepted.
    pub targets: BTreeSet<u32>,
    /// Accepted ones at each of the edges.
    pub edges: [usize; WORD_EDGES.len()],
    /// Accepted ones with a bit set that the target has no place for.
    pub bits_dropped: usize,
    pub faults_cleared: usize,
    /// Queue counts above 0 that became 0.
    pub queues_cleared: usize,
    /// Target counts written to a channel whose fault bit was set.
    pub faults_kept: usize,
    pub expiries_ended: usize,
    /// Refused for the address while the watchdog was expired.
    pub expiries_kept: usize,
    /// Refused for the address while the watchdog was counting and its idle count above 0.
    pub idle_counts_kept: usize,
    /// Running fans with rate code 0 and a spin-up code that went down to a duty above 0, and
    /// those of them that went to duty 1.
    pub falls: usize,
    pub falls_to_one: usize,
}

impl SeenWords {
    pub fn note_accepted(&mut self, address: u32, word: u16, before: &State, after: &State) {
        let is_duty = address < 0x50;
        let index = (address as usize & 0x0F) / 2;
        let dropped = if is_duty { word & 0x7F } else { word & 0x1F };
        self.duties += usize::from(is_duty);
        self.counts += usize::from(!is_duty);
        self.targets.insert(address);
        for (edge, times) in WORD_EDGES.iter().zip(&mut self.edges) {
            *times += usize::from(word == *edge);
        }
        self.bits_dropped += usize::from(dropped != 0);
        self.faults_cleared += gained(after.faults, before.faults);
        let queues = (before.channels[index].queue, after.channels[index].queue);
        self.queues_cleared += usize::from(queues.0 > 0 && queues.1 == 0);
        self.faults_kept += usize::from(!is_duty && after.fault(index));
        self.expiries_ended += usize::from(before.expired);
    }

    pub fn note_refused(&mut self, refusal: u32, state: &State) {
        *self.refused.entry(refusal).or_default() += 1;
        if refusal != NOT_SOUND {
            self.expiries_kept += usize::from(state.expired);
            self.idle_counts_kept += usize::from(state.idle > 0 && !state.expired);
        }
    }

    pub fn note_refused_byte(&mut self, refusal: u32) {
        self.bytes_refused += usize::from(refusal == BYTE_OR_WORD);
    }

    pub fn note_ticks(&mut self, before: &State, after: &State) {
        for index in 0..CHANNELS {
            let (old, new) = (&before.channels[index], &after.channels[index]);
            let at_once = old.rate_code() == 0 && old.spin_up_code() != 0;
            let ramps = deciding_line(before, index) == Line::Ramp;
            let fell = at_once && ramps && new.ramp > 0 && new.ramp < old.ramp;
            self.falls += usize::from(fell);
            self.falls_to_one += usize::from(fell && new.ramp == 1);
        }
    }
}

impl fmt::Display for SeenWords {
    fn fmt(&self, out: &mut fmt::Formatter) -> fmt::Result {
        writeln!(out, "  word lines: {}", self.lines)?;
        let (duties, counts) = (self.duties, self.counts);
        writeln!(
            out,
            "  words accepted at a duty: {duties}, at a count: {counts}"
        )?;
        for (number, times) in &self.refused {
            writeln!(out, "  words refused with {number}: {times}")?;
        }
        writeln!(out, "  bytes refused with 8: {}", self.bytes_refused)?;
        let (met, targets) = (self.targets.len(), 2 * CHANNELS);
        writeln!(
            out,
            "  targets that words were written to: {met} of {targets}"
        )?;
        for (edge, times) in WORD_EDGES.iter().zip(self.edges) {
            writeln!(out, "  words of {edge:04X}h accepted: {times}")?;
        }
        self.show_effects(out)
    }
}

impl SeenWords {
    /// What the accepted ones did, and what the refused ones left.
    fn show_effects(&self, out: &mut fmt::Formatter) -> fmt::Result {
        writeln!(out, "  words with bits dropped: {}", self.bits_dropped)?;
        let (faults, queues) = (self.faults_cleared, self.queues_cleared);
        writeln!(
            out,
            "  faults cleared by words: {faults}, queue counts: {queues}"
        )?;
        writeln!(
            out,
            "  faults kept under a word to a count: {}",
            self.faults_kept
        )?;
        let (ended, kept) = (self.expiries_ended, self.expiries_kept);
        writeln!(
            out,
            "  expiries ended by words: {ended}, left by refused ones: {kept}"
        )?;
        let idle = self.idle_counts_kept;
        writeln!(out, "  words refused while the watchdog counted: {idle}")?;
        let (falls, to_one) = (self.falls, self.falls_to_one);
        writeln!(
            out,
            "  falls at rate code 0 with a spin-up code: {falls}, to duty 1: {to_one}"
        )
    }
}

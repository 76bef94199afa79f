//! What a scenario has met of the galley: counted so that one can see that it covers the request
//! and the facts that the paper keeps for it.

use std::collections::BTreeMap;
use std::fmt;

use super::gained;
use crate::console::GalleyCall;
use crate::galley::{self, Galley, Sample, Tables, HIGHEST, ROWS, UPPER_LIMITS};
use crate::model::{self, State, ACCEPTED, CHANNELS};

#[derive(Default)]
pub struct SeenGalley {
    pub calls: usize,
    /// By the call's word and refusal number, 0 for accepted; dumps and loads are not counted here.
    pub answers: BTreeMap<(&'static str, u32), usize>,
    pub dumps: usize,
    pub sound_loads: usize,
    pub flawed_loads: usize,
    pub readings_below_zero: usize,
    /// Samples refused for the galley state, for the controller's and for both.
    pub not_sound: [usize; 3],
    /// Samples with more than one reason to be refused.
    pub several_reasons: usize,
    // From here on, what accepted samples did.
    pub rows: SeenRows,
    pub pins: SeenPins,
    pub writes: SeenWrites,
}

/// What became of the row.
#[derive(Default)]
pub struct SeenRows {
    pub rose: usize,
    pub stayed: usize,
    pub fell: usize,
    /// Left above the sample's own row by the hysteresis of 2 degrees, and by that of 4.
    pub held: [usize; 2],
    /// These fell, and yet not to the sample's own row.
    pub fell_and_held: usize,
    /// T + h is above every temperature.
    pub above_the_range: usize,
    /// How often a sample led to each row.
    pub rows: BTreeMap<u8, usize>,
    pub temperatures: BTreeMap<i32, usize>,
}

/// ALERT and SHDN.
#[derive(Default)]
pub struct SeenPins {
    /// Not asserted, asserted.
    pub alerts: [usize; 2],
    pub shutdowns: [usize; 2],
    /// At the threshold, and one eighth above it.
    pub beside_high: [usize; 2],
    pub beside_over: [usize; 2],
}

/// What became of the controller.
#[derive(Default)]
pub struct SeenWrites {
    /// By how many targets differed.
    pub differing: [usize; CHANNELS + 1],
    /// The normal table in force, the quiet one.
    pub tables: [usize; 2],
    /// The two tables differ in the row that was looked up.
    pub tables_told_apart: usize,
    pub full_bytes: usize,
    pub bytes_below_full: usize,
    pub expiries_ended: usize,
    /// Nothing was written while the watchdog was expired.
    pub expiries_kept: usize,
    /// Nothing was written while the watchdog was counting and its idle count above 0.
    pub idle_counts_kept: usize,
    pub faults_cleared: usize,
    /// Fault bits of channels whose target did not differ.
    pub faults_kept: usize,
    pub in_standby: usize,
}

impl SeenGalley {
    /// The two states are those before the call.
    pub fn note(&mut self, call: &GalleyCall, refusal: u32, galley: &Galley, controller: &State) {
        self.calls += 1;
        match call {
            GalleyCall::Dump => self.dumps += 1,
            GalleyCall::Load(given) if galley::sound(given) => self.sound_loads += 1,
            GalleyCall::Load(_) => self.flawed_loads += 1,
            _ => *self.answers.entry((call.name(), refusal)).or_default() += 1,
        }
        match call {
            GalleyCall::Read if refusal == ACCEPTED => {
                self.readings_below_zero += usize::from(galley.temperature < 0);
            }
            GalleyCall::Sample {
                temperature,
                tables,
            } => {
                let sample = galley::sample(galley, controller, *temperature, tables);
                if refusal == ACCEPTED {
                    self.rows.note(galley, *temperature, sample.galley.row);
                    self.pins.note(galley, *temperature, &sample);
                    self.writes.note(galley, controller, tables, &sample);
                } else {
                    self.note_refused(galley, controller, *temperature, tables);
                }
            }
            _ => {}
        }
    }

    fn note_refused(
        &mut self,
        galley: &Galley,
        controller: &State,
        temperature: i32,
        tables: &Tables,
    ) {
        let flawed = (!galley::sound(galley), !model::sound(controller));
        let wrong_length = !tables.whole();
        let out_of_range = !galley::in_range(temperature);
        match flawed {
            (true, false) => self.not_sound[0] += 1,
            (false, true) => self.not_sound[1] += 1,
            (true, true) => self.not_sound[2] += 1,
            (false, false) => {}
        }
        let reasons = [flawed.0 || flawed.1, wrong_length, out_of_range];
        let several = reasons.into_iter().filter(|&reason| reason).count() > 1;
        self.several_reasons += usize::from(several);
    }
}

impl SeenRows {
    fn note(&mut self, galley: &Galley, temperature: i32, row: u8) {
        let held = row > galley::row_of(temperature);
        let warmest = temperature + galley::hysteresis(galley);
        self.rose += usize::from(row > galley.row);
        self.stayed += usize::from(row == galley.row);
        self.fell += usize::from(row < galley.row);
        self.held[usize::from(galley.hysteresis)] += usize::from(held);
        self.fell_and_held += usize::from(held && row < galley.row);
        self.above_the_range += usize::from(warmest > HIGHEST);
        *self.rows.entry(row).or_default() += 1;
        *self.temperatures.entry(temperature).or_default() += 1;
    }

    /// How many of the limits between two rows were sampled, and one eighth below them too.
    pub fn limits(&self) -> usize {
        let met = |temperature: i32| self.temperatures.contains_key(&temperature);
        let both_sides = |degrees: &&i32| met(8 * **degrees) && met(8 * **degrees - 1);
        UPPER_LIMITS.iter().filter(both_sides).count()
    }
}

impl SeenPins {
    fn note(&mut self, galley: &Galley, temperature: i32, sample: &Sample) {
        let above_high = temperature - i32::from(galley.high);
        let above_over = temperature - i32::from(galley.over);
        self.alerts[usize::from(sample.alert)] += 1;
        self.shutdowns[usize::from(sample.shutdown)] += 1;
        for place in 0..2 {
            self.beside_high[place] += usize::from(above_high == place as i32);
            self.beside_over[place] += usize::from(above_over == place as i32);
        }
    }
}

impl SeenWrites {
    fn note(&mut self, galley: &Galley, before: &State, tables: &Tables, sample: &Sample) {
        let after = &sample.controller;
        let row = usize::from(sample.galley.row);
        let byte = tables.in_force(galley)[row];
        let pairs = before.channels.iter().zip(&after.channels);
        let differing = pairs.filter(|(old, new)| old.target != new.target).count();
        self.differing[differing] += 1;
        self.tables[usize::from(galley.quiet)] += 1;
        self.tables_told_apart += usize::from(tables.normal[row] != tables.quiet[row]);
        self.full_bytes += usize::from(byte == 0xFF);
        self.bytes_below_full += usize::from(byte == 0xFE);
        let counting = before.idle > 0 && !before.expired;
        self.expiries_ended += usize::from(before.expired && differing > 0);
        self.expiries_kept += usize::from(before.expired && differing == 0);
        self.idle_counts_kept += usize::from(counting && differing == 0);
        self.faults_cleared += gained(after.faults, before.faults);
        self.faults_kept += gained(0, after.faults);
        self.in_standby += usize::from(before.standby());
    }
}

impl fmt::Display for SeenGalley {
    fn fmt(&self, out: &mut fmt::Formatter) -> fmt::Result {
        writeln!(out, "  galley calls: {}", self.calls)?;
        for ((name, refusal), times) in &self.answers {
            writeln!(out, "  {name} answered {refusal}: {times}")?;
        }
        let [galley, controller, both] = self.not_sound;
        writeln!(
            out,
            "  samples with the galley not sound: {galley}, the controller: {controller}, both: {both}"
        )?;
        let several = self.several_reasons;
        writeln!(out, "  samples with several reasons to refuse: {several}")?;
        let below_zero = self.readings_below_zero;
        writeln!(out, "  galley readings below 0 degrees: {below_zero}")?;
        writeln!(out, "  galley dumps: {}", self.dumps)?;
        let (sound, other) = (self.sound_loads, self.flawed_loads);
        writeln!(out, "  galley loads of sound states: {sound}")?;
        writeln!(out, "  galley loads of other states: {other}")?;
        write!(out, "{}{}{}", self.rows, self.pins, self.writes)
    }
}

impl fmt::Display for SeenRows {
    fn fmt(&self, out: &mut fmt::Formatter) -> fmt::Result {
        let (rose, stayed, fell) = (self.rose, self.stayed, self.fell);
        writeln!(
            out,
            "  samples whose row rose: {rose}, stayed: {stayed}, fell: {fell}"
        )?;
        let [two, four] = self.held;
        writeln!(
            out,
            "  samples with a row held by 2 degrees: {two}, by 4: {four}"
        )?;
        let part = self.fell_and_held;
        writeln!(
            out,
            "  samples whose row fell, not to their own one: {part}"
        )?;
        let above = self.above_the_range;
        writeln!(out, "  samples with T + h above 1023: {above}")?;
        let (met, limits) = (self.rows.len(), self.limits());
        writeln!(
            out,
            "  rows that samples led to: {met} of {ROWS}, limits sampled on both sides: {limits}"
        )
    }
}

impl fmt::Display for SeenPins {
    fn fmt(&self, out: &mut fmt::Formatter) -> fmt::Result {
        for (name, [off, on], [at, above]) in [
            ("ALERT", self.alerts, self.beside_high),
            ("SHDN", self.shutdowns, self.beside_over),
        ] {
            writeln!(
                out,
                "  samples with {name} off: {off}, on: {on}, at its threshold: {at}, one above: {above}"
            )?;
        }
        Ok(())
    }
}

impl fmt::Display for SeenWrites {
    fn fmt(&self, out: &mut fmt::Formatter) -> fmt::Result {
        for (number, times) in self.differing.iter().enumerate() {
            writeln!(out, "  samples that wrote {number} targets: {times}")?;
        }
        let [normal, quiet] = self.tables;
        let apart = self.tables_told_apart;
        writeln!(
            out,
            "  samples by the normal table: {normal}, the quiet: {quiet}, the two differing there: {apart}"
        )?;
        let (full, below) = (self.full_bytes, self.bytes_below_full);
        writeln!(out, "  samples with the byte FFh: {full}, FEh: {below}")?;
        let (ended, kept) = (self.expiries_ended, self.expiries_kept);
        writeln!(
            out,
            "  samples that ended an expiry: {ended}, that left one: {kept}"
        )?;
        let idle = self.idle_counts_kept;
        writeln!(
            out,
            "  samples that wrote nothing while the watchdog counted: {idle}"
        )?;
        let (cleared, kept) = (self.faults_cleared, self.faults_kept);
        writeln!(out, "  faults cleared by samples: {cleared}, left: {kept}")?;
        writeln!(out, "  samples in standby: {}", self.in_standby)
    }
}

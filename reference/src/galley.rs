//! The galley box by the words of the change request "The galley box" (K5), of the facts that the
//! paper keeps for it and of the MAX31760's sheet (document 000): a temperature finds a row of a
//! table, and the row's duty goes to the controller below. Sentences in quotation marks are theirs,
//! or those of the request that is named before them.

use crate::model::{self, State, ACCEPTED, CHANNELS, FULL_DUTY, NOT_SOUND};

pub const ROWS: usize = 48;

/// Temperatures are in eighths of a degree.
pub const LOWEST: i32 = -1024;
pub const HIGHEST: i32 = 1023;

/// The refusal numbers that the galley adds.
pub const TABLE_LENGTH: u32 = 20;
pub const SPAN_OF_ROWS: u32 = 21;
pub const TEMPERATURE: u32 = 22;

/// Table 7 of 000 in degrees: row 0 is "T < +18°C", row 1 "+18°C ≤ T < +20°C" and so on to row 46,
/// "+108°C ≤ T < +110°C". Row 47, "T ≥ +110°C", has no upper limit.
pub const UPPER_LIMITS: [i32; ROWS - 1] = [
    18, 20, 22, 24, 26, 28, 30, 32, 34, 36, 38, 40, 42, 44, 46, 48, 50, 52, 54, 56, 58, 60, 62, 64,
    66, 68, 70, 72, 74, 76, 78, 80, 82, 84, 86, 88, 90, 92, 94, 96, 98, 100, 102, 104, 106, 108,
    110,
];

/// The fields are as wide as the console's galley state, so that one which is not sound can be held
/// and refused.
#[derive(Clone, Copy, Debug, Default, PartialEq, Eq)]
pub struct Galley {
    pub row: u8,
    pub temperature: i16,
    /// The threshold of ALERT.
    pub high: i16,
    /// The overtemperature threshold, which is that of SHDN.
    pub over: i16,
    pub hysteresis: bool,
    /// "the quiet one in force while its flag is set"
    pub quiet: bool,
}

/// The two tables that are lent to a call, of any length.
#[derive(Clone, Debug, PartialEq, Eq)]
pub struct Tables {
    pub normal: Vec<u8>,
    pub quiet: Vec<u8>,
}

impl Tables {
    /// "20 either table not 48 bytes"
    pub fn whole(&self) -> bool {
        self.normal.len() == ROWS && self.quiet.len() == ROWS
    }

    /// "A flag of the galley state names the table in force."
    pub fn in_force(&self, galley: &Galley) -> &[u8] {
        if galley.quiet {
            &self.quiet
        } else {
            &self.normal
        }
    }
}

pub fn in_range(temperature: i32) -> bool {
    (LOWEST..=HIGHEST).contains(&temperature)
}

/// "A galley state is sound when its row is at most 47 and its temperature and thresholds are in
/// range."
pub fn sound(galley: &Galley) -> bool {
    usize::from(galley.row) < ROWS
        && in_range(galley.temperature.into())
        && in_range(galley.high.into())
        && in_range(galley.over.into())
}

/// "The row of a temperature is 000's, rows 0 to 47": the first one whose upper limit is above it,
/// or the last.
pub fn row_of(temperature: i32) -> u8 {
    let above = |degrees: &i32| temperature < 8 * degrees;
    let row = UPPER_LIMITS.iter().position(above);
    row.unwrap_or(ROWS - 1) as u8
}

/// "h is 16 or 32 eighths"; table 8 of 000: bit clear 2 degrees, bit set 4.
pub fn hysteresis(galley: &Galley) -> i32 {
    if galley.hysteresis {
        32
    } else {
        16
    }
}

/// "After a sample T the row is the lesser of the present row and the row of T + h, but never below
/// the row of T." T + h may be above any temperature that can be sampled: then its row is the last.
pub fn row_after(galley: &Galley, temperature: i32) -> u8 {
    let held = galley.row.min(row_of(temperature + hysteresis(galley)));
    held.max(row_of(temperature))
}

/// "table byte v as 2v, FFh as 511"
pub fn duty_of(byte: u8) -> u16 {
    if byte == 0xFF {
        FULL_DUTY
    } else {
        2 * u16::from(byte)
    }
}

// Calls. Each gives its refusal number first.

/// "A fresh galley has row 0 and temperature 0, and is given its two thresholds, hysteresis bit and
/// flag; one with a threshold out of range is refused with 22 and every number 0, every flag clear."
pub fn fresh(high: i32, over: i32, hysteresis: bool, quiet: bool) -> (u32, Galley) {
    if !in_range(high) || !in_range(over) {
        return (TEMPERATURE, Galley::default());
    }
    let galley = Galley {
        high: high as i16,
        over: over as i16,
        hysteresis,
        quiet,
        ..Galley::default()
    };
    (ACCEPTED, galley)
}

/// What a sample gives back.
#[derive(Clone, Copy, Debug, PartialEq, Eq)]
pub struct Sample {
    pub refusal: u32,
    pub alert: bool,
    pub shutdown: bool,
    pub galley: Galley,
    pub controller: State,
}

/// "ALERT and SHDN are each asserted exactly when the sample is above its threshold, and not after
/// a refusal".
pub fn sample(galley: &Galley, controller: &State, temperature: i32, tables: &Tables) -> Sample {
    let refusal = sample_refusal(galley, controller, temperature, tables);
    if refusal != ACCEPTED {
        return Sample {
            refusal,
            alert: false,
            shutdown: false,
            galley: *galley,
            controller: *controller,
        };
    }
    let row = row_after(galley, temperature);
    let duty = duty_of(tables.in_force(galley)[usize::from(row)]);
    Sample {
        refusal,
        alert: temperature > i32::from(galley.high),
        shutdown: temperature > i32::from(galley.over),
        galley: Galley {
            row,
            temperature: temperature as i16,
            ..*galley
        },
        controller: drive(controller, duty),
    }
}

/// "Refusals: 1 for either state, 20 either table not 48 bytes, [..] 22 temperature out of range,
/// in that order".
fn sample_refusal(galley: &Galley, controller: &State, temperature: i32, tables: &Tables) -> u32 {
    if !sound(galley) || !model::sound(controller) {
        NOT_SOUND
    } else if !tables.whole() {
        TABLE_LENGTH
    } else if !in_range(temperature) {
        TEMPERATURE
    } else {
        ACCEPTED
    }
}

/// "A sample writes, from channel 1 up, only those of the six target duties that differ."
/// "comparing the present targets is no register read": where none differs, nothing changes.
fn drive(controller: &State, duty: u16) -> State {
    let mut next = *controller;
    for index in 0..CHANNELS {
        if next.channels[index].target != duty {
            next = write_target(&next, index as u32, duty);
        }
    }
    next
}

/// A target duty is "9 bits", left-justified, and K6 joins "the two byte writes of a target duty
/// [..] into one word write": a call for each target that differs.
fn write_target(controller: &State, index: u32, duty: u16) -> State {
    let (refusal, next) = model::write_word(controller, 0x40 + 2 * index, duty << 7);
    assert_eq!(refusal, ACCEPTED);
    next
}

/// "for a span of rows it hands back that part of the table in force, not a copy." "A span a to b
/// leaves out row b, with a at most b and b at most 48." Refused, it gives "an empty part".
pub fn span<'a>(galley: &Galley, first: u32, end: u32, tables: &'a Tables) -> (u32, &'a [u8]) {
    if !sound(galley) {
        (NOT_SOUND, &[])
    } else if !tables.whole() {
        (TABLE_LENGTH, &[])
    } else if first > end || end > ROWS as u32 {
        (SPAN_OF_ROWS, &[])
    } else {
        let part = &tables.in_force(galley)[first as usize..end as usize];
        (ACCEPTED, part)
    }
}

/// A number of degrees in thousandths: an eighth is 125 of them, so that these are exact.
pub type Thousandths = i32;

/// "Its reading gives temperature in degrees, exact." "a refused reading is 0".
pub fn reading(galley: &Galley) -> (u32, Thousandths) {
    if !sound(galley) {
        return (NOT_SOUND, 0);
    }
    (ACCEPTED, 125 * i32::from(galley.temperature))
}

#[cfg(test)]
mod tests;

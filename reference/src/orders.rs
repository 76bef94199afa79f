//! Order strings by the words of the change request "Orders by the string" (K1): records of whole
//! numbers, the reader that hands them out and the run that takes them. Sentences in quotation
//! marks are that request's, or those of the one that is named before them.

use crate::console::Call;
use crate::model::{self, sound, State, ACCEPTED, NOT_SOUND};

/// The refusal numbers that strings add.
pub const ENDS_FIRST: u32 = 10;
pub const LAST_BYTE_ZERO: u32 = 11;
pub const FIFTH_BYTE: u32 = 12;
pub const KIND_OR_VALUE: u32 = 13;
pub const SHORT_BUFFER: u32 = 15;

/// The console's words for the kinds. "Kinds: 0 write (address, value), 1 read (address), 2 ticks
/// (n), 3 tachometer (channel, count), 4 pin (0 low, 1 high)." K6: "The order string gets kind 5
/// (even address, word)". K7: "The order string gets kind 6 (channel)." Every number from the length
/// of this list on is an unknown kind.
pub const KINDS: [&str; 7] = ["write", "read", "ticks", "tach", "pin", "word", "pulse"];

/// A kind, and the numbers that follow it.
pub type Record = Vec<u32>;

/// "whole numbers in groups of seven bits, low group first, top bit set on all but the last,
/// shortest form only"
pub fn number_bytes(number: u32) -> Vec<u8> {
    let mut bytes = Vec::new();
    let mut rest = number;
    while rest > 0x7F {
        bytes.push((rest % 0x80) as u8 | 0x80);
        rest /= 0x80;
    }
    bytes.push(rest as u8);
    bytes
}

pub fn record_bytes(record: &[u32]) -> Vec<u8> {
    record.iter().copied().flat_map(number_bytes).collect()
}

/// The number that the string begins with and how many bytes it has. "12 (fifth byte above 15),
/// 11 (last byte 0 after another), 10 (string ends first)"
fn number_at(string: &[u8]) -> Result<(u32, usize), u32> {
    let continued = string.iter().take_while(|&&byte| byte > 0x7F).count();
    if continued >= 4 && string.get(4).is_some_and(|&byte| byte > 15) {
        return Err(FIFTH_BYTE);
    }
    match string.get(continued) {
        Some(0) if continued > 0 => Err(LAST_BYTE_ZERO),
        Some(_) => Ok((value(&string[..=continued]), continued + 1)),
        None => Err(ENDS_FIRST),
    }
}

fn value(groups: &[u8]) -> u32 {
    let high_to_low = groups.iter().rev();
    high_to_low.fold(0, |number, &byte| number * 0x80 + u32::from(byte & 0x7F))
}

/// "A reader over the lent string hands out one record at a time."
pub struct Reader<'a> {
    pub rest: &'a [u8],
}

impl Reader<'_> {
    fn number(&mut self) -> Result<u32, u32> {
        let (number, length) = number_at(self.rest)?;
        self.rest = &self.rest[length..];
        Ok(number)
    }

    /// The next record as the call that it asks for. "13 for an unknown kind as soon as it is
    /// read, for a write value or pin once the record is read"; K6: "13 also covers a word above
    /// 65,535."
    pub fn call(&mut self) -> Result<Call, u32> {
        match self.number()? {
            0 => {
                let address = self.number()?;
                let value = self.number()?;
                let byte = u8::try_from(value).map_err(|_| KIND_OR_VALUE)?;
                Ok(Call::Write { address, byte })
            }
            1 => {
                let address = self.number()?;
                Ok(Call::Read { address })
            }
            2 => {
                let count = self.number()?;
                Ok(Call::Ticks { count })
            }
            3 => {
                let channel = self.number()?;
                let count = self.number()?;
                Ok(Call::Tachometer { channel, count })
            }
            4 => match self.number()? {
                0 => Ok(Call::Pin { level: false }),
                1 => Ok(Call::Pin { level: true }),
                _ => Err(KIND_OR_VALUE),
            },
            5 => {
                let address = self.number()?;
                let value = self.number()?;
                let word = u16::try_from(value).map_err(|_| KIND_OR_VALUE)?;
                Ok(Call::Word { address, word })
            }
            6 => {
                let channel = self.number()?;
                Ok(Call::Pulse { channel })
            }
            _ => Err(KIND_OR_VALUE),
        }
    }
}

/// What a run gives back besides the answer buffer.
#[derive(Clone, Copy, Debug, PartialEq, Eq)]
pub struct Run {
    pub refusal: u32,
    pub taken: u32,
    /// How many bytes of the answer buffer were written.
    pub written: usize,
    pub state: State,
}

/// "A run takes at most the number of records its caller allows and reports how many it took".
/// Refusals 1 and 15 come before the string is looked at, in this order.
pub fn run(state: &State, string: &[u8], allowance: u32, buffer: &mut [u8]) -> Run {
    let mut run = Run {
        refusal: ACCEPTED,
        taken: 0,
        written: 0,
        state: *state,
    };
    if !sound(state) {
        run.refusal = NOT_SOUND;
    } else if buffer.len() < string.len() {
        run.refusal = SHORT_BUFFER;
    } else {
        take_records(&mut run, string, allowance, buffer);
    }
    run
}

/// "It stops before the first record that is malformed or that its call refuses; with the
/// allowance used up it stops unrefused and looks no further." "State, answers and count are those
/// before that record".
fn take_records(run: &mut Run, string: &[u8], allowance: u32, buffer: &mut [u8]) {
    let mut reader = Reader { rest: string };
    while run.taken < allowance && !reader.rest.is_empty() {
        let taken = reader.call().and_then(|call| take(&call, &run.state));
        match taken {
            Ok((byte, next)) => {
                // "Read bytes go in order into a lent answer buffer, whose later bytes stay."
                if let Some(byte) = byte {
                    buffer[run.written] = byte;
                    run.written += 1;
                }
                run.state = next;
                run.taken += 1;
            }
            Err(refusal) => {
                run.refusal = refusal;
                return;
            }
        }
    }
}

/// Makes a record's call: gives the byte that a read answers and the state that goes on, or the
/// call's own refusal.
fn take(call: &Call, state: &State) -> Result<(Option<u8>, State), u32> {
    let byte = match *call {
        Call::Read { address } => Some(model::read(state, address).1),
        _ => None,
    };
    let mut next = *state;
    match call.make(&mut next) {
        (ACCEPTED, _) => Ok((byte, next)),
        (refusal, _) => Err(refusal),
    }
}

#[cfg(test)]
mod tests;

//! The galley's lines: a call as a word with numbers and tables, and the answer line that the model
//! expects for it.

use crate::galley::{self, Galley, Tables, Thousandths};
use crate::model::{State, ACCEPTED};
use crate::text::{byte_pairs, Word};

#[derive(Clone, Debug)]
pub enum GalleyCall {
    Fresh {
        high: i32,
        over: i32,
        hysteresis: bool,
        quiet: bool,
    },
    Sample {
        temperature: i32,
        tables: Tables,
    },
    Span {
        first: u32,
        end: u32,
        tables: Tables,
    },
    Read,
    Dump,
    Load(Galley),
}

impl GalleyCall {
    pub fn name(&self) -> &'static str {
        match self {
            GalleyCall::Fresh { .. } => "gfresh",
            GalleyCall::Sample { .. } => "gsample",
            GalleyCall::Span { .. } => "gspan",
            GalleyCall::Read => "gread",
            GalleyCall::Dump => "gdump",
            GalleyCall::Load(_) => "gload",
        }
    }

    /// The words of its line.
    pub fn words(&self) -> Vec<Word<'_>> {
        let mut words = vec![Word::Name(self.name())];
        match self {
            &GalleyCall::Fresh {
                high,
                over,
                hysteresis,
                quiet,
            } => {
                words.extend([high, over].map(Word::Signed));
                words.extend([hysteresis, quiet].map(flag_word));
            }
            GalleyCall::Sample {
                temperature,
                tables,
            } => {
                words.push(Word::Signed(*temperature));
                words.extend(table_words(tables));
            }
            GalleyCall::Span { first, end, tables } => {
                words.extend([*first, *end].map(Word::Number));
                words.extend(table_words(tables));
            }
            GalleyCall::Load(given) => words.extend(load_words(given)),
            GalleyCall::Read | GalleyCall::Dump => {}
        }
        words
    }

    /// Makes the call on the states in hand and gives its refusal number, 0 when accepted, and its
    /// answer line.
    pub fn make(&self, galley: &mut Galley, controller: &mut State) -> (u32, String) {
        match self {
            &GalleyCall::Fresh {
                high,
                over,
                hysteresis,
                quiet,
            } => {
                let (refusal, fresh) = galley::fresh(high, over, hysteresis, quiet);
                *galley = fresh;
                (refusal, refusal.to_string())
            }
            GalleyCall::Sample {
                temperature,
                tables,
            } => sample_answer(galley, controller, *temperature, tables),
            GalleyCall::Span { first, end, tables } => {
                let (refusal, part) = galley::span(galley, *first, *end, tables);
                (refusal, format!("{refusal} {}", byte_pairs(part)))
            }
            GalleyCall::Read => {
                let (refusal, degrees) = galley::reading(galley);
                (refusal, format!("{refusal} {}", three_decimals(degrees)))
            }
            GalleyCall::Dump => (ACCEPTED, dump_answer(galley)),
            GalleyCall::Load(given) => {
                *galley = *given;
                (ACCEPTED, "ok".to_string())
            }
        }
    }
}

fn flag_word(flag: bool) -> Word<'static> {
    Word::Number(u32::from(flag))
}

/// "TABLES are two parameters of bytes, the normal and the quiet table."
fn table_words(tables: &Tables) -> [Word<'_>; 2] {
    [Word::Bytes(&tables.normal), Word::Bytes(&tables.quiet)]
}

fn load_words(galley: &Galley) -> Vec<Word<'static>> {
    let mut words = vec![Word::Number(u32::from(galley.row))];
    let temperatures = [galley.temperature, galley.high, galley.over];
    words.extend(temperatures.map(|eighths| Word::Signed(eighths.into())));
    words.extend([galley.hysteresis, galley.quiet].map(flag_word));
    words
}

/// "Both states in hand are the ones given back".
fn sample_answer(
    galley: &mut Galley,
    controller: &mut State,
    temperature: i32,
    tables: &Tables,
) -> (u32, String) {
    let sample = galley::sample(galley, controller, temperature, tables);
    *galley = sample.galley;
    *controller = sample.controller;
    let (alert, shutdown) = (u32::from(sample.alert), u32::from(sample.shutdown));
    (
        sample.refusal,
        format!("{} {alert} {shutdown}", sample.refusal),
    )
}

/// "degrees with exactly three decimals, as `-0.125`, `78.000`"
fn three_decimals(number: Thousandths) -> String {
    let sign = if number < 0 { "-" } else { "" };
    let size = number.unsigned_abs();
    format!("{sign}{}.{:03}", size / 1000, size % 1000)
}

/// "row, temperature, high, over, hysteresis, quiet"
fn dump_answer(galley: &Galley) -> String {
    let Galley {
        row,
        temperature,
        high,
        over,
        ..
    } = galley;
    let hysteresis = u32::from(galley.hysteresis);
    let quiet = u32::from(galley.quiet);
    format!("{row} {temperature} {high} {over} {hysteresis} {quiet}")
}

#[cfg(test)]
mod tests {
    use super::*;
    use crate::model::{self, PinSet};
    use crate::text::plain_line;

    fn answer(call: GalleyCall, galley: &mut Galley) -> String {
        let (_, mut controller) = model::start(&PinSet::default());
        call.make(galley, &mut controller).1
    }

    fn tables(normal: &[u8], quiet: &[u8]) -> Tables {
        Tables {
            normal: normal.to_vec(),
            quiet: quiet.to_vec(),
        }
    }

    #[test]
    fn a_reading_has_three_decimals() {
        let readings = [
            (-1, "0 -0.125"),
            (0, "0 0.000"),
            (1, "0 0.125"),
            (7, "0 0.875"),
            (-8, "0 -1.000"),
            (624, "0 78.000"),
            (-1024, "0 -128.000"),
            (1023, "0 127.875"),
            (-1025, "1 0.000"),
            (1024, "1 0.000"),
        ];
        for (temperature, line) in readings {
            let mut galley = Galley {
                temperature,
                ..Galley::default()
            };
            assert_eq!(answer(GalleyCall::Read, &mut galley), line);
        }
    }

    #[test]
    fn a_dump_gives_the_galley_that_was_loaded() {
        let given = Galley {
            row: 255,
            temperature: -32_768,
            high: 32_767,
            over: -1,
            hysteresis: true,
            quiet: false,
        };
        let load = GalleyCall::Load(given);
        assert_eq!(plain_line(&load.words()), "gload 255 -32768 32767 -1 1 0");
        let mut galley = Galley::default();
        assert_eq!(answer(GalleyCall::Dump, &mut galley), "0 0 0 0 0 0");
        assert_eq!(answer(load, &mut galley), "ok");
        assert_eq!(
            answer(GalleyCall::Dump, &mut galley),
            "255 -32768 32767 -1 1 0"
        );
    }

    #[test]
    fn a_fresh_galley_is_the_one_in_hand() {
        let fresh = |high, over| GalleyCall::Fresh {
            high,
            over,
            hysteresis: false,
            quiet: true,
        };
        let mut galley = Galley::default();
        assert_eq!(plain_line(&fresh(560, -8).words()), "gfresh 560 -8 0 1");
        assert_eq!(answer(fresh(560, -8), &mut galley), "0");
        assert_eq!(answer(GalleyCall::Dump, &mut galley), "0 0 560 -8 0 1");
        assert_eq!(answer(fresh(560, 1024), &mut galley), "22");
        assert_eq!(answer(GalleyCall::Dump, &mut galley), "0 0 0 0 0 0");
    }

    #[test]
    fn a_sample_answers_with_both_pins() {
        let (_, mut galley) = galley::fresh(560, 640, false, false);
        let call = |temperature| GalleyCall::Sample {
            temperature,
            tables: tables(&[0x10; 48], &[0x20; 48]),
        };
        assert_eq!(answer(call(560), &mut galley), "0 0 0");
        assert_eq!(answer(call(561), &mut galley), "0 1 0");
        assert_eq!(answer(call(641), &mut galley), "0 1 1");
        assert_eq!(answer(call(1024), &mut galley), "22 0 0");
        assert_eq!(galley.temperature, 641);
        let line = format!("gsample -9 {} {}", "10".repeat(48), "20".repeat(48));
        assert_eq!(plain_line(&call(-9).words()), line);
    }

    #[test]
    fn a_span_answers_with_its_bytes() {
        let mut galley = Galley::default();
        let rising: Vec<u8> = (0xC0..0xF0).collect();
        let call = |first, end, quiet: &[u8]| GalleyCall::Span {
            first,
            end,
            tables: tables(&rising, quiet),
        };
        assert_eq!(answer(call(9, 12, &[0; 48]), &mut galley), "0 c9cacb");
        assert_eq!(answer(call(48, 48, &[0; 48]), &mut galley), "0 -");
        assert_eq!(answer(call(47, 49, &[0; 48]), &mut galley), "21 -");
        assert_eq!(answer(call(0, 1, &[0; 47]), &mut galley), "20 -");
        let words = call(0, 1, &[]);
        assert!(plain_line(&words.words()).ends_with("eeef -"));
    }
}

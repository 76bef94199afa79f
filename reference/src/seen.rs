//! What a scenario has met: counted so that one can see that it covers the paper.

mod delays;
mod galley;
mod pulses;
mod words;

use std::collections::BTreeMap;
use std::fmt;

use crate::choices::SPEED_EDGES;
use crate::console::{Call, GalleyCall};
use crate::galley::Galley;
use crate::model::{
    bad, deciding_line, judged, sound, Line, State, ACCEPTED, CHANNELS, FULL_COUNT, NOT_SOUND,
    RESET,
};
use crate::orders::{self, Reader, Run, KINDS, SHORT_BUFFER};
pub use delays::SeenDelays;
use galley::SeenGalley;
pub use pulses::SeenPulses;
use words::SeenWords;

/// The lowest of the counts beside 2,047.
const NEAR_FULL: u16 = FULL_COUNT - 2;

#[derive(Default)]
pub struct Seen {
    pub calls: usize,
    /// By refusal number, 0 for accepted; dumps, loads, runs, encodings and galley calls are not
    /// counted here.
    pub answers: [usize; 9],
    pub speeds_stopped: usize,
    pub speeds_too_fast: usize,
    /// Speeds asked for at each of the edges, refused ones too.
    pub speed_edges: [usize; SPEED_EDGES.len()],
    pub encodings: usize,
    pub runs: SeenRuns,
    pub galley: SeenGalley,
    // From here on, what single calls did and what the records did that runs took.
    pub words: SeenWords,
    pub pulses: SeenPulses,
    pub delays: SeenDelays,
    /// Tachometer results that were not stored, not judged, judged good, judged bad.
    pub results: [usize; 4],
    /// Judged results by target count and then by stored count, both from `NEAR_FULL` to 2,047.
    pub near_full: [[usize; 3]; 3],
    pub faults_raised: usize,
    pub faults_at_full_target: usize,
    pub faults_cleared: usize,
    pub fan_fail_asserted: usize,
    pub expiries: usize,
    pub expiries_ended: usize,
    pub spin_ups_begun: usize,
    pub clock_wraps: usize,
    pub resets: usize,
    pub dumps: usize,
    pub sound_loads: usize,
    pub flawed_loads: usize,
    /// How often each line of "Which duty comes out" decided at a passing of ticks, by channel.
    pub lines: [usize; 7],
}

/// What its runs have met.
#[derive(Default)]
pub struct SeenRuns {
    /// By refusal number, 0 for accepted.
    pub answers: [usize; 16],
    /// Accepted runs that took a string to its end.
    pub whole_strings: usize,
    /// Accepted runs that left some of the string, the allowance being used up.
    pub allowances_used_up: usize,
    pub empty_strings: usize,
    pub records: usize,
    pub most_records: usize,
    pub answer_bytes: usize,
    /// Runs whose last answer is the byte that the buffer holds anyway.
    pub hidden_answers: usize,
    /// Runs that stopped before the record of a word, and of a pulse, by refusal number.
    pub stopped_at_words: BTreeMap<u32, usize>,
    pub stopped_at_pulses: BTreeMap<u32, usize>,
}

impl Seen {
    pub fn note(&mut self, call: &Call, before: &State, refusal: u32, answer: &str, after: &State) {
        self.calls += 1;
        match *call {
            Call::Dump => self.dumps += 1,
            Call::Load(ref state) => self.note_load(state),
            Call::Encode(_) => self.encodings += 1,
            Call::Run {
                ref string,
                allowance,
                room,
            } => {
                let mut buffer = vec![0xA5; room as usize];
                let run = orders::run(before, string, allowance, &mut buffer);
                let rest = self.note_records(string, run.taken, before, after);
                self.runs.note(&run, string, rest, &buffer[..run.written]);
            }
            Call::FanFail => {
                self.answers[refusal as usize] += 1;
                self.fan_fail_asserted += usize::from(answer.starts_with("0 1"));
            }
            Call::Speed { count, .. } => {
                self.answers[refusal as usize] += 1;
                self.note_speed(count, answer);
            }
            _ => {
                self.answers[refusal as usize] += 1;
                self.words.lines += usize::from(matches!(call, Call::Word { .. }));
                self.pulses.lines += usize::from(matches!(call, Call::Pulse { .. }));
                self.note_effects(call, before, refusal, after);
            }
        }
    }

    fn note_load(&mut self, state: &State) {
        let sound = sound(state);
        self.sound_loads += usize::from(sound);
        self.flawed_loads += usize::from(!sound);
        self.pulses.note_load(state, sound);
        self.delays.note_load(state);
    }

    /// The galley and the first of the controllers are those before the call.
    pub fn note_galley(
        &mut self,
        call: &GalleyCall,
        refusal: u32,
        galley: &Galley,
        controller: &State,
        after: &State,
    ) {
        self.calls += 1;
        self.galley.note(call, refusal, galley, controller);
        self.delays.note_sample(controller, after);
    }

    fn note_speed(&mut self, count: u32, answer: &str) {
        self.speeds_stopped += usize::from(answer == "0 stopped");
        self.speeds_too_fast += usize::from(answer == "0 too fast");
        for (edge, times) in SPEED_EDGES.iter().zip(&mut self.speed_edges) {
            *times += usize::from(count == *edge);
        }
    }

    /// Makes the calls of the records that a run took, one by one; gives the rest of the string.
    fn note_records<'a>(
        &mut self,
        string: &'a [u8],
        taken: u32,
        before: &State,
        after: &State,
    ) -> &'a [u8] {
        let mut reader = Reader { rest: string };
        let mut state = *before;
        for _ in 0..taken {
            let call = reader.call().expect("a run takes no malformed record");
            let before = state;
            let (refusal, _) = call.make(&mut state);
            self.note_effects(&call, &before, refusal, &state);
        }
        assert_eq!(state, *after);
        reader.rest
    }

    fn note_effects(&mut self, call: &Call, before: &State, refusal: u32, after: &State) {
        match *call {
            Call::Ticks { count } if refusal == ACCEPTED => self.note_ticks(before, count, after),
            Call::Write { address, byte } if refusal == ACCEPTED => {
                self.resets += usize::from(address == 0 && byte & RESET != 0);
                self.note_access(before);
                self.faults_cleared += gained(after.faults, before.faults);
                self.pulses.note_write(address, byte, before, after);
                self.delays.note_write(address, byte, before, after);
            }
            Call::Write { .. } => self.words.note_refused_byte(refusal),
            Call::Word { address, word } if refusal == ACCEPTED => {
                self.note_access(before);
                self.faults_cleared += gained(after.faults, before.faults);
                self.words.note_accepted(address, word, before, after);
            }
            Call::Word { .. } => self.words.note_refused(refusal, before),
            Call::Read { .. } if refusal == ACCEPTED => self.note_access(before),
            Call::Tachometer { channel, .. } if refusal == ACCEPTED => {
                self.note_result(before, after, channel as usize - 1);
            }
            Call::Pulse { channel } if refusal == ACCEPTED => {
                let index = channel as usize - 1;
                self.pulses.note_accepted(index, before, after);
                self.delays.note_pulse(index, before, after);
            }
            Call::Pulse { channel } => self.pulses.note_refused(channel, refusal),
            Call::Start(ref values) => {
                self.pulses.note_start(values, refusal);
                self.delays.note_start();
            }
            _ => {}
        }
    }

    fn note_result(&mut self, before: &State, after: &State, index: usize) {
        let kind = kind_of_result(before, after, index);
        let raised = gained(before.faults, after.faults);
        let channel = &after.channels[index];
        self.results[kind] += 1;
        self.faults_raised += raised;
        if channel.target_count == FULL_COUNT {
            self.faults_at_full_target += raised;
        }
        let (target, count) = (channel.target_count, channel.count);
        if kind >= GOOD && target.min(count) >= NEAR_FULL {
            let place = |number: u16| usize::from(number - NEAR_FULL);
            self.near_full[place(target)][place(count)] += 1;
        }
    }

    fn note_ticks(&mut self, before: &State, count: u32, after: &State) {
        self.expiries += usize::from(!before.expired && after.expired);
        self.clock_wraps += usize::from(before.clock.checked_add(count).is_none());
        self.words.note_ticks(before, after);
        self.pulses.note_ticks(before, after);
        self.delays.note_ticks(before, count, after);
        for index in 0..CHANNELS {
            // No other step leads away from ramp value 0 while spin-up is due, and within one
            // call it is due at the beginning or never.
            let due = before.channels[index].spin_up_due();
            self.spin_ups_begun += usize::from(due && after.channels[index].ramp > 0);
            self.lines[line_number(deciding_line(before, index))] += 1;
        }
    }

    fn note_access(&mut self, before: &State) {
        self.expiries_ended += usize::from(before.expired);
    }
}

impl SeenRuns {
    pub fn calls(&self) -> usize {
        self.answers.iter().sum()
    }

    fn note(&mut self, run: &Run, string: &[u8], rest: &[u8], answers: &[u8]) {
        let taken = run.taken as usize;
        let accepted = run.refusal == ACCEPTED;
        self.answers[run.refusal as usize] += 1;
        self.whole_strings += usize::from(accepted && rest.is_empty());
        self.allowances_used_up += usize::from(accepted && !rest.is_empty());
        self.empty_strings += usize::from(string.is_empty());
        self.records += taken;
        self.most_records = self.most_records.max(taken);
        self.answer_bytes += answers.len();
        self.hidden_answers += usize::from(answers.last() == Some(&0xA5));
        let looked_at = ![ACCEPTED, NOT_SOUND, SHORT_BUFFER].contains(&run.refusal);
        let stopped_at = match first_kind(rest) {
            Some("word") => &mut self.stopped_at_words,
            Some("pulse") => &mut self.stopped_at_pulses,
            _ => return,
        };
        if looked_at {
            *stopped_at.entry(run.refusal).or_default() += 1;
        }
    }
}

/// Every kind is one byte in its shortest form.
fn first_kind(string: &[u8]) -> Option<&'static str> {
    let kind = usize::from(*string.first()?);
    KINDS.get(kind).copied()
}

/// How many bits are set in `after` and not in `before`.
fn gained(before: u8, after: u8) -> usize {
    (after & !before).count_ones() as usize
}

const NOT_STORED: usize = 0;
const NOT_JUDGED: usize = 1;
const GOOD: usize = 2;
const BAD: usize = 3;

fn kind_of_result(before: &State, after: &State, index: usize) -> usize {
    let channel = &after.channels[index];
    if !channel.tachometer_enabled() {
        NOT_STORED
    } else if !judged(before, index) {
        NOT_JUDGED
    } else if bad(channel) {
        BAD
    } else {
        GOOD
    }
}

fn line_number(line: Line) -> usize {
    match line {
        Line::MonitorOnly => 0,
        Line::FullSpeed => 1,
        Line::Standby => 2,
        Line::WatchdogExpired => 3,
        Line::FailedFan(_) => 4,
        Line::SpinUp => 5,
        Line::Ramp => 6,
    }
}

impl fmt::Display for SeenRuns {
    fn fmt(&self, out: &mut fmt::Formatter) -> fmt::Result {
        writeln!(out, "  runs: {}", self.calls())?;
        for (number, times) in self.answers.iter().enumerate() {
            if *times > 0 {
                writeln!(out, "  runs answered {number}: {times}")?;
            }
        }
        writeln!(out, "  runs of a whole string: {}", self.whole_strings)?;
        writeln!(out, "  allowances used up: {}", self.allowances_used_up)?;
        writeln!(out, "  runs of an empty string: {}", self.empty_strings)?;
        let (records, most) = (self.records, self.most_records);
        writeln!(out, "  records taken: {records}, in one run: {most}")?;
        writeln!(out, "  answer bytes: {}", self.answer_bytes)?;
        writeln!(out, "  runs with A5h last: {}", self.hidden_answers)?;
        for (number, times) in &self.stopped_at_words {
            writeln!(out, "  runs stopped before a word with {number}: {times}")?;
        }
        for (number, times) in &self.stopped_at_pulses {
            writeln!(out, "  runs stopped before a pulse with {number}: {times}")?;
        }
        Ok(())
    }
}

impl fmt::Display for Seen {
    fn fmt(&self, out: &mut fmt::Formatter) -> fmt::Result {
        for (number, times) in self.answers.iter().enumerate() {
            writeln!(out, "  answered {number}: {times}")?;
        }
        let (stopped, too_fast) = (self.speeds_stopped, self.speeds_too_fast);
        writeln!(out, "  speeds stopped: {stopped}, too fast: {too_fast}")?;
        for (edge, times) in SPEED_EDGES.iter().zip(self.speed_edges) {
            writeln!(out, "  speeds at count {edge}: {times}")?;
        }
        writeln!(out, "  encodings: {}", self.encodings)?;
        write!(out, "{}{}", self.runs, self.galley)?;
        write!(out, "{}{}{}", self.words, self.pulses, self.delays)?;
        self.show_results(out)?;
        writeln!(out, "  faults cleared: {}", self.faults_cleared)?;
        writeln!(out, "  FAN_FAIL asserted: {}", self.fan_fail_asserted)?;
        writeln!(out, "  watchdog expiries: {}", self.expiries)?;
        writeln!(out, "  expiries ended: {}", self.expiries_ended)?;
        writeln!(out, "  spin-ups begun: {}", self.spin_ups_begun)?;
        writeln!(out, "  clock wraps: {}", self.clock_wraps)?;
        writeln!(out, "  resets: {}", self.resets)?;
        writeln!(out, "  dumps: {}", self.dumps)?;
        writeln!(out, "  loads of sound states: {}", self.sound_loads)?;
        writeln!(out, "  loads of other states: {}", self.flawed_loads)?;
        let names = [
            "monitor only",
            "FULL_SPEED low",
            "standby",
            "watchdog expired",
            "failed-fan option",
            "spin-up",
            "ramp",
        ];
        for (name, times) in names.iter().zip(self.lines) {
            writeln!(out, "  channels passing ticks under {name}: {times}")?;
        }
        Ok(())
    }
}

impl Seen {
    fn show_results(&self, out: &mut fmt::Formatter) -> fmt::Result {
        let [ignored, unjudged, good, bad] = self.results;
        writeln!(
            out,
            "  results not stored: {ignored}, not judged: {unjudged}"
        )?;
        writeln!(out, "  results judged good: {good}, bad: {bad}")?;
        for (target, row) in (NEAR_FULL..).zip(self.near_full) {
            for (count, times) in (NEAR_FULL..).zip(row) {
                writeln!(
                    out,
                    "  results judged at target {target}, count {count}: {times}"
                )?;
            }
        }
        let (raised, full) = (self.faults_raised, self.faults_at_full_target);
        writeln!(
            out,
            "  faults raised: {raised}, at target count 2047: {full}"
        )
    }
}

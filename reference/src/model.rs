//! The controller by the words of the paper, "Rules of the seat-box fan controller" (01): state,
//! soundness and calls, with ticks taken one at a time. Sentences in quotation marks are the
//! paper's, or those of the change request that is named before them.

pub const CHANNELS: usize = 6;
pub const FULL_DUTY: u16 = 511;
pub const FULL_COUNT: u16 = 2047;
pub const LONGEST_SPIN_UP: u16 = 1024;
pub const LONGEST_WAIT: u16 = 2048;
pub const LONGEST_QUEUE: u8 = 6;

/// The refusal numbers; 0 stands for an accepted call.
pub const ACCEPTED: u32 = 0;
pub const NOT_SOUND: u32 = 1;
pub const NOT_CARRIED: u32 = 2;
pub const READ_ONLY: u32 = 3;
pub const CONFIGURATION: u32 = 4;
pub const NO_SUCH_CHANNEL: u32 = 5;
pub const SPEED_REFUSED: u32 = 6;
pub const PIN_SET_VALUE: u32 = 7;
pub const BYTE_OR_WORD: u32 = 8;

// K7: "Boxes of modification A keep 01's whole time; boxes of modification B end early." "A is
// number 0, B is 1."
pub const MODIFICATION_A: u8 = 0;
pub const MODIFICATION_B: u8 = 1;

// "00h: bit 7 standby, 6 reset (reads 0), 5 bus timeout, 3 oscillator, 2:1 watchdog code,
// 0 watchdog status. Bits 4 and 0 of a written byte are ignored."
pub const STANDBY: u8 = 0x80;
pub const RESET: u8 = 0x40;
pub const STATUS: u8 = 0x01;
const CONTROL_KEPT: u8 = 0xAF;
const CONTROL_WRITTEN: u8 = 0xAE;

// "02h to 07h, channels 1 to 6: bit 7 RPM mode, 6:5 spin-up code, 4 monitor only, 3 tachometer
// enabled, 2 locked rotor, 1 its polarity, 0 PWM pin used as tachometer."
pub const MONITOR_ONLY: u8 = 0x10;
pub const TACHOMETER_ENABLED: u8 = 0x08;
pub const CONFIGURATION_REFUSED: u8 = 0x85;

// "08h to 0Dh: 7:5 speed range, 4:2 rate code, 1 asymmetric fall."
const DYNAMICS_KEPT: u8 = 0xFE;
pub const ASYMMETRIC_FALL: u8 = 0x02;

// "11h, 13h: fault status and mask, bit 0 for channel 1 to bit 5 for channel 6. 10h reads 0;
// 12h keeps bits 5:0."
const SIX_BITS: u8 = 0x3F;

// "14h: 7:5 start delay, 3:2 failed-fan option, 1:0 queue code."
const OPTIONS_KEPT: u8 = 0xEF;

#[derive(Clone, Copy, Debug, Default, PartialEq, Eq)]
pub struct Channel {
    pub config: u8,
    pub dynamics: u8,
    pub count: u16,
    pub ramp: u16,
    /// Remaining ticks of a running spin-up.
    pub spin: u16,
    pub target: u16,
    pub target_count: u16,
    pub window: u8,
    pub queue: u8,
    /// Pulses within the running spin-up: "as stored it is 0 or 1".
    pub pulses: u8,
}

/// The fields are as wide as the console's state, so that a state which is not sound can be held
/// and refused.
#[derive(Clone, Copy, Debug, Default, PartialEq, Eq)]
pub struct State {
    pub clock: u32,
    /// True when FULL_SPEED is high.
    pub pin: bool,
    pub control: u8,
    pub frequency: u8,
    pub faults: u8,
    pub mask2: u8,
    pub mask1: u8,
    pub options: u8,
    pub expired: bool,
    pub idle: u16,
    pub start_watchdog: u8,
    pub start_spinup: u8,
    pub start_target: u16,
    pub start_frequency: u8,
    /// A pin-set value, as the four before it.
    pub modification: u8,
    /// Ticks until the next fan may start: K8's "one shared wait".
    pub wait: u16,
    pub channels: [Channel; CHANNELS],
}

impl Channel {
    pub fn spin_up_code(&self) -> u8 {
        self.config >> 5 & 3
    }

    pub fn rate_code(&self) -> u8 {
        self.dynamics >> 2 & 7
    }

    pub fn monitor_only(&self) -> bool {
        self.config & MONITOR_ONLY != 0
    }

    pub fn tachometer_enabled(&self) -> bool {
        self.config & TACHOMETER_ENABLED != 0
    }

    /// "Spin-up is due at ramp value 0 with the target above 0 and the spin-up code not 0."
    pub fn spin_up_due(&self) -> bool {
        self.ramp == 0 && self.target > 0 && self.spin_up_code() != 0
    }
}

impl State {
    pub fn watchdog_code(&self) -> u8 {
        self.control >> 1 & 3
    }

    pub fn standby(&self) -> bool {
        self.control & STANDBY != 0
    }

    pub fn failed_fan_option(&self) -> u8 {
        self.options >> 2 & 3
    }

    pub fn queue_code(&self) -> u8 {
        self.options & 3
    }

    pub fn start_delay_code(&self) -> u8 {
        self.options >> 5
    }

    pub fn fault(&self, index: usize) -> bool {
        self.faults >> index & 1 != 0
    }
}

// Time

/// "Watchdog codes 0 to 3: off, 2,560, 5,120, 15,360 ticks." None is off.
pub fn watchdog_limit(code: u8) -> Option<u16> {
    [None, Some(2560), Some(5120), Some(15360)][usize::from(code)]
}

/// "Spin-up codes 0 to 3: none, 256, 512, 1,024 ticks. Spin-up lasts its whole time." K7 ends it
/// early in a box of modification B.
pub fn spin_up_ticks(code: u8) -> u16 {
    [0, 256, 512, 1024][usize::from(code)]
}

/// K8: "14h's start delay comes to life: codes 0 to 5 are 0, 128, 256, 512, 1,024 and 2,048 ticks,
/// with 6 and 7 as 5."
pub fn start_delay(code: u8) -> u16 {
    [0, 128, 256, 512, 1024, 2048, 2048, 2048][usize::from(code)]
}

/// "Rate code k from 1 to 7: period 2^(k-1) ticks. With asymmetric fall the period of a falling
/// duty is doubled." Rate code 0 has no period.
pub fn period(channel: &Channel) -> u32 {
    let falling = channel.target < channel.ramp;
    let asymmetric = channel.dynamics & ASYMMETRIC_FALL != 0;
    let plain = 1 << (channel.rate_code() - 1);
    if falling && asymmetric {
        2 * plain
    } else {
        plain
    }
}

// Soundness

/// "A state is sound when each field is in range, unkept bits are 0, refusal 4's bits are clear, a
/// channel in monitor or a box in standby has ramp value and spin-up time 0, a running spin-up has
/// ramp value 511" and the watchdog's counts and those of pulses agree. Nothing more is asked.
pub fn sound(state: &State) -> bool {
    let stood_down = |channel: &Channel| state.standby() || channel.monitor_only();
    box_in_range(state)
        && watchdog_sound(state)
        && state.channels.iter().all(|channel| {
            channel_in_range(channel)
                && (!stood_down(channel) || channel.ramp == 0 && channel.spin == 0)
                && (channel.spin == 0 || channel.ramp == FULL_DUTY)
                && pulses_sound(state, channel)
        })
}

fn box_in_range(state: &State) -> bool {
    state.control & !CONTROL_KEPT == 0
        && state.faults & !SIX_BITS == 0
        && state.mask2 & !SIX_BITS == 0
        && state.mask1 & !SIX_BITS == 0
        && state.options & !OPTIONS_KEPT == 0
        && state.start_watchdog <= 3
        && state.start_spinup <= 3
        && state.start_target <= FULL_DUTY
        && [MODIFICATION_A, MODIFICATION_B].contains(&state.modification)
        // K8: "wait at most 2,048"
        && state.wait <= LONGEST_WAIT
}

fn channel_in_range(channel: &Channel) -> bool {
    channel.config & CONFIGURATION_REFUSED == 0
        && channel.dynamics & !DYNAMICS_KEPT == 0
        && channel.count <= FULL_COUNT
        && channel.ramp <= FULL_DUTY
        && channel.spin <= LONGEST_SPIN_UP
        && channel.target <= FULL_DUTY
        && channel.target_count <= FULL_COUNT
        && channel.queue <= LONGEST_QUEUE
}

/// "watchdog off means idle 0 and not expired, and otherwise idle is below the limit and not
/// expired, or at it and expired."
fn watchdog_sound(state: &State) -> bool {
    match watchdog_limit(state.watchdog_code()) {
        None => state.idle == 0 && !state.expired,
        Some(limit) if state.expired => state.idle == limit,
        Some(limit) => state.idle < limit,
    }
}

/// K7: "as stored it is 0 or 1, and 0 under A and whenever no spin-up time remains."
fn pulses_sound(state: &State, channel: &Channel) -> bool {
    match channel.pulses {
        0 => true,
        1 => state.modification == MODIFICATION_B && channel.spin > 0,
        _ => false,
    }
}

// Which duty comes out

/// The lines of "Which duty comes out", in the paper's order.
#[derive(Clone, Copy, Debug, PartialEq, Eq)]
pub enum Line {
    MonitorOnly,
    FullSpeed,
    Standby,
    WatchdogExpired,
    FailedFan(u16),
    SpinUp,
    Ramp,
}

impl Line {
    /// "The first five lines are called overrides."
    pub fn is_override(self) -> bool {
        !matches!(self, Line::SpinUp | Line::Ramp)
    }
}

/// "For each channel the first line that applies"
pub fn deciding_line(state: &State, index: usize) -> Line {
    let channel = &state.channels[index];
    if channel.monitor_only() {
        Line::MonitorOnly
    } else if !state.pin {
        Line::FullSpeed
    } else if state.standby() {
        Line::Standby
    } else if state.expired {
        Line::WatchdogExpired
    } else if let Some(duty) = failed_fan_duty(state, index) {
        Line::FailedFan(duty)
    } else if channel.spin > 0 {
        Line::SpinUp
    } else {
        Line::Ramp
    }
}

/// "Failed-fan option 0: a channel whose fault bit is set gives 0. Option 1: no effect. Option 2:
/// such a channel gives 511. Option 3: if any fault bit is set, every channel gives 511. Masks do
/// not matter here."
fn failed_fan_duty(state: &State, index: usize) -> Option<u16> {
    match state.failed_fan_option() {
        0 if state.fault(index) => Some(0),
        2 if state.fault(index) => Some(FULL_DUTY),
        3 if state.faults != 0 => Some(FULL_DUTY),
        _ => None,
    }
}

pub fn output_duty(state: &State, index: usize) -> u16 {
    match deciding_line(state, index) {
        Line::MonitorOnly | Line::Standby => 0,
        Line::FullSpeed | Line::WatchdogExpired | Line::SpinUp => FULL_DUTY,
        Line::FailedFan(duty) => duty,
        Line::Ramp => state.channels[index].ramp,
    }
}

// One tick

pub fn tick(state: &mut State) {
    // "1. The clock advances by one, wrapping."
    state.clock = state.clock.wrapping_add(1);
    watchdog_tick(state);
    // K8: the shared wait "falls by one each tick while above 0, after the watchdog's step." No
    // override holds it.
    state.wait = state.wait.saturating_sub(1);
    // K8: "Then channels go from 1 to 6". The watchdog has had its turn: the tick in which it
    // expires "is already frozen".
    for index in 0..CHANNELS {
        channel_tick(state, index);
    }
}

/// "2. If the watchdog code is not 0 and it has not expired, its idle count goes up by one; at the
/// code's limit it expires and the status bit is set."
fn watchdog_tick(state: &mut State) {
    if let Some(limit) = watchdog_limit(state.watchdog_code()) {
        if !state.expired {
            state.idle += 1;
            if state.idle == limit {
                state.expired = true;
                state.control |= STATUS;
            }
        }
    }
}

fn channel_tick(state: &mut State, index: usize) {
    // "Under an override nothing changes."
    if deciding_line(state, index).is_override() {
        return;
    }
    let channel = state.channels[index];
    let next = moved(&channel, state.clock);
    // K8: "one whose ramp value would leave 0 may do so only at wait 0, and then sets the wait."
    // Held back, it changes nothing in this tick.
    if channel.ramp == 0 && next.ramp > 0 {
        if state.wait > 0 {
            return;
        }
        state.wait = start_delay(state.start_delay_code());
    }
    state.channels[index] = next;
}

/// What a tick that ends at this clock makes of a channel under no override and with no wait.
pub fn moved(channel: &Channel, clock: u32) -> Channel {
    let mut next = *channel;
    if channel.spin > 0 {
        // "Else if spin-up runs, its remaining ticks fall by one." With the last of them goes the
        // count of pulses.
        next.spin -= 1;
        if next.spin == 0 {
            next.pulses = 0;
        }
    } else if channel.spin_up_due() {
        // "spin-up starts: remaining ticks as coded, ramp value 511." K7: "The count of pulses
        // begins anew with each spin-up".
        next.spin = spin_up_ticks(channel.spin_up_code());
        next.ramp = FULL_DUTY;
        next.pulses = 0;
    } else if channel.rate_code() == 0 {
        // "Else with rate code 0 the ramp value becomes the target."
        next.ramp = channel.target;
    } else if clock % period(channel) == 0 {
        // "Else, if the clock is a multiple of the period, the ramp value moves one towards the
        // target."
        next.ramp = one_towards(channel.ramp, channel.target);
    }
    next
}

fn one_towards(ramp: u16, target: u16) -> u16 {
    if ramp < target {
        ramp + 1
    } else if ramp > target {
        ramp - 1
    } else {
        ramp
    }
}

/// True when the next tick and every later one can change nothing but the clock: the watchdog
/// counts no more, no wait runs, and each channel is under an override (ticks end none) or stands
/// at its target. One that is held back stands at 0, which is not its target.
pub fn at_rest(state: &State) -> bool {
    let counting = state.watchdog_code() != 0 && !state.expired;
    !counting
        && state.wait == 0
        && (0..CHANNELS).all(|index| {
            let channel = &state.channels[index];
            deciding_line(state, index).is_override()
                || channel.spin == 0 && channel.ramp == channel.target
        })
}

// Calls. Each gives its refusal number first and the state that goes on last.

/// "From a sound state no jump is refused; from any other, each is refused with 1 and the state
/// stays." Ticks are taken singly; only at rest is the remainder added to the clock.
pub fn ticks(state: &State, count: u32) -> (u32, State) {
    if !sound(state) {
        return (NOT_SOUND, *state);
    }
    let mut next = *state;
    let mut left = count;
    while left > 0 && !at_rest(&next) {
        tick(&mut next);
        left -= 1;
    }
    next.clock = next.clock.wrapping_add(left);
    (ACCEPTED, next)
}

/// "Start takes the pin-set values: watchdog code, spin-up code (each 0 to 3), power-on target (0
/// to 511), the 01h byte." K7: "Start takes the modification."
#[derive(Clone, Copy, Debug, Default)]
pub struct PinSet {
    pub watchdog: u32,
    pub spin_up: u32,
    pub target: u32,
    pub frequency: u8,
    pub modification: u32,
}

/// "Ramp, spin-up, idle, clock and queue counts begin at 0; the pin is high." K8's wait is "at start
/// and reset 0". Refused, it gives "a state with every number 0 and every flag clear, pin low".
pub fn start(values: &PinSet) -> (u32, State) {
    // K7: "7 for another modification."
    let modifications = [MODIFICATION_A, MODIFICATION_B].map(u32::from);
    if values.watchdog > 3
        || values.spin_up > 3
        || values.target > u32::from(FULL_DUTY)
        || !modifications.contains(&values.modification)
    {
        return (PIN_SET_VALUE, State::default());
    }
    let kept = State {
        pin: true,
        start_watchdog: values.watchdog as u8,
        start_spinup: values.spin_up as u8,
        start_target: values.target as u16,
        start_frequency: values.frequency,
        modification: values.modification as u8,
        ..State::default()
    };
    (ACCEPTED, as_at_start(&kept))
}

/// The power-on values of the MAX31790's register table, for the pin-set values that the given state
/// keeps. Clock and pin level are its own too.
fn as_at_start(given: &State) -> State {
    let channel = Channel {
        config: given.start_spinup << 5,
        dynamics: 0b0100_1100,
        count: 0xFFE0 >> 5,
        target: given.start_target,
        target_count: 0x3C00 >> 5,
        ..Channel::default()
    };
    State {
        clock: given.clock,
        pin: given.pin,
        control: 0b0010_0000 | given.start_watchdog << 1,
        frequency: given.start_frequency,
        mask2: 0b0011_1111,
        mask1: 0b0011_1111,
        options: 0b0100_0101,
        start_watchdog: given.start_watchdog,
        start_spinup: given.start_spinup,
        start_target: given.start_target,
        start_frequency: given.start_frequency,
        modification: given.modification,
        wait: 0,
        channels: [channel; CHANNELS],
        ..State::default()
    }
}

/// "There are 85: 00h to 0Dh, 10h to 14h, 18h to 3Bh, 40h to 4Bh, 50h to 5Bh, 60h to 65h."
pub fn carried(address: u32) -> bool {
    matches!(
        address,
        0x00..=0x0D | 0x10..=0x14 | 0x18..=0x3B | 0x40..=0x4B | 0x50..=0x5B | 0x60..=0x65
    )
}

/// "Read-only: 10h, 11h, 18h to 3Bh."
pub fn read_only(address: u32) -> bool {
    matches!(address, 0x10 | 0x11 | 0x18..=0x3B)
}

/// "40h to 4Bh: target duty, 9 bits. 50h to 5Bh: target count, 11 bits."
fn of_a_target(address: u32) -> bool {
    matches!(address, 0x40..=0x4B | 0x50..=0x5B)
}

pub fn write(state: &State, address: u32, byte: u8) -> (u32, State) {
    let refusal = write_refusal(state, address, byte);
    if refusal != ACCEPTED {
        return (refusal, *state);
    }
    let mut next = *state;
    store(&mut next, address, byte);
    bus_access(&mut next);
    (ACCEPTED, next)
}

/// "Tested in the order of their numbers; given then and never otherwise." K6: "8, after 3: a byte
/// write to 40h to 4Bh or 50h to 5Bh, or a word write elsewhere or to an odd address."
fn write_refusal(state: &State, address: u32, byte: u8) -> u32 {
    let configuration = (0x02..=0x07).contains(&address);
    if !sound(state) {
        NOT_SOUND
    } else if !carried(address) {
        NOT_CARRIED
    } else if read_only(address) {
        READ_ONLY
    } else if of_a_target(address) {
        BYTE_OR_WORD
    } else if configuration && byte & CONFIGURATION_REFUSED != 0 {
        CONFIGURATION
    } else {
        ACCEPTED
    }
}

/// K6: "Join the two byte writes of a target duty or target count into one word write. It counts as
/// one bus transaction, and for a duty clears the fault once."
pub fn write_word(state: &State, address: u32, word: u16) -> (u32, State) {
    let refusal = word_refusal(state, address);
    if refusal != ACCEPTED {
        return (refusal, *state);
    }
    let mut next = *state;
    store_word(&mut next, address, word);
    bus_access(&mut next);
    (ACCEPTED, next)
}

/// 1, 2 and 3 as for a byte write, then K6's 8: "a word write elsewhere or to an odd address."
fn word_refusal(state: &State, address: u32) -> u32 {
    let even = address % 2 == 0;
    if !sound(state) {
        NOT_SOUND
    } else if !carried(address) {
        NOT_CARRIED
    } else if read_only(address) {
        READ_ONLY
    } else if !of_a_target(address) || !even {
        BYTE_OR_WORD
    } else {
        ACCEPTED
    }
}

/// "Each accepted read or write sets the idle count to 0 and ends an expiry; a refused one does
/// neither."
fn bus_access(state: &mut State) {
    state.idle = 0;
    state.expired = false;
}

/// Stores a byte at a carried register that takes one.
fn store(state: &mut State, address: u32, byte: u8) {
    let register = address as usize;
    match register {
        0x00 => store_control(state, byte),
        0x01 => state.frequency = byte,
        0x02..=0x07 => store_configuration(&mut state.channels[register - 0x02], byte),
        0x08..=0x0D => state.channels[register - 0x08].dynamics = byte & DYNAMICS_KEPT,
        0x12 => state.mask2 = byte & SIX_BITS,
        0x13 => state.mask1 = byte & SIX_BITS,
        // A running wait stays as it is: the code counts where a fan starts.
        0x14 => state.options = byte & OPTIONS_KEPT,
        0x60..=0x65 => state.channels[register - 0x60].window = byte,
        _ => unreachable!("refused before: not carried, read-only or of a target"),
    }
}

fn store_control(state: &mut State, byte: u8) {
    if byte & RESET != 0 {
        // "To 00h with bit 6: everything but clock and pin level as at start, the other bits
        // ignored."
        *state = as_at_start(state);
        return;
    }
    state.control = byte & CONTROL_WRITTEN | state.control & STATUS;
    if byte & STANDBY != 0 {
        // "To 00h with bit 7 and not 6: all ramp values and spin-up times become 0." K8: "Standby
        // does not clear it", the wait.
        state.channels.iter_mut().for_each(stop_ramp);
    }
}

/// "To a fan configuration with bit 4: that channel's ramp value and spin-up time become 0." "A
/// changed spin-up code does not shorten one that runs."
fn store_configuration(channel: &mut Channel, byte: u8) {
    channel.config = byte;
    if byte & MONITOR_ONLY != 0 {
        stop_ramp(channel);
    }
}

fn stop_ramp(channel: &mut Channel) {
    channel.ramp = 0;
    end_spin_up(channel);
}

/// The count of pulses is 0 "whenever no spin-up time remains."
fn end_spin_up(channel: &mut Channel) {
    channel.spin = 0;
    channel.pulses = 0;
}

/// Stores a word at the even address of a target. "Both left-justified": what stands below the nine
/// bits of a duty or the eleven of a count is dropped.
fn store_word(state: &mut State, address: u32, word: u16) {
    let register = address as usize;
    match register {
        0x40..=0x4B => store_target(state, (register - 0x40) / 2, word >> 7),
        0x50..=0x5B => state.channels[(register - 0x50) / 2].target_count = word >> 5,
        _ => unreachable!("refused before: no target"),
    }
}

/// A write of a target duty: "that channel's fault bit and queue count become 0."
fn store_target(state: &mut State, index: usize, duty: u16) {
    let channel = &mut state.channels[index];
    channel.target = duty;
    channel.queue = 0;
    state.faults &= !(1 << index);
}

/// "Two-byte values have the high byte first": it stands at the even register.
fn byte_of(word: u16, register: usize) -> u8 {
    if register % 2 == 0 {
        (word >> 8) as u8
    } else {
        word as u8
    }
}

/// Gives refusal, byte and state. "Read answers from the state before it. A read of 00h then
/// clears the status bit." "After a refused read the byte is 0."
pub fn read(state: &State, address: u32) -> (u32, u8, State) {
    if !sound(state) {
        return (NOT_SOUND, 0, *state);
    }
    if !carried(address) {
        return (NOT_CARRIED, 0, *state);
    }
    let mut next = *state;
    if address == 0x00 {
        next.control &= !STATUS;
    }
    bus_access(&mut next);
    (ACCEPTED, shown(state, address), next)
}

/// The byte that a carried register shows.
fn shown(state: &State, address: u32) -> u8 {
    let register = address as usize;
    match register {
        0x00 => state.control,
        0x01 => state.frequency,
        0x02..=0x07 => state.channels[register - 0x02].config,
        0x08..=0x0D => state.channels[register - 0x08].dynamics,
        0x10 => 0,
        0x11 => state.faults,
        0x12 => state.mask2,
        0x13 => state.mask1,
        0x14 => state.options,
        0x18..=0x23 => byte_of(state.channels[(register - 0x18) / 2].count << 5, register),
        // "Those of tachometers 7 to 12 (24h on) read FFE0h."
        0x24..=0x2F => byte_of(0xFFE0, register),
        0x30..=0x3B => byte_of(
            duty_word(output_duty(state, (register - 0x30) / 2)),
            register,
        ),
        0x40..=0x4B => byte_of(state.channels[(register - 0x40) / 2].target << 7, register),
        0x50..=0x5B => byte_of(
            state.channels[(register - 0x50) / 2].target_count << 5,
            register,
        ),
        0x60..=0x65 => state.channels[register - 0x60].window,
        _ => unreachable!("refused before: not carried"),
    }
}

/// "30h to 3Bh: output duty, 9 bits, left-justified; bit 0 of the low byte reads 1 exactly at
/// 511."
fn duty_word(duty: u16) -> u16 {
    duty << 7 | u16::from(duty == FULL_DUTY)
}

fn channel_index(channel: u32) -> Option<usize> {
    (1..=CHANNELS as u32)
        .contains(&channel)
        .then(|| channel as usize - 1)
}

/// "Tachometer result (channel, count of 8,192 Hz clocks). If tachometer enabled is clear, it is
/// accepted and nothing changes. Else the lesser of the count and 2,047 is stored."
pub fn tachometer(state: &State, channel: u32, count: u32) -> (u32, State) {
    if !sound(state) {
        return (NOT_SOUND, *state);
    }
    let Some(index) = channel_index(channel) else {
        return (NO_SUCH_CHANNEL, *state);
    };
    let mut next = *state;
    if state.channels[index].tachometer_enabled() {
        next.channels[index].count = count.min(u32::from(FULL_COUNT)) as u16;
        if judged(state, index) {
            judge(&mut next, index);
        }
    }
    (ACCEPTED, next)
}

/// "It is judged if the box is not in standby, no spin-up time remains, and the channel is monitor
/// only or its output duty is above 0." This looks at the state before the result.
pub fn judged(state: &State, index: usize) -> bool {
    let channel = &state.channels[index];
    !state.standby()
        && channel.spin == 0
        && (channel.monitor_only() || output_duty(state, index) > 0)
}

/// "the queue length (codes 0 to 3: 1, 2, 4, 6)"
pub fn queue_length(code: u8) -> u8 {
    [1, 2, 4, 6][usize::from(code)]
}

/// "Judged bad when the stored count exceeds the target count"; K3: "a stored count of 2,047 is bad
/// for any target."
pub fn bad(channel: &Channel) -> bool {
    channel.count > channel.target_count || channel.count == FULL_COUNT
}

/// Judged bad, "the channel's queue count goes up, to at most 6, and if it is then at least the
/// queue length (codes 0 to 3: 1, 2, 4, 6) the fault bit is set. Judged good: queue count 0, fault
/// bit kept."
fn judge(state: &mut State, index: usize) {
    let length = queue_length(state.queue_code());
    let channel = &mut state.channels[index];
    if bad(channel) {
        channel.queue = (channel.queue + 1).min(LONGEST_QUEUE);
        if channel.queue >= length {
            state.faults |= 1 << index;
        }
    } else {
        channel.queue = 0;
    }
}

/// K7: "A new call reports one pulse on a channel: under B, the second pulse within a running
/// spin-up sets its remaining ticks to 0; under A it does nothing." A spin-up that an override
/// freezes is running too: it has ticks left. It asks for no tachometer enabled, and it is no bus
/// access.
pub fn pulse(state: &State, channel: u32) -> (u32, State) {
    if !sound(state) {
        return (NOT_SOUND, *state);
    }
    let Some(index) = channel_index(channel) else {
        return (NO_SUCH_CHANNEL, *state);
    };
    let mut next = *state;
    let channel = &mut next.channels[index];
    if state.modification == MODIFICATION_B && channel.spin > 0 {
        if channel.pulses == 0 {
            channel.pulses = 1;
        } else {
            end_spin_up(channel);
        }
    }
    (ACCEPTED, next)
}

/// "Pin stores the level and nothing else."
pub fn pin(state: &State, level: bool) -> (u32, State) {
    if !sound(state) {
        return (NOT_SOUND, *state);
    }
    let next = State {
        pin: level,
        ..*state
    };
    (ACCEPTED, next)
}

/// A number in thousand millionths: 1/512 is 1,953,125 of them, so that these are exact.
pub type Billionths = u64;
const PER_512TH: Billionths = 1_953_125;

/// Gives refusal, seconds and six shares. "clock in seconds, the clock divided by 512 and exact;
/// each duty as a share, duty divided by 512 and exact, with 511 given as 1; duty here is output
/// duty." "After a refused cabin reading or FAN_FAIL query every number is 0".
pub fn cabin(state: &State) -> (u32, Billionths, [Billionths; CHANNELS]) {
    if !sound(state) {
        return (NOT_SOUND, 0, [0; CHANNELS]);
    }
    let mut shares = [0; CHANNELS];
    for (index, share) in shares.iter_mut().enumerate() {
        let duty = output_duty(state, index);
        let parts = if duty == FULL_DUTY { 512 } else { duty };
        *share = u64::from(parts) * PER_512TH;
    }
    (ACCEPTED, u64::from(state.clock) * PER_512TH, shares)
}

/// Gives refusal, asserted, how many and the lowest. "FAN_FAIL is asserted exactly when some
/// channel has its fault bit set and its mask bit clear. With it go how many unmasked channels
/// have failed and the lowest one, 0 if none."
pub fn fan_fail(state: &State) -> (u32, bool, u32, u32) {
    if !sound(state) {
        return (NOT_SOUND, false, 0, 0);
    }
    let mut failed = 0;
    let mut lowest = 0;
    for index in 0..CHANNELS {
        let masked = state.mask1 >> index & 1 != 0;
        if state.fault(index) && !masked {
            failed += 1;
            if lowest == 0 {
                lowest = index as u32 + 1;
            }
        }
    }
    (ACCEPTED, failed > 0, failed, lowest)
}

/// What the speed calculation answers.
#[derive(Clone, Copy, Debug, PartialEq, Eq)]
pub enum Speed {
    Rpm(u32),
    Stopped,
    TooFast,
    Refused,
}

/// "Speed: floor(491,520 × range / (pulses × count)), range 1, 2, 4, 8, 16, 32, 32, 32 for codes 0
/// to 7." "The speed calculation shall answer stopped for count 2,047 and too fast for count 0.
/// [..] 6 stays for codes, pulses and counts above 2,047, tested first."
pub fn speed(range_code: u32, pulses: u32, count: u32) -> Speed {
    let ranges = [1, 2, 4, 8, 16, 32, 32, 32];
    let Some(range) = ranges.get(range_code as usize) else {
        return Speed::Refused;
    };
    if !(1..=4).contains(&pulses) {
        return Speed::Refused;
    }
    match count {
        0 => Speed::TooFast,
        1..=2046 => Speed::Rpm(491_520 * range / (pulses * count)),
        2047 => Speed::Stopped,
        2048.. => Speed::Refused,
    }
}

#[cfg(test)]
mod tests;

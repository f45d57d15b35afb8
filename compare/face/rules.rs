//! The scope paper's numbers: what is allowed, and what follows from rate, ceiling and span. Written from the paper alone.

pub const LIMIT: u64 = 1 << 62;
/// Bins that an envelope keeps beyond a window.
pub const SLACK: u64 = 4000;

pub const OUTSIDE_TABLE: u32 = 1;
pub const WRONG_LENGTH: u32 = 2;
pub const BROKEN_STATE: u32 = 3;
pub const NOT_FINITE: u32 = 4;
pub const TOO_LARGE: u32 = 5;
pub const FRAME_WAITS: u32 = 6;
pub const NO_FULL_FRAME: u32 = 7;
/// Request f.
pub const INCONSISTENT_RECORD: u32 = 9;

/// Request n.
pub const NO_SUCH_CHANNEL: u32 = 11;

/// Nothing stands against the call, or the number that it is to be refused with.
pub type Judged = Result<(), u32>;

pub fn require(holds: bool, number: u32) -> Judged {
    if holds {
        Ok(())
    } else {
        Err(number)
    }
}

/// How the judging of a making begins: the setting it is given, then the length of the state.
pub fn judged_making(allowed: bool, state_fits: bool) -> Judged {
    require(allowed, OUTSIDE_TABLE)?;
    require(state_fits, WRONG_LENGTH)
}

/// How the judging of a call on a state begins. A state of another length has no setting that could be read; of one that fits, the setting
/// comes before the length of any other list.
pub fn judged(state_fits: bool, allowed: impl FnOnce() -> bool, values_fit: bool) -> Judged {
    require(state_fits, WRONG_LENGTH)?;
    require(allowed(), OUTSIDE_TABLE)?;
    require(values_fit, WRONG_LENGTH)
}

pub fn allowed_rate(rate: u64) -> bool {
    (8_000..=192_000).contains(&rate)
}

pub fn allowed_ceiling(ceiling: u64) -> bool {
    (1..=4_000).contains(&ceiling)
}

pub fn allowed_span(span: u64) -> bool {
    (1..=32_768).contains(&span)
}

/// A number of 32 bits.
pub fn is_half(word: u64) -> bool {
    word < 1 << 32
}

pub fn is_flag(word: u64) -> bool {
    word < 2
}

pub fn finite32(bits: u32) -> bool {
    bits & 0x7f80_0000 != 0x7f80_0000
}

pub fn finite64(bits: u64) -> bool {
    bits & 0x7ff0_0000_0000_0000 != 0x7ff0_0000_0000_0000
}

pub fn all_finite32(list: &[f32]) -> bool {
    list.iter().all(|x| finite32(x.to_bits()))
}

pub fn all_finite64(list: &[f64]) -> bool {
    list.iter().all(|x| finite64(x.to_bits()))
}

/// Milliseconds at a rate, rounded down, at least 1.
pub fn per_ms(ms: u64, rate: u64) -> u64 {
    (ms * rate / 1000).max(1)
}

/// "Tracker cycles": the distances of a tracker at an allowed rate: late, early, agreement, apart, lead.
pub fn bands(rate: u64) -> [u64; 5] {
    [4, 48, 24, 100, 8].map(|ms| per_ms(ms, rate))
}

/// "Bins and blocks": what follows from an allowed rate and ceiling.
#[derive(Clone, Copy, PartialEq, Eq, Debug)]
pub struct Bins {
    pub decimation: u64,
    pub bin_rate: u64,
    pub span: u64,
    pub frame: u64,
    pub ceiling_guard: u64,
    pub peak_guard: u64,
    pub slack: u64,
}

impl Bins {
    pub fn of(rate: u64, ceiling: u64) -> Bins {
        Bins::with(SLACK, rate, ceiling)
    }

    pub fn with(slack: u64, rate: u64, ceiling: u64) -> Bins {
        let decimation = ((rate + 500) / 1000).max(1);
        let bin_rate = (rate / decimation).max(1);
        Bins {
            decimation,
            bin_rate,
            span: per_ms(ceiling, bin_rate),
            frame: per_ms(256, bin_rate),
            ceiling_guard: per_ms(8, bin_rate),
            peak_guard: per_ms(30, bin_rate),
            slack,
        }
    }

    pub fn words(&self) -> [u64; 6] {
        [
            self.decimation,
            self.bin_rate,
            self.span,
            self.frame,
            self.ceiling_guard,
            self.peak_guard,
        ]
    }

    pub fn window(&self) -> u64 {
        self.frame + self.span
    }

    pub fn envelope(&self) -> u64 {
        self.window() + self.slack
    }

    pub fn prefix(&self) -> u64 {
        self.window() + 1
    }

    pub fn lags(&self) -> u64 {
        self.span + 1
    }
}

/// "Fine gate and peak": what follows from an allowed span.
#[derive(Clone, Copy, PartialEq, Eq, Debug)]
pub struct Lengths {
    pub transform: u64,
    pub frame: u64,
    pub window: u64,
}

impl Lengths {
    pub fn of(span: u64) -> Lengths {
        let transform = (2 * span).next_power_of_two().clamp(256, 65_536);
        let frame = transform - span;
        Lengths {
            transform,
            frame,
            window: frame + span,
        }
    }
}

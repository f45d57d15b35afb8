//! The panel: a scan of the narrow profile, in less than 24 KiB. Rates are 8,000 and 16,000 Hz, ceilings 8 to 320 ms, and the far history is shorter than a [`Scan`](crate::Scan)'s.

use crate::answers::Refusal;
use crate::scan::{scan_calls, window_len, Region, ScanMemory, Scored, Taking, WORDS};

const SLACK: usize = 512;

/// Length of [`ScanMemory::envelope`] for a panel; 0 where the profile does not allow rate or ceiling. The other lists are as long as a scan's.
pub const fn envelope_len(rate: u32, ceiling: u32) -> usize {
    if (rate == 8_000 || rate == 16_000) && ceiling >= 8 && ceiling <= 320 {
        window_len(rate, ceiling) + SLACK
    } else {
        0
    }
}

/// A coarse scan of the narrow profile. It answers as a [`Scan`](crate::Scan) does where its shorter far history covers the frame.
#[derive(Debug)]
pub struct Panel<'m> {
    state: [u64; WORDS],
    memory: ScanMemory<'m>,
}

scan_calls!(Panel, panel);

//! The calls of the fine stage and the lists that they are lent. The referee and those who make the calls share this and nothing else.

use crate::shape::{self, Shape};

#[derive(Clone, Copy, PartialEq, Debug)]
pub enum List {
    State,
    Values,
    Near,
    Retained,
    Far,
    Correlation,
    Samples,
}

#[derive(Clone, Copy, PartialEq, Debug)]
pub enum Call {
    New(u32),
    Restart,
    Relocate(u64),
    Reset,
    PushNear(f32),
    PushNearRun,
    Gate { head: u64, tail: u64 },
    Rescan { head: u64, tail: u64 },
    Peak,
    FrameLen,
    WindowLen,
    MaxDelay,
    WindowBackOff,
    SearchRange,
    Frames,
    Skipped,
    LastScanRatio,
    LastScanPeakAt,
    LastScanOrigin,
    Scans,
}

pub const REPORTS: [Call; 11] = [
    Call::FrameLen,
    Call::WindowLen,
    Call::MaxDelay,
    Call::WindowBackOff,
    Call::SearchRange,
    Call::Frames,
    Call::Skipped,
    Call::LastScanRatio,
    Call::LastScanPeakAt,
    Call::LastScanOrigin,
    Call::Scans,
];

impl shape::Call for Call {
    type List = List;

    fn shape(&self) -> Shape<List> {
        use List::*;
        let (name, lent, values): (_, &[List], _) = match self {
            Call::New(_) => ("new", &[State], 0),
            Call::Restart => ("restart", &[State], 0),
            Call::Relocate(_) => ("relocate", &[State], 0),
            Call::Reset => ("reset", &[State], 0),
            Call::PushNear(_) => ("push_near", &[State, Near], 0),
            Call::PushNearRun => ("push_near_run", &[State, Near, Samples, Values], 1),
            Call::Gate { .. } => ("gate", &[State, Near, Retained, Far], 0),
            Call::Rescan { .. } => ("rescan", &[State, Retained, Far], 0),
            Call::Peak => ("peak", &[State, Correlation, Values], 4),
            Call::FrameLen => ("state_frame_len", &[State, Values], 1),
            Call::WindowLen => ("state_window_len", &[State, Values], 1),
            Call::MaxDelay => ("max_delay", &[State, Values], 1),
            Call::WindowBackOff => ("window_back_off", &[State, Values], 1),
            Call::SearchRange => ("search_range", &[State, Values], 2),
            Call::Frames => ("frames", &[State, Values], 1),
            Call::Skipped => ("skipped", &[State, Values], 1),
            Call::LastScanRatio => ("last_scan_ratio", &[State, Values], 1),
            Call::LastScanPeakAt => ("last_scan_peak_at", &[State, Values], 2),
            Call::LastScanOrigin => ("last_scan_origin", &[State, Values], 1),
            Call::Scans => ("scans", &[State, Values], 1),
        };
        Shape { name, lent, values }
    }
}

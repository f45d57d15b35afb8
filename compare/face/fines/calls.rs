//! The calls of the fine stage, made: what the face answers, and what the original does.

use super::beside::{self, Original};
use super::shape::Call;
use super::world::World;
use crate::delay::{DelayEstimator, WindowSupport};
use crate::face::fine as face;

/// Calls the face.
pub fn face(w: &mut World, call: &Call) -> u32 {
    let (state, values) = (w.state.lent_mut(), w.values.lent_mut());
    let report: fn(&[u64], &mut [u64]) -> u32 = match *call {
        Call::New(span) => return face::new(state, span),
        Call::Restart => return face::restart(state),
        Call::Relocate(origin) => return face::relocate(state, origin),
        Call::Reset => return face::reset(state),
        Call::PushNear(sample) => return face::push_near(state, w.near.lent_mut(), sample),
        Call::PushNearRun => {
            return face::push_near_run(state, w.near.lent_mut(), w.samples.lent(), values)
        }
        Call::Gate { head, tail } => {
            let (near, retained) = (w.near.lent(), w.retained.lent_mut());
            return face::gate(state, near, retained, w.far.lent(), head, tail);
        }
        Call::Rescan { head, tail } => {
            return face::rescan(state, w.retained.lent(), w.far.lent(), head, tail)
        }
        Call::Peak => return face::peak(state, w.correlation.lent(), values),
        Call::FrameLen => face::state_frame_len,
        Call::WindowLen => face::state_window_len,
        Call::MaxDelay => face::max_delay,
        Call::WindowBackOff => face::window_back_off,
        Call::SearchRange => face::search_range,
        Call::Frames => face::frames,
        Call::Skipped => face::skipped,
        Call::LastScanRatio => face::last_scan_ratio,
        Call::LastScanPeakAt => face::last_scan_peak_at,
        Call::LastScanOrigin => face::last_scan_origin,
        Call::Scans => face::scans,
    };
    report(state, values)
}

/// Does the same with the original: the number of the case, and the values that go with it.
pub fn original(w: &World, call: &Call, original: &mut Original) -> (u32, Vec<u64>) {
    let fine = &mut original.fine;
    match *call {
        Call::New(span) => *original = Original::new(span),
        Call::Restart => fine.restart(),
        Call::Relocate(origin) => fine.relocate(origin as usize),
        Call::Reset => fine.reset(),
        Call::PushNear(sample) => return (16 + fine.push_near(sample) as u32, vec![]),
        Call::PushNearRun => return near_run(w, fine),
        Call::Gate { head, tail } => return (gate(w, fine, head, tail), vec![]),
        Call::Rescan { head, tail } => return (rescan(w, original, head, tail), vec![]),
        Call::Peak => return peak(w, original),
        _ => return report(w, call, original),
    }
    (16, vec![])
}

/// Sample by sample, up to the one that completes the frame.
fn near_run(w: &World, fine: &mut DelayEstimator) -> (u32, Vec<u64>) {
    let samples = w.samples.lent();
    for (i, sample) in samples.iter().enumerate() {
        if fine.push_near(*sample) {
            return (17, vec![i as u64 + 1]);
        }
    }
    (16, vec![samples.len() as u64])
}

fn report(w: &World, call: &Call, original: &Original) -> (u32, Vec<u64>) {
    let fine = &original.fine;
    let value = match call {
        Call::FrameLen => fine.frame_len() as u64,
        Call::WindowLen => fine.window_len() as u64,
        Call::MaxDelay => fine.max_delay() as u64,
        Call::WindowBackOff => fine.window_back_off() as u64,
        Call::SearchRange => {
            let (first, last) = fine.search_range();
            return (16, vec![first as u64, last as u64]);
        }
        Call::Frames => beside::stored(w, original)[6],
        Call::Skipped => beside::stored(w, original)[7],
        Call::Scans => beside::stored(w, original)[8],
        Call::LastScanRatio => fine.last_scan_ratio().to_bits(),
        Call::LastScanOrigin => fine.last_scan_origin() as u64,
        Call::LastScanPeakAt => match original.peak_at() {
            None => return (16, vec![]),
            Some(positions) => return (17, positions.to_vec()),
        },
        _ => unreachable!("no report"),
    };
    (16, vec![value])
}

/// Without a candidate the first value and the third are as they were.
fn peak(w: &World, original: &mut Original) -> (u32, Vec<u64>) {
    let fine = &mut original.fine;
    let span = fine.max_delay();
    let searched = &w.correlation.lent()[..=span];
    fine.correlation().copy_from_slice(searched);
    let candidate = fine.peak_rule().candidate;
    let last = original.note_last();
    match candidate {
        None => {
            let first = original.fine.last_scan_peak_at().expect("a scan") as u64;
            let before = w.values.before();
            (16, vec![before[0], first, before[2], last])
        }
        Some(lock) => {
            let (delay, first) = (lock.delay as u64, lock.peak_at as u64);
            (17, vec![delay, first, lock.ratio.to_bits(), last])
        }
    }
}

fn support(head: u64, tail: u64) -> WindowSupport {
    WindowSupport {
        missing_head: head as usize,
        missing_tail: tail as usize,
    }
}

/// The original goes on into the transform and the peak rule; what it records there is undone, for here the host asks for it.
fn gate(w: &World, fine: &mut DelayEstimator, head: u64, tail: u64) -> u32 {
    let skipped = fine.skipped();
    let scored = fine.observe(w.far.lent(), support(head, tail)).scored;
    beside::forget_scan(w, fine);
    match scored {
        true if fine.frames() == 1 => 18,
        true => 19,
        false if fine.skipped() != skipped => 16,
        false => 17,
    }
}

/// The original does not say why a rescan was left: the same frame at its gate does.
fn rescan(w: &World, original: &mut Original, head: u64, tail: u64) -> u32 {
    let fine = &mut original.fine;
    let retained = fine.fields().retained;
    let scored = fine.rescan(w.far.lent(), support(head, tail)).scored;
    let mut answer = 19;
    if !retained {
        answer = 16;
    } else if !scored {
        fine.set_state(0, w.retained.before(), None, (0, 0, 0));
        fine.observe(w.far.lent(), support(head, tail));
        answer = if fine.skipped() == 1 { 17 } else { 18 };
    }
    beside::bring(w, original);
    answer
}

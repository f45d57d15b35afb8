//! The panel: a scan of the narrow profile, beside the original compiled with its slack. Calls, lists, referee and damage are the scan's.

mod cases;
pub mod streams;

use crate::coarse_panel::CoarseScan;
use crate::course::Case;
use crate::face;
use crate::random::Random;
use crate::scans::original::originals;
use crate::scans::profile::{calls, Profile};
use crate::scans::shape::Call;
use crate::scans::Kind;

originals!(coarse_panel);

/// Request j: rates, ceilings and slack.
pub static PANEL: Profile = Profile {
    slack: 512,
    allowed: |rate, ceiling| (rate == 8000 || rate == 16000) && (8..=320).contains(&ceiling),
    least: (8000, 8),
    setting,
    rates: &[
        7_999, 8_000, 8_001, 11_025, 12_000, 15_999, 16_000, 16_001, 48_000,
    ],
    calls: calls!(face::panel),
};

fn setting(random: &mut Random) -> (u32, u32) {
    let ceiling = match random.below(20) {
        0 => random.one_of(&[319, 320]),
        1 => random.between(100, 320) as u32,
        _ => random.one_of(&[8, 8, 9, 12, 16, 20, 31, 40]),
    };
    (random.one_of(&[8000, 16000]), ceiling)
}

pub(crate) struct Panel;

impl Kind for Panel {
    type Original = CoarseScan;
    const WHAT: &'static str = "panel";
    const PROFILE: &'static Profile = &PANEL;
    const CASES: &'static [Case<Call>] = cases::CASES;
}

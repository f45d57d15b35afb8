//! What a scan is allowed and which calls of the face it has: the full one here, others beside it.

use crate::face;
use crate::random::Random;
use crate::rules::{self, SLACK};

pub struct Profile {
    /// Bins that the envelope keeps beyond a window.
    pub slack: u64,
    pub allowed: fn(u64, u64) -> bool,
    /// The least rate and ceiling.
    pub least: (u32, u32),
    /// Some rate and ceiling. Spans are small mostly, so that many frames are scored in the time.
    pub setting: fn(&mut Random) -> (u32, u32),
    /// Rates that a making is tried with.
    pub rates: &'static [u32],
    pub calls: Calls,
}

type Making = fn(&mut [u64], &mut [f32], &mut [f64], u32, u32) -> u32;
type Restart = fn(&mut [u64], &mut [f32], &mut [f64]) -> u32;
type Clearing = fn(&mut [u64], &mut [f64]) -> u32;
type FarPush = fn(&mut [u64], &mut [f32], &[f32]) -> u32;
type NearPush = fn(&mut [u64], &mut [f32], f32, u64) -> u32;
type NearRun = fn(&mut [u64], &mut [f32], &[f32], u64, &mut [u64]) -> u32;
type Scoring = fn(
    &mut [u64],
    &[f32],
    &[f32],
    &mut [f32],
    &mut [f64],
    &mut [f64],
    &mut [f64],
    &mut [f64],
    &mut [u64],
) -> u32;
type Report = fn(&[u64], &mut [u64]) -> u32;
type Flag = fn(&[u64]) -> u32;

/// The calls of the face.
pub struct Calls {
    pub new: Making,
    pub reset: Restart,
    pub rearm: Clearing,
    pub discard_near: Clearing,
    pub push_far: FarPush,
    pub push_near: NearPush,
    pub push_near_run: NearRun,
    pub observe: Scoring,
    pub bin_samples: Report,
    pub ceiling_samples: Report,
    pub frames: Report,
    pub correlation: Report,
    pub region: Report,
    pub beyond_ceiling: Flag,
    pub finished: Flag,
    pub exhausted: Flag,
}

/// The calls of a module of the face that has all of a scan's.
macro_rules! calls {
    ($module:path) => {{
        use $module as of;
        crate::scans::profile::Calls {
            new: of::new,
            reset: of::reset,
            rearm: of::rearm,
            discard_near: of::discard_near,
            push_far: of::push_far,
            push_near: of::push_near,
            push_near_run: of::push_near_run,
            observe: of::observe,
            bin_samples: of::bin_samples,
            ceiling_samples: of::ceiling_samples,
            frames: of::frames,
            correlation: of::correlation,
            region: of::region,
            beyond_ceiling: of::beyond_ceiling,
            finished: of::finished,
            exhausted: of::exhausted,
        }
    }};
}
pub(crate) use calls;

pub const RATES: [u32; 14] = [
    8000, 8499, 8500, 9499, 11025, 12000, 16000, 22050, 32000, 44100, 48000, 88200, 96000, 192000,
];
const CEILINGS: [u32; 12] = [1, 2, 3, 5, 7, 8, 9, 12, 16, 20, 31, 40];

pub static FULL: Profile = Profile {
    slack: SLACK,
    allowed: |rate, ceiling| rules::allowed_rate(rate) && rules::allowed_ceiling(ceiling),
    least: (8000, 1),
    setting: any_setting,
    rates: &[7_999, 8_000, 16_000, 48_000, 96_000, 192_000, 192_001],
    calls: calls!(face::scan),
};

fn any_setting(random: &mut Random) -> (u32, u32) {
    let rate = match random.below(3) {
        0 => random.between(8000, 192_000) as u32,
        _ => random.one_of(&RATES),
    };
    let ceiling = match random.below(60) {
        0 => random.between(100, 600) as u32,
        1..=5 => random.between(40, 100) as u32,
        _ => random.one_of(&CEILINGS),
    };
    (rate, ceiling)
}

//! What this crate says itself, held to what the archive says.

use crate::answers::done;
use crate::face;
use crate::{fine, pair, panel, ring, scan, tracker, Refusal};

#[test]
fn words() {
    let ours = [scan::WORDS, pair::WORDS, fine::WORDS, tracker::WORDS, ring::WORDS].map(|words| words as u64);
    assert_eq!(ours, [face::scan::words(), face::pair::words(), face::fine::words(), face::tracker::words(), face::ring::words()]);
}

#[test]
fn a_pair_has_two_channels() {
    let refused = [2, 3, 256, u32::MAX].map(|channel| done(face::pair::finished(&[], channel)));
    assert_eq!(refused, [Err(Refusal::NoSuchChannel); 4]);
    assert_eq!(done(face::pair::finished(&[], 1)), Err(Refusal::WrongLength));
}

#[test]
fn version() {
    let mut parts = env!("CARGO_PKG_VERSION").split('.').map(|part| part.parse::<u32>().unwrap());
    let mut next = || parts.next().unwrap();
    assert_eq!(crate::version(), next() * 10_000 + next() * 100 + next());
}

#[test]
fn scan_lengths() {
    for rate in (7_999..=192_001).step_by(7).chain([0, 8_000, 8_499, 12_000, 16_000, 16_001, 48_000, 192_000, u32::MAX]) {
        for ceiling in [0, 1, 3, 7, 8, 100, 320, 321, 500, 999, 4_000, 4_001, u32::MAX] {
            let ours = [
                panel::envelope_len(rate, ceiling),
                scan::envelope_len(rate, ceiling),
                scan::levels_len(rate, ceiling),
                scan::window_len(rate, ceiling),
                scan::prefix_len(rate, ceiling),
                scan::lags_len(rate, ceiling),
            ];
            let archive = [
                face::panel::envelope_len(rate, ceiling),
                face::scan::envelope_len(rate, ceiling),
                face::scan::levels_len(rate, ceiling),
                face::scan::window_len(rate, ceiling),
                face::scan::prefix_len(rate, ceiling),
                face::scan::lags_len(rate, ceiling),
            ];
            assert_eq!(ours.map(|len| len as u64), archive, "{rate} {ceiling}");
        }
    }
}

#[test]
fn fine_lengths() {
    for span in (0..=32_769).chain([u32::MAX]) {
        let ours = [fine::frame_len(span), fine::window_len(span), fine::correlation_len(span), fine::transform_len(span)];
        let archive = [face::fine::frame_len(span), face::fine::window_len(span), face::fine::correlation_len(span), face::fine::transform_len(span)];
        assert_eq!(ours.map(|len| len as u64), archive, "{span}");
    }
}

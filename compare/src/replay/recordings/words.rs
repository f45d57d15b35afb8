//! Every word of a frame.

use super::*;
use crate::signal::{Signal, SILENCE};

/// Every word of a frame, at many rates.
pub fn every(random: &mut Random, shelf: &mut Shelf) {
    for (rate, ceiling, frames) in [
        (8000, 1, 4),
        (8000, 9, 4),
        (8000, 64, 5),
        (8499, 30, 4),
        (8500, 20, 4),
        (11_025, 12, 4),
        (16_000, 31, 4),
        (22_050, 40, 1),
        (32_000, 15, 1),
        (44_100, 9, 1),
        (48_000, 20, 4),
        (96_000, 2, 1),
        (192_000, 1, 0),
    ] {
        let mut scene = Scene::new(random, rate, ceiling);
        let bins = if frames == 0 {
            3
        } else {
            scene.span + scene.frame
        };
        scene.lay(bins);
        let within = scene.span.saturating_sub(9).max(1) * scene.block;
        scene.echoes(frames.max(1), random.below(within));
        shelf.add(
            format!("an echo at {rate}, ceiling {ceiling}"),
            scene.maker.recording(),
        );
    }
    shelf.add("a ceiling of 4,000", widest(random));
    shelf.add("uncovered, ahead, quiet, flat", uncounted(random));
    shelf.add(
        "weak",
        verdict(random, |random, scene| scene.others(random, 4)),
    );
    shelf.add(
        "ceiling",
        verdict(random, |_, scene| scene.echoes(4, 8 * 78)),
    );
    shelf.add(
        "ceiling, then region",
        verdict(random, |_, scene| {
            scene.echoes(4, 8 * 75);
            scene.echoes(4, 8 * 40 + 4);
        }),
    );
    shelf.add(
        "a discard in the middle of four",
        verdict(random, |_, scene| {
            scene.echoes(2, 8 * 30);
            scene.maker.plain(DISCARD);
            scene.echoes(4, 8 * 30);
        }),
    );
    shelf.add(
        "a rearm in the middle of a frame",
        verdict(random, |_, scene| {
            scene.echoes(1, 8 * 30);
            scene.maker.near_signal(8 * 80, scene.far, 0, 1000);
            scene.maker.plain(REARM);
            scene.echoes(4, 8 * 30);
        }),
    );
    shelf.add(
        "frame numbers go on behind a rearm",
        verdict(random, |_, scene| {
            scene.echoes(4, 8 * 20);
            scene.maker.plain(REARM);
            scene.echoes(1, 8 * 20);
            scene.maker.plain(REARM);
        }),
    );
    for (period, ceiling) in [(3, 20), (5, 20), (3, 90), (35, 90), (40, 90)] {
        shelf.add(
            format!("ties of period {period}, ceiling {ceiling}"),
            ties(random, period, ceiling),
        );
    }
    shelf.add("the envelope wraps", wrapped(random));
    shelf.add("tails of a quarter frame and one more", tails(random));
    shelf.add("runs of one sample", ones(random));
    shelf.add("64 frames, whole fours", exhausted(random, false));
    shelf.add("64 frames, mid-four", exhausted(random, true));
}

/// A scene at 8,000 with a ceiling of 80, its window laid.
fn verdict(random: &mut Random, act: impl Fn(&mut Random, &mut Scene)) -> Recording {
    let mut scene = Scene::new(random, 8000, 80);
    scene.lay_window();
    act(random, &mut scene);
    scene.maker.recording()
}

fn widest(random: &mut Random) -> Recording {
    let mut scene = Scene::new(random, 8000, 4000);
    scene.lay_window();
    scene.echoes(1, 8 * 3210);
    scene.maker.recording()
}

/// More far bins than the envelope holds: the first windows are gone, the last is there.
fn wrapped(random: &mut Random) -> Recording {
    let mut scene = Scene::new(random, 8000, 1);
    let kept = scene.frame + scene.span + 4000;
    scene.lay(kept + 50);
    for first_bin in [50, 51, 52, kept - 300, kept + 50 - scene.frame] {
        scene.echo(first_bin, 8);
    }
    scene.maker.recording()
}

fn uncounted(random: &mut Random) -> Recording {
    let mut scene = Scene::new(random, 8000, 20);
    scene.near(0, scene.far, 0);
    scene.near(19, scene.far, 0);
    scene.near(20, scene.far, 0);
    scene.maker.far_signal(SILENCE, 0, 8 * 276);
    scene.near(20, scene.far, 0);
    scene.lay(300);
    scene.near(
        320,
        Signal {
            base: 120,
            ..SILENCE
        },
        0,
    );
    scene.near(320, SILENCE, 0);
    scene.echo(320, 8 * 2);
    scene.maker.recording()
}

/// Levels that are powers of two and repeat after so many bins: their sums are exact and lags tie.
fn ties(random: &mut Random, period: u64, ceiling: u32) -> Recording {
    let mut scene = Scene::new(random, 8000, ceiling);
    scene.far = Signal {
        mask: 0x8000_0000,
        hold: 8,
        spread: 3,
        period: 8 * period as u32,
        ..scene.far
    };
    scene.lay_window();
    scene.echoes(4, 0);
    scene.maker.plain(REARM);
    scene.echoes(4, 8);
    scene.maker.recording()
}

fn tails(random: &mut Random) -> Recording {
    let mut scene = Scene::new(random, 8000, 20);
    let (span, frame) = (scene.span, scene.frame);
    scene.lay(span + frame - frame / 4 - 1);
    scene.echo(span, 8 * 9);
    scene.maker.far_signal(scene.far, scene.laid * 8, 7);
    scene.echo(span, 8 * 9);
    scene.maker.far_signal(scene.far, scene.laid * 8 + 7, 1);
    scene.echo(span, 8 * 9);
    scene.maker.recording()
}

/// Single samples and uneven runs, a frame begun between two grid points.
fn ones(random: &mut Random) -> Recording {
    let mut scene = Scene::new(random, 8000, 9);
    for bin in 0..30 {
        for sample in 0..8 {
            scene.maker.far_signal(scene.far, 8 * bin + sample, 1);
        }
    }
    scene.laid = 30;
    scene.lay(256);
    let mut index = 8 * 12 + 3;
    while index < 8 * 270 {
        let count = random.between(1, 37).min(8 * 270 - index);
        scene
            .maker
            .near_signal(index, scene.far, index - 8 * 4, count);
        index += count;
    }
    scene.maker.recording()
}

/// Frames that find nothing until the scan gives up; then samples that nobody reads, and a rearm.
fn exhausted(random: &mut Random, mid_four: bool) -> Recording {
    let mut scene = Scene::new(random, 8000, if mid_four { 1 } else { 20 });
    scene.lay_window();
    if mid_four {
        scene.others(random, 1);
        scene.maker.plain(DISCARD);
    }
    scene.others(random, 64);
    scene.maker.near_bits(u64::MAX, &[NAN, INFINITY, 0]);
    scene.maker.near_bits(0, &[NAN; 20]);
    scene.maker.plain(REARM);
    scene.maker.near_bits(0, &[0, NAN]);
    scene.others(random, 1);
    scene.maker.recording()
}

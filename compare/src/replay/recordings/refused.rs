//! Every refusal that can occur, and what a finished scan takes.

use super::chance::cycles;
use super::*;
use crate::replay::LIMIT;

/// Samples, indices and delays that are refused, and what goes on behind them.
pub fn every(random: &mut Random, shelf: &mut Shelf) {
    let mut far = Scene::new(random, 8000, 20);
    far.lay(10);
    far.maker.far_bits(&[0x3f80_0000, 0x3f80_0000, INFINITY]);
    far.maker.far_bits(&[NAN]);
    far.lay(266);
    far.echo(20, 8 * 5);
    shelf.add("a refused far event stores nothing", far.maker.recording());

    let mut near = Scene::new(random, 8000, 20);
    near.lay_window();
    let mut frame = patterns(near.far, 0, 2048);
    frame.extend([0x3f80_0000, 0x3f80_0000, NAN, 0x3f80_0000]);
    near.maker.near_bits(8 * 20, &frame);
    near.maker.near_signal(8 * 20, near.far, 0, 2046);
    shelf.add(
        "a frame fills before the refused sample, and the next goes on",
        near.maker.recording(),
    );

    let mut dropped = Scene::new(random, 11_025, 20);
    dropped.maker.near_bits(1, &[NAN; 10]);
    dropped.maker.near_bits(5, &[INFINITY, NAN]);
    dropped.maker.near_bits(10, &[NAN, NAN]);
    shelf.add("a dropped sample is not read", dropped.maker.recording());

    for (name, first) in [
        ("below the limit", LIMIT - 8),
        ("at the limit", LIMIT),
        ("above the limit", LIMIT + 3),
        ("at the very end", u64::MAX - 1),
    ] {
        let mut maker = Maker::new(8000, 20);
        maker.near_bits(first, &[0x3f80_0000; 12]);
        maker.near_bits(LIMIT - 1, &[NAN, NAN]);
        maker.near_bits(first, &[NAN; 3]);
        maker.near_bits(3, &[0x3f80_0000; 3]);
        shelf.add(format!("indices {name}"), maker.recording());
    }

    let mut delays = Maker::new(48_000, 500);
    for kind in [INTERIOR, EDGE] {
        for delay in [LIMIT - 1, LIMIT, u64::MAX, 0] {
            delays.event(kind, u32::MAX, delay);
            delays.event(kind, 0, delay);
        }
    }
    delays.plain(UNCONFIDENT);
    shelf.add("delays on both sides of the limit", delays.recording());
}

/// What is offered to a scan that has found its region.
pub fn finished(random: &mut Random, shelf: &mut Shelf) {
    for (name, first) in [
        ("any index", 0),
        ("2^62", LIMIT),
        ("the last index", u64::MAX),
    ] {
        let mut maker = found(random);
        maker.near_bits(first, &[NAN, INFINITY, 0, NAN]);
        maker.far_bits(&[NAN]);
        maker.far_bits(&[0x3f80_0000; 9]);
        maker.plain(DISCARD);
        maker.near_bits(first, &[NAN; 9]);
        cycles(random, &mut maker, 2);
        maker.plain(REARM);
        maker.near_bits(first, &[NAN; 2]);
        shelf.add(
            format!("a finished scan is given {name}"),
            maker.recording(),
        );
    }
}

/// Far signal, and four frames that find its echo.
pub fn found(random: &mut Random) -> Maker {
    let mut scene = Scene::new(random, 8000, 20);
    scene.lay_window();
    scene.echoes(4, 8 * 7 + 1);
    scene.maker
}

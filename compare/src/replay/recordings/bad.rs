//! Every way to be bad.

use super::chance::cycles;
use super::refused::found;
use super::*;
use crate::signal::Signal;

/// A header with its fields changed one by one.
pub fn headers(shelf: &mut Shelf) {
    let whole = document();
    for len in [0, 1, 20, 23, 24] {
        let events = whole.events[..len].to_vec();
        shelf.add(
            format!("header of {len} bytes"),
            Recording {
                events,
                ..Recording::default()
            },
        );
    }
    let fields = [
        "rate",
        "ceiling",
        "count",
        "offset",
        "far total",
        "near total",
    ];
    #[rustfmt::skip]
    let tries: [(usize, u32); 20] = [
        (0, 0), (0, 7999), (0, 8000), (0, 192_000), (0, 192_001), (0, u32::MAX), (1, 0),
        (1, 1), (1, 4000), (1, 4001), (1, 65_537), (1, u32::MAX), (2, 0), (2, 3), (2, 5),
        (2, u32::MAX), (3, 0), (3, 28), (4, 1), (5, u32::MAX),
    ];
    for (field, value) in tries {
        let mut changed = whole.clone();
        changed.events[4 * field..4 * field + 4].copy_from_slice(&value.to_le_bytes());
        shelf.add(format!("header with {} {value}", fields[field]), changed);
    }
}

/// Good events, a bad one, and good ones that no longer count.
pub fn events(random: &mut Random, shelf: &mut Shelf) {
    #[rustfmt::skip]
    let bad: [(u32, u32, u64); 24] = [
        (0, 0, 0), (9, 1, 0), (9, 0, 0), (256, 0, 0), (u32::MAX, 0, 0), (FAR, 0, 0),
        (FAR, u32::MAX, 0), (FAR, 1, 1), (FAR, 1, 1 << 63), (NEAR, 0, 0),
        (NEAR, u32::MAX, 0), (REARM, 1, 0), (REARM, 0, 1), (DISCARD, 1, 0),
        (DISCARD, 0, 1 << 32), (UNCONFIDENT, 1, 0), (UNCONFIDENT, 0, 1),
        (UNCONFIDENT, 4800, 0), (DISCONTINUITY, 1, 0), (DISCONTINUITY, 0, u64::MAX),
        // More than the totals leave.
        (FAR, 101, 0), (NEAR, 101, 0), (FAR, 4096, 0), (NEAR, 4096, 8),
    ];
    for (kind, count, number) in bad {
        let mut maker = with_samples(random);
        maker.event(kind, count, number);
        maker.plain(UNCONFIDENT);
        let mut recording = maker.recording();
        // A hundred samples more on each side, so that a count alone can be at fault.
        recording.announce_more(100);
        shelf.add(format!("event {kind} {count} {number}"), recording);
    }
    for (kind, count) in [(FAR, 4096), (FAR, 4097), (NEAR, 4096), (NEAR, 4097)] {
        let mut maker = Maker::new(8000, 20);
        maker.event(kind, count, 0);
        let mut recording = maker.recording();
        recording.announce_more(4100);
        shelf.add(
            format!("{count} samples of kind {kind}, all there"),
            recording,
        );
    }
    for cut in [1, 8, 15, 16, 17, 31] {
        let mut recording = with_samples(random).recording();
        let len = recording.events.len() - cut;
        recording.events.truncate(len);
        shelf.add(format!("events short of {cut} bytes"), recording);
    }
    for cut in [1, 3, 4, 40] {
        let mut far = with_samples(random).recording();
        let mut near = far.clone();
        far.far.truncate(far.far.len() - cut);
        near.near.truncate(near.near.len() - cut);
        shelf.add(format!("far samples short of {cut} bytes"), far);
        shelf.add(format!("near samples short of {cut} bytes"), near);
    }
    let mut on_finished = found(random);
    on_finished.event(NEAR, 1, 0);
    shelf.add("a bad event for a finished scan", on_finished.recording());
}

/// Some cycles and two hundred samples on each side.
pub fn with_samples(random: &mut Random) -> Maker {
    let mut maker = Maker::new(8000, 20);
    let signal = Signal::speech(random, 40);
    cycles(random, &mut maker, 3);
    maker.far_signal(signal, 0, 200);
    maker.near_signal(0, signal, 0, 200);
    cycles(random, &mut maker, 1);
    maker
}

impl Recording {
    /// Samples on both sides that no event uses, announced and there.
    fn announce_more(&mut self, count: u32) {
        for at in [16, 20] {
            let total = &mut self.events[at..at + 4];
            let more = u32::from_le_bytes([total[0], total[1], total[2], total[3]]) + count;
            total.copy_from_slice(&more.to_le_bytes());
        }
        self.far.extend(vec![0; 4 * count as usize]);
        self.near.extend(vec![0; 4 * count as usize]);
    }
}

/// Totals that the events do not use up, and bytes beyond what is announced.
pub fn totals(random: &mut Random, shelf: &mut Shelf) {
    let plain = with_samples(random).recording();
    for at in [16, 20] {
        let mut more = plain.clone();
        more.events[at] += 1;
        shelf.add("a total of one more, its sample missing", more.clone());
        more.far.extend([0; 4]);
        more.near.extend([0; 4]);
        shelf.add("a total of one more, its sample there", more);
        let mut less = plain.clone();
        less.events[at] -= 1;
        shelf.add("a total of one less", less);
    }
    let mut beyond = plain.clone();
    beyond.events.extend([255; 5]);
    beyond.far.extend([255; 3]);
    beyond.near.extend([255; 40]);
    shelf.add("bytes beyond what is announced", beyond);
    let mut fewer = plain.clone();
    fewer.events[8] -= 1;
    shelf.add("one event less is announced", fewer);
    let mut refused = Maker::new(8000, 20);
    refused.far_bits(&[0, NAN, 0]);
    refused.near_bits(0, &[0, INFINITY, 0, 0]);
    shelf.add("refused samples count as used", refused.recording());
    shelf.add("nothing at all", Maker::new(192_000, 4000).recording());
}

//! The lengths that the face says for a rate and ceiling and for a span, 0 outside the table.

use crate::choices;
use crate::face;
use crate::panels::PANEL;
use crate::random::Random;
use crate::rules::{self, Bins, Lengths};
use crate::scans::profile::FULL;

pub fn run(seed: u64, count: u64) -> bool {
    let mut random = Random::new(seed);
    let mut different = 0;
    for _ in 0..count {
        let number = |random: &mut Random, least: u64, most: u64| match random.below(4) {
            0 => choices::word(random, least) as u32,
            1 => choices::word(random, most) as u32,
            _ => random.between(least, most) as u32,
        };
        let (mut rate, mut ceiling) = (
            number(&mut random, 8_000, 192_000),
            number(&mut random, 1, 4_000),
        );
        if random.once_in(2) {
            rate = random.one_of(PANEL.rates);
            ceiling = number(&mut random, 8, 320);
        }
        let span = number(&mut random, 1, 32_768);
        if scan_lengths(rate, ceiling) != told_scan(rate, ceiling)
            || fine_lengths(span) != told_fine(span)
        {
            different += 1;
            if different <= 5 {
                println!("lengths seed {seed}: {rate}/{ceiling} or span {span}");
            }
        }
    }
    let words = [
        face::scan::words(),
        face::pair::words(),
        face::fine::words(),
        face::tracker::words(),
        face::ring::words(),
    ];
    if words != [25, 38, 14, 15, 1] {
        different += 1;
        println!("lengths: words {words:?}");
    }
    println!("lengths seed {seed}: {count} settings, {different} different");
    different == 0
}

fn told_scan(rate: u32, ceiling: u32) -> [u64; 6] {
    use face::scan as f;
    [
        face::panel::envelope_len(rate, ceiling),
        f::envelope_len(rate, ceiling),
        f::levels_len(rate, ceiling),
        f::window_len(rate, ceiling),
        f::prefix_len(rate, ceiling),
        f::lags_len(rate, ceiling),
    ]
}

fn scan_lengths(rate: u32, ceiling: u32) -> [u64; 6] {
    let (rate, ceiling) = (rate as u64, ceiling as u64);
    if !(FULL.allowed)(rate, ceiling) {
        return [0; 6];
    }
    let bins = Bins::of(rate, ceiling);
    let panel = match (PANEL.allowed)(rate, ceiling) {
        true => Bins::with(PANEL.slack, rate, ceiling).envelope(),
        false => 0,
    };
    [
        panel,
        bins.envelope(),
        bins.frame,
        bins.window(),
        bins.prefix(),
        bins.lags(),
    ]
}

fn told_fine(span: u32) -> [u64; 4] {
    use face::fine as f;
    [
        f::frame_len(span),
        f::window_len(span),
        f::correlation_len(span),
        f::transform_len(span),
    ]
}

fn fine_lengths(span: u32) -> [u64; 4] {
    let span = span as u64;
    if !rules::allowed_span(span) {
        return [0; 4];
    }
    let lengths = Lengths::of(span);
    [lengths.frame, lengths.window, span + 1, lengths.transform]
}

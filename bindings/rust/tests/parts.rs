//! Each part as a host uses it, with its refusals.

use trimolaveg::{fine, floats, panel, scan};
use trimolaveg::{Channel, Cycle, Fine, FineTaking, Frame, Gate, Missing, Pair, PairMemory, Panel, Peak, Positions, Refusal, Rescan, Ring, Scan, ScanMemory, Scored, Taking, Tracker, Trigger, Verdict};

const RATE: u32 = 48_000;
const CEILING: u32 = 500;
const DELAY: usize = 11_040;

struct Lists {
    floats: [Vec<f32>; 3],
    doubles: [Vec<f64>; 4],
}

impl Lists {
    fn new() -> Lists {
        Lists::with(scan::envelope_len(RATE, CEILING), RATE, CEILING)
    }

    fn with(envelope: usize, rate: u32, ceiling: u32) -> Lists {
        let prefix = scan::prefix_len(rate, ceiling);
        let lags = scan::lags_len(rate, ceiling);
        let floats = [envelope, scan::levels_len(rate, ceiling), scan::window_len(rate, ceiling)];
        Lists { floats: floats.map(|len| vec![0.0; len]), doubles: [prefix, prefix, lags, lags].map(|len| vec![0.0; len]) }
    }

    fn memory(&mut self) -> ScanMemory<'_> {
        let [envelope, levels, window] = &mut self.floats;
        let [prefix, squares, scores, lag_sums] = &mut self.doubles;
        ScanMemory { envelope, levels, lag_sums, window, prefix, squares, scores }
    }
}

/// Noise whose loudness changes every few milliseconds, as speech does.
fn noise(mut word: u64, count: usize) -> Vec<f32> {
    let mut loudness = 0.0;
    let sample = |i: usize| {
        word ^= word >> 12;
        word ^= word << 25;
        word ^= word >> 27;
        let part = (word >> 40) as f32;
        if i % 240 == 0 {
            loudness = part / (1 << 24) as f32;
        }
        (part / (1 << 23) as f32 - 1.0) * loudness
    };
    (0..count).map(sample).collect()
}

#[test]
fn a_scan_finds_the_echo() {
    let (played, spoken) = (noise(1, 3 * RATE as usize), noise(2, 3 * RATE as usize));
    let mut lists = Lists::new();
    let mut scan = Scan::new(lists.memory(), RATE, CEILING).unwrap();
    let mut frames = Vec::new();
    for at in (0..played.len()).step_by(480) {
        scan.push_far(&played[at..at + 480]).unwrap();
        for i in at..at + 480 {
            let echo = if i < DELAY { 0.0 } else { played[i - DELAY] * 0.5 };
            if scan.push_near(echo + spoken[i] * 0.25, i as u64).unwrap() == Taking::Full {
                frames.push(scan.observe().unwrap());
            }
        }
    }
    assert!(frames[..2].iter().all(|scored| (scored.frame, scored.products) == (Frame::Uncovered, 0)));
    assert!(frames[2..5].iter().all(|scored| matches!(scored.frame, Frame::Banked { .. })));
    let region = scan.region().unwrap().expect("a region");
    assert_eq!(frames[5..], [Scored { frame: Frame::Region(region), products: 501 * 256 }]);
    assert_eq!(region.delay, DELAY as u64);
    assert_eq!((scan.finished(), scan.exhausted(), scan.frames()), (Ok(true), Ok(false), Ok(4)));
    assert_eq!(scan.correlation(), Ok(region.correlation as f32));
    assert_eq!(scan.push_near(f32::NAN, u64::MAX), Ok(Taking::Ignored));
    assert_eq!(scan.rearm(), Ok(()));
    assert_eq!((scan.finished(), scan.region(), scan.beyond_ceiling()), (Ok(false), Ok(None), Ok(false)));
    assert_eq!((scan.bin_samples(), scan.ceiling_samples()), (Ok(48), Ok(24_000)));
    assert_eq!((scan.discard_near(), scan.reset()), (Ok(()), Ok(())));
}

#[test]
fn a_scan_refuses() {
    let mut lists = Lists::new();
    assert_eq!(Scan::new(lists.memory(), 7_999, CEILING).unwrap_err(), Refusal::OutsideTable);
    assert_eq!(Scan::new(lists.memory(), RATE, CEILING + 1).unwrap_err(), Refusal::WrongLength);
    let mut scan = Scan::new(lists.memory(), RATE, CEILING).unwrap();
    assert_eq!(scan.push_far(&[0.0, f32::NAN]), Err(Refusal::NotFinite));
    assert_eq!(scan.push_near(0.0, 1 << 62), Err(Refusal::TooLarge));
    assert_eq!(scan.observe(), Err(Refusal::NoFullFrame));
    let full = (0..).find(|&index| scan.push_near(0.5, index).unwrap() == Taking::Full).unwrap();
    assert_eq!(scan.push_near(0.5, full + 1), Err(Refusal::FrameWaits));
    assert_eq!(Refusal::FrameWaits.to_string(), "a full frame waits");
}

#[test]
fn a_pair_finds_two_echoes_and_keeps_its_channels_apart() {
    use Channel::{First, Second};
    let count = 3 * RATE as usize;
    let (played, delays) = (noise(1, count), [DELAY, 2_400]);
    let (mut lists, mut more) = (Lists::new(), Lists::new());
    let first = lists.memory();
    let second = more.memory();
    let memory = PairMemory {
        envelope: first.envelope, levels: [first.levels, second.levels], lag_sums: [first.lag_sums, second.lag_sums],
        window: first.window, prefix: first.prefix, squares: first.squares, scores: first.scores,
    };
    let mut pair = Pair::new(memory, RATE, CEILING).unwrap();
    for at in (0..count).step_by(480) {
        pair.push_far(&played[at..at + 480]).unwrap();
        for (channel, delay) in [First, Second].into_iter().zip(delays) {
            let heard: Vec<f32> = (at..at + 480).map(|i| if i < delay { 0.0 } else { played[i - delay] * 0.5 }).collect();
            let mut from = 0;
            while from < 480 {
                let (taking, taken) = pair.push_near_run(channel, &heard[from..], (at + from) as u64).unwrap();
                from += taken;
                if taking == Taking::Full {
                    pair.observe(channel).unwrap();
                }
            }
        }
    }
    let found = [First, Second].map(|channel| pair.region(channel).unwrap().expect("a region"));
    assert_eq!(found.map(|region| region.delay), delays.map(|delay| delay as u64));
    assert_eq!((pair.finished(First), pair.exhausted(First), pair.frames(First)), (Ok(true), Ok(false), Ok(4)));
    // what is done to the first stays with it
    assert_eq!((pair.rearm(First), pair.region(First), pair.frames(First)), (Ok(()), Ok(None), Ok(0)));
    assert_eq!((pair.region(Second), pair.frames(Second)), (Ok(Some(found[1])), Ok(4)));
    assert_eq!(pair.correlation(Second), Ok(found[1].correlation as f32));
    assert_eq!(pair.push_near(First, 0.5, 48), Ok(Taking::Taken));
    assert_eq!((pair.push_near(Second, f32::NAN, u64::MAX), pair.push_near(First, f32::NAN, 49)), (Ok(Taking::Ignored), Err(Refusal::NotFinite)));
    assert_eq!((pair.discard_near(First), pair.observe(First)), (Ok(()), Err(Refusal::NoFullFrame)));
    assert_eq!((pair.beyond_ceiling(First), pair.bin_samples(), pair.ceiling_samples()), (Ok(false), Ok(48), Ok(24_000)));
    assert_eq!((pair.reset(), pair.region(Second)), (Ok(()), Ok(None)));
    assert_eq!(Refusal::NoSuchChannel.to_string(), "no such channel");
}

/// Feeds a frame of an echo from `first` on to both: what they said.
fn frame_of_both(panel: &mut Panel, full: &mut Scan, played: &[f32], first: usize) -> (Scored, Scored) {
    let heard: Vec<f32> = (first..first + 256 * 16).map(|i| if i < 2_400 { 0.0 } else { played[i - 2_400] * 0.5 }).collect();
    assert_eq!(panel.push_near_run(&heard, first as u64), Ok((Taking::Full, heard.len())));
    assert_eq!(full.push_near_run(&heard, first as u64), Ok((Taking::Full, heard.len())));
    (panel.observe().unwrap(), full.observe().unwrap())
}

#[test]
fn a_panel_answers_as_a_scan_until_its_history_ends() {
    let (rate, ceiling) = (16_000, 320);
    let played = noise(1, 4 * rate as usize);
    let mut lists = Lists::with(panel::envelope_len(rate, ceiling), rate, ceiling);
    let mut more = Lists::with(scan::envelope_len(rate, ceiling), rate, ceiling);
    let (mut panel, mut full) = (Panel::new(lists.memory(), rate, ceiling).unwrap(), Scan::new(more.memory(), rate, ceiling).unwrap());
    for at in (0..2 * rate as usize).step_by(256 * 16) {
        let block = &played[at..at + 256 * 16];
        assert_eq!((panel.push_far(block), full.push_far(block)), (Ok(()), Ok(())));
        if full.finished() != Ok(true) {
            let (ours, theirs) = frame_of_both(&mut panel, &mut full, &played, at);
            assert_eq!(ours, theirs);
        }
    }
    let region = panel.region().unwrap().expect("a region");
    assert_eq!((region.delay, full.region()), (2_400, Ok(Some(region))));
    let rest = &played[2 * rate as usize / (256 * 16) * (256 * 16) + 256 * 16..];
    assert_eq!((panel.push_far(rest), full.push_far(rest)), (Ok(()), Ok(())));
    // 1.7 s later the panel no longer has what was played then
    assert_eq!((panel.rearm(), full.rearm()), (Ok(()), Ok(())));
    let (ours, theirs) = frame_of_both(&mut panel, &mut full, &played, 2 * rate as usize);
    assert_eq!((ours.frame, ours.products), (Frame::Uncovered, 0));
    assert!(matches!(theirs.frame, Frame::Banked { .. }));
    // after a rearm they agree again
    assert_eq!((panel.rearm(), full.rearm()), (Ok(()), Ok(())));
    let (ours, theirs) = frame_of_both(&mut panel, &mut full, &played, 4 * rate as usize - 256 * 16);
    assert!(matches!(ours.frame, Frame::Banked { .. }));
    assert_eq!(ours, theirs);
    assert_eq!((panel.frames(), panel.beyond_ceiling(), panel.exhausted()), (Ok(1), Ok(false), Ok(false)));
    assert_eq!((panel.bin_samples(), panel.ceiling_samples()), (Ok(16), Ok(5_120)));
    assert_eq!((panel.discard_near(), panel.reset()), (Ok(()), Ok(())));
}

#[test]
fn a_panel_refuses_what_its_profile_does_not_allow() {
    let mut lists = Lists::with(panel::envelope_len(16_000, 320), 16_000, 320);
    for (rate, ceiling) in [(12_000, 320), (48_000, 320), (16_000, 7), (16_000, 321)] {
        assert_eq!(Panel::new(lists.memory(), rate, ceiling).unwrap_err(), Refusal::OutsideTable);
    }
    assert_eq!(Panel::new(lists.memory(), 16_000, 319).unwrap_err(), Refusal::WrongLength);
    assert_eq!(Scan::new(lists.memory(), 16_000, 320).unwrap_err(), Refusal::WrongLength);
    assert!(Panel::new(lists.memory(), 8_000, 320).is_ok());
}

#[test]
fn a_tracker_follows_and_gives_up() {
    assert_eq!(Tracker::new(192_001).unwrap_err(), Refusal::OutsideTable);
    let mut tracker = Tracker::new(RATE).unwrap();
    assert_eq!(tracker.on_cycle(0, Cycle::Interior(1 << 62)), Err(Refusal::TooLarge));
    assert_eq!(tracker.on_cycle(1_000, Cycle::Interior(1_400)), Ok(Verdict::Hold));
    let verdicts: Vec<Verdict> = (0..4).map(|_| tracker.on_cycle(1_000, Cycle::Interior(9_000)).unwrap()).collect();
    assert!(verdicts.iter().any(|verdict| matches!(verdict, Verdict::Move(_))), "{verdicts:?}");
    let given_up = (0..1_000).map(|_| tracker.on_cycle(1_000, Cycle::Unconfident).unwrap()).find(|verdict| *verdict != Verdict::Hold);
    assert_eq!(given_up, Some(Verdict::Reacquire(Trigger::Lost)));
    tracker.on_discontinuity().unwrap();
    assert_eq!((tracker.suspect(), tracker.quiescent()), (Ok(true), Ok(false)));
    // from 1,400 to 9,000 the candidates jumped once; the move ended that run and left it on the record
    assert_eq!((tracker.jump_cycles(), tracker.longest_run()), (Ok(0), Ok(1)));
}

#[test]
fn a_ring_keeps_the_newest() {
    assert_eq!(Ring::new(&mut []).unwrap_err(), Refusal::WrongLength);
    let mut buf = [0; 4];
    let mut ring = Ring::new(&mut buf).unwrap();
    ring.push(&[1.0f32, 2.0, 3.0, 4.0, 5.0].map(f32::to_bits)).unwrap();
    assert_eq!((ring.get(0), ring.get(1), ring.get(4), ring.get(5)), (Ok(None), Ok(Some(2.0)), Ok(Some(5.0)), Ok(None)));
    assert_eq!((ring.next_abs(), ring.capacity(), ring.dropped()), (Ok(5), Ok(4), Ok(1)));
    ring.clear().unwrap();
    assert_eq!(ring.next_abs(), Ok(0));
}

#[test]
fn a_fine_stage_takes_a_frame_and_judges_a_peak() {
    const SPAN: u32 = 128;
    let (mut near, mut retained) = ([0.0; fine::frame_len(SPAN)], [0.0; fine::frame_len(SPAN)]);
    let far = [0.5; fine::window_len(SPAN)];
    let mut correlation = [0.01; fine::correlation_len(SPAN)];
    let mut fine = Fine::new(&mut near, &mut retained, SPAN).unwrap();
    assert_eq!(fine.rescan(&far, 0, 0), Ok(Rescan::NothingRetained));
    for round in [Gate::First, Gate::Later] {
        let len = fine.frame_len().unwrap();
        let last = (0..len).map(|_| fine.push_near(0.25).unwrap()).last();
        assert_eq!(last, Some(FineTaking::Full));
        assert_eq!(fine.push_near(0.25), Err(Refusal::FrameWaits));
        assert_eq!(fine.gate(&far, 0, 0), Ok(round));
    }
    assert_eq!(fine.rescan(&far, 0, 0), Ok(Rescan::Taken));
    assert_eq!((fine.frames(), fine.skipped(), fine.scans()), (Ok(2), Ok(0), Ok(0)));
    assert_eq!(fine.last_scan_peak_at(), Ok(None));
    let even = Positions { first: 0, last: SPAN as u64 };
    assert_eq!(fine.peak(&correlation), Ok(Peak { at: even, candidate: None }));
    correlation[77] = 1.0;
    correlation[79] = 1.0;
    let found = fine.peak(&correlation).unwrap();
    let tie = Positions { first: 77, last: 79 };
    let candidate = found.candidate.expect("a candidate");
    assert_eq!((found.at, candidate.delay), (tie, SPAN as u64 - 77 - 16));
    assert_eq!((fine.last_scan_peak_at(), fine.last_scan_ratio(), fine.last_scan_origin()), (Ok(Some(tie)), Ok(candidate.ratio), Ok(0)));
    assert_eq!((fine.max_delay(), fine.window_len(), fine.search_range()), (Ok(128), Ok(256), Ok((0, 128))));
    assert_eq!(fine.relocate(1 << 62), Err(Refusal::TooLarge));
    assert_eq!((fine.relocate(500), fine.search_range()), (Ok(()), Ok((500, 628))));
    assert_eq!((fine.window_back_off(), fine.restart(), fine.reset()), (Ok(628), Ok(()), Ok(())));
}

#[test]
fn floats_are_the_processors() {
    for bits in (0..2_000u64).map(|i| i.wrapping_mul(0x9E37_79B9_7F4A_7C15)) {
        let value = f64::from_bits(bits);
        assert_eq!(floats::is_finite(value), value.is_finite());
        assert_eq!(floats::is_finite32(value as f32), (value as f32).is_finite());
        if !value.is_nan() {
            assert_eq!(floats::narrow(value).to_bits(), (value as f32).to_bits());
            assert_eq!(floats::magnitude(value), value.abs());
            assert_eq!(floats::square_root(value.abs()), value.abs().sqrt());
            let mut list = [value.abs().to_bits(); 3];
            floats::square_roots(&mut list);
            assert_eq!(list, [value.abs().sqrt().to_bits(); 3]);
        }
    }
}

#[test]
fn a_ring_reads_windows() {
    let mut buf = [0; 4];
    let mut ring = Ring::new(&mut buf).unwrap();
    assert_eq!(ring.push_floats(&[1.0, 2.0, f32::NAN, 4.0, 5.0]), Ok(()));
    let (mut patterns, mut floats) = ([9; 8], [9.0; 5]);
    assert_eq!(ring.window(4, 5, &mut patterns), Ok(Missing { head: 2, tail: 2 }));
    assert_eq!(patterns, [0, 0, 2.0_f32.to_bits(), 0x7fc0_0000, 4.0_f32.to_bits(), 5.0_f32.to_bits(), 0, 0]);
    assert_eq!(ring.window_floats(3, 0, &mut floats), Ok(Missing { head: 0, tail: 3 }));
    assert_eq!(floats, [4.0, 5.0, 0.0, 0.0, 0.0]);
    assert_eq!(ring.window_floats(0, u64::MAX, &mut floats), Ok(Missing { head: 5, tail: 0 }));
    assert_eq!(floats, [0.0; 5]);
}

#[test]
fn a_fine_stage_takes_runs() {
    const SPAN: u32 = 64;
    let frame = fine::frame_len(SPAN);
    assert_eq!(fine::transform_len(SPAN), frame + SPAN as usize);
    let (mut near, mut retained) = (vec![0.0; frame], vec![0.0; frame]);
    let mut stage = Fine::new(&mut near, &mut retained, SPAN).unwrap();
    assert_eq!(stage.push_near_run(&[0.5, f32::NAN]), Err(Refusal::NotFinite));
    assert_eq!(stage.push_near_run(&[0.5; 3]), Ok((FineTaking::Taken, 3)));
    assert_eq!(stage.push_near_run(&vec![0.5; frame]), Ok((FineTaking::Full, frame - 3)));
    assert_eq!(stage.push_near_run(&[0.5]), Err(Refusal::FrameWaits));
    assert_eq!(stage.push_near_run(&[]), Ok((FineTaking::Taken, 0)));
}

//! The unchanged Rust acquirer over two sound files: what it locks onto, moves to and gives up, in the words of examples/host. PLAYED HEARD, both WAV files of 16 bits with one channel at 16,000 Hz.
#[path = "../../target/compare/original/acquire.rs"]
#[allow(dead_code, unused_imports)]
mod acquire;
#[path = "../../target/compare/original/coarse.rs"]
#[allow(dead_code)]
mod coarse;
#[path = "../../target/compare/original/delay.rs"]
#[allow(dead_code)]
mod delay;
#[path = "../../target/compare/original/fft.rs"]
#[allow(dead_code)]
mod fft;
#[path = "../../target/compare/original/ring.rs"]
#[allow(dead_code)]
mod ring;
#[path = "../../target/compare/original/track.rs"]
#[allow(dead_code)]
mod track;

use acquire::{AcquireAction, DelayAcquirer};
use delay::WindowSupport;
use ring::ReferenceRing;

const RATE: u32 = 16_000;
const CEILING: u16 = 500;
const SPAN: u16 = 128;
const BLOCK: usize = 160;
const HEADER: usize = 44;

fn samples(path: &str) -> Vec<f32> {
    let bytes = std::fs::read(path).unwrap_or_else(|reason| panic!("{path}: {reason}"));
    bytes[HEADER..].chunks_exact(2).map(|pair| f32::from(i16::from_le_bytes([pair[0], pair[1]])) / 32_768.0).collect()
}

/// The far samples that may have caused the frame that has just ended; zeros where there are none.
fn window(acquirer: &DelayAcquirer, ring: &ReferenceRing) -> (Vec<f32>, WindowSupport) {
    let mut support = WindowSupport::default();
    let first = acquirer.fine_window_start_abs();
    let samples = (0..acquirer.fine_window_len() as i64)
        .map(|i| match u64::try_from(first + i).ok().and_then(|at| ring.get(at)) {
            Some(sample) => sample,
            None if first + i >= ring.next_abs() as i64 => {
                support.missing_tail += 1;
                0.0
            }
            None => {
                support.missing_head += 1;
                0.0
            }
        })
        .collect();
    (samples, support)
}

fn frame(acquirer: &mut DelayAcquirer, ring: &ReferenceRing) -> Option<AcquireAction> {
    let (far, support) = window(acquirer, ring);
    let outcome = acquirer.observe(&far, support);
    if !outcome.rescan_pending {
        return outcome.action;
    }
    let (far, support) = window(acquirer, ring);
    acquirer.rescan(&far, support)
}

fn main() {
    let paths: Vec<String> = std::env::args().skip(1).collect();
    let (played, heard) = (samples(&paths[0]), samples(&paths[1]));
    let mut acquirer = DelayAcquirer::new(RATE, SPAN, CEILING);
    let mut ring = ReferenceRing::new(4096 + usize::from(CEILING) * 16 + BLOCK * 10);
    let mut given_up = 0;
    for (number, (far, near)) in played.chunks_exact(BLOCK).zip(heard.chunks_exact(BLOCK)).enumerate() {
        ring.push(far);
        acquirer.push_far(far);
        acquirer.begin_block((number * BLOCK) as u64);
        for (i, &sample) in near.iter().enumerate() {
            if !acquirer.push_near(sample) {
                continue;
            }
            let action = frame(&mut acquirer, &ring);
            let now = (number * BLOCK + i + 1) as f64 / f64::from(RATE);
            match action {
                Some(AcquireAction::Promote(delay)) => println!("{now:8.3} s  lock       ({delay} samples)"),
                Some(AcquireAction::Track(delay)) => println!("{now:8.3} s  move       ({delay} samples)"),
                None => {}
            }
            if acquirer.estimate().reacquisitions > given_up {
                given_up = acquirer.estimate().reacquisitions;
                println!("{now:8.3} s  reacquire");
            }
        }
    }
}

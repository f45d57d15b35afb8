//! Times beside the Rust: both sides in one process, runs interleaved, ours divided by the Rust's.

mod fine;
mod floats;
mod ring;
mod scan;
mod times;
mod tracker;

pub fn run() -> bool {
    println!("| What | Ours | Rust | Ratio of minima | Median ratio |");
    println!("|---|---|---|---|---|");
    scan::frames(48_000, 500, 300);
    scan::frames(48_000, 4_000, 60);
    far_pushes();
    scan::near_push();
    scan::near_run(16);
    scan::near_run(480);
    scan::pair_run(16);
    scan::pair_run(480);
    tracker::cycle();
    fine::near_run(16);
    fine::near_run(160);
    ring::window(4_096);
    fine::peak(1_000);
    fine::peak(32_768);
    floats::root();
    floats::roots();
    floats::narrowing();
    true
}

/// The far push alone: every row of its grid.
pub fn far_pushes() -> bool {
    for rate in [8_000, 16_000, 48_000, 192_000] {
        for samples in [64, 480, 4_096] {
            scan::far_push(rate, samples);
        }
    }
    true
}

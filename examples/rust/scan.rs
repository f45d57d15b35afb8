//! Finds where an echo lives: made noise is played, comes back 11,040 samples later under other noise, and a scan is asked for the delay.

/// What is used of include/trimolaveg.h. A slice is its pointer and its length.
mod tmv {
    pub const SCAN_WORDS: usize = 25;
    pub const DONE: u32 = 16;
    pub const TAKING_FULL: u32 = 19;
    pub const FRAME_UNCOVERED: u32 = 16;
    pub const FRAME_REGION: u32 = 24;
    pub const REGION_AT: u32 = 17;

    extern "C" {
        pub fn tmv_scan_envelope_len(rate: u32, ceiling: u32) -> u64;
        pub fn tmv_scan_levels_len(rate: u32, ceiling: u32) -> u64;
        pub fn tmv_scan_window_len(rate: u32, ceiling: u32) -> u64;
        pub fn tmv_scan_prefix_len(rate: u32, ceiling: u32) -> u64;
        pub fn tmv_scan_lags_len(rate: u32, ceiling: u32) -> u64;
        pub fn tmv_scan_new(
            state: *mut u64,
            state_len: usize,
            envelope: *mut f32,
            envelope_len: usize,
            lag_sums: *mut f64,
            lag_sums_len: usize,
            rate: u32,
            ceiling: u32,
        ) -> u32;
        pub fn tmv_scan_push_far(
            state: *mut u64,
            state_len: usize,
            envelope: *mut f32,
            envelope_len: usize,
            samples: *const f32,
            samples_len: usize,
        ) -> u32;
        pub fn tmv_scan_push_near(
            state: *mut u64,
            state_len: usize,
            levels: *mut f32,
            levels_len: usize,
            sample: f32,
            index: u64,
        ) -> u32;
        pub fn tmv_scan_observe(
            state: *mut u64,
            state_len: usize,
            envelope: *const f32,
            envelope_len: usize,
            levels: *const f32,
            levels_len: usize,
            window: *mut f32,
            window_len: usize,
            prefix: *mut f64,
            prefix_len: usize,
            squares: *mut f64,
            squares_len: usize,
            scores: *mut f64,
            scores_len: usize,
            lag_sums: *mut f64,
            lag_sums_len: usize,
            values: *mut u64,
            values_len: usize,
        ) -> u32;
        pub fn tmv_scan_region(
            state: *const u64,
            state_len: usize,
            values: *mut u64,
            values_len: usize,
        ) -> u32;
    }
}

const RATE: u32 = 48_000;
const CEILING: u32 = 500; // ms
const DELAY: usize = 11_040; // 230 ms
const SECONDS: usize = 3;
const BLOCK: usize = 480; // 10 ms

/// Every buffer of one scan. The host owns them all.
struct Scan {
    state: [u64; tmv::SCAN_WORDS],
    envelope: Vec<f32>,
    levels: Vec<f32>,
    window: Vec<f32>,
    prefix: Vec<f64>,
    squares: Vec<f64>,
    scores: Vec<f64>,
    lag_sums: Vec<f64>,
}

impl Scan {
    fn new() -> Option<Scan> {
        let len = |of: unsafe extern "C" fn(u32, u32) -> u64| unsafe { of(RATE, CEILING) as usize };
        let mut scan = Scan {
            state: [0; tmv::SCAN_WORDS],
            envelope: vec![0.0; len(tmv::tmv_scan_envelope_len)],
            levels: vec![0.0; len(tmv::tmv_scan_levels_len)],
            window: vec![0.0; len(tmv::tmv_scan_window_len)],
            prefix: vec![0.0; len(tmv::tmv_scan_prefix_len)],
            squares: vec![0.0; len(tmv::tmv_scan_prefix_len)],
            scores: vec![0.0; len(tmv::tmv_scan_lags_len)],
            lag_sums: vec![0.0; len(tmv::tmv_scan_lags_len)],
        };
        let answer = unsafe {
            tmv::tmv_scan_new(
                scan.state.as_mut_ptr(),
                scan.state.len(),
                scan.envelope.as_mut_ptr(),
                scan.envelope.len(),
                scan.lag_sums.as_mut_ptr(),
                scan.lag_sums.len(),
                RATE,
                CEILING,
            )
        };
        (answer == tmv::DONE).then_some(scan)
    }

    fn push_far(&mut self, samples: &[f32]) -> u32 {
        unsafe {
            tmv::tmv_scan_push_far(
                self.state.as_mut_ptr(),
                self.state.len(),
                self.envelope.as_mut_ptr(),
                self.envelope.len(),
                samples.as_ptr(),
                samples.len(),
            )
        }
    }

    fn push_near(&mut self, sample: f32, index: usize) -> u32 {
        unsafe {
            tmv::tmv_scan_push_near(
                self.state.as_mut_ptr(),
                self.state.len(),
                self.levels.as_mut_ptr(),
                self.levels.len(),
                sample,
                index as u64,
            )
        }
    }

    /// The answer, and how many products it took.
    fn observe(&mut self) -> (u32, u64) {
        let mut values = [0; 3];
        let answer = unsafe {
            tmv::tmv_scan_observe(
                self.state.as_mut_ptr(),
                self.state.len(),
                self.envelope.as_ptr(),
                self.envelope.len(),
                self.levels.as_ptr(),
                self.levels.len(),
                self.window.as_mut_ptr(),
                self.window.len(),
                self.prefix.as_mut_ptr(),
                self.prefix.len(),
                self.squares.as_mut_ptr(),
                self.squares.len(),
                self.scores.as_mut_ptr(),
                self.scores.len(),
                self.lag_sums.as_mut_ptr(),
                self.lag_sums.len(),
                values.as_mut_ptr(),
                values.len(),
            )
        };
        (answer, values[2])
    }

    /// Delay in samples and correlation.
    fn region(&self) -> Option<(u64, f64)> {
        let mut values = [0; 2];
        let answer = unsafe {
            tmv::tmv_scan_region(
                self.state.as_ptr(),
                self.state.len(),
                values.as_mut_ptr(),
                values.len(),
            )
        };
        (answer == tmv::REGION_AT).then(|| (values[0], f64::from_bits(values[1])))
    }
}

/// Noise whose loudness changes every few milliseconds, as speech does.
fn noise(mut word: u64, count: usize) -> Vec<f32> {
    let mut loudness = 0.0;
    (0..count)
        .map(|i| {
            word ^= word >> 12;
            word ^= word << 25;
            word ^= word >> 27;
            if i % 240 == 0 {
                loudness = (word >> 40) as f32 / (1 << 24) as f32;
            }
            ((word >> 40) as f32 / (1 << 23) as f32 - 1.0) * loudness
        })
        .collect()
}

fn main() {
    let played = noise(1, RATE as usize * SECONDS);
    let spoken = noise(2, RATE as usize * SECONDS);
    let mut scan = Scan::new().expect("the setting is in the table");

    let answer = scan.push_far(&[f32::NAN]);
    println!("a far sample that is no number: refused with {answer}");
    let (answer, _) = scan.observe();
    println!("a frame to be scored before one is full: refused with {answer}");

    let mut answer = tmv::FRAME_UNCOVERED;
    let mut index = 0;
    for block in played.chunks(BLOCK) {
        if answer == tmv::FRAME_REGION {
            break;
        }
        assert_eq!(scan.push_far(block), tmv::DONE);
        for _ in 0..BLOCK {
            let echo = if index < DELAY {
                0.0
            } else {
                played[index - DELAY] * 0.5
            };
            let captured = echo + spoken[index] * 0.25;
            if scan.push_near(captured, index) == tmv::TAKING_FULL {
                let products;
                (answer, products) = scan.observe();
                println!("a frame is full by sample {index}: answer {answer}, {products} products");
            }
            index += 1;
        }
    }

    match scan.region() {
        Some((delay, correlation)) => {
            println!("region: the echo comes {delay} samples later, correlation {correlation:.3}")
        }
        None => println!("no region"),
    }
}

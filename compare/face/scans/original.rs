//! What is asked of a scan of the original. Where its text is compiled more than once, each is a type of its own.

use super::world::WORDS;

pub trait Original: Sized {
    fn made(rate: u32, ceiling: u32) -> Self;
    fn reset(&mut self);
    fn rearm(&mut self);
    fn discard_near(&mut self);
    fn push_far(&mut self, samples: &[f32]);
    /// Whether the frame is full. Before it, what the original does not do itself is done at a hole (request d); `last` becomes the index of a sample that is taken.
    fn push_numbered(&mut self, last: &mut u64, sample: f32, index: u64) -> bool;
    fn under_way(&self) -> bool;
    /// The number of the frame's answer, and the values that go with it.
    fn scored(&mut self) -> (u32, Vec<u64>);
    /// The products of a frame that was just scored, if it counted.
    fn products(&self, counted: bool) -> u64;

    fn bin_samples(&self) -> u64;
    fn ceiling_samples(&self) -> u64;
    fn frames(&self) -> u64;
    fn correlation(&self) -> f32;
    /// Delay and correlation.
    fn region(&self) -> Option<(u64, f64)>;
    fn beyond_ceiling(&self) -> bool;
    fn finished(&self) -> bool;
    fn exhausted(&self) -> bool;

    /// Sets the fields to what the words of a state that keeps the rules say, and the buffers: envelope, near levels and window; prefixes, scores and lag sums.
    fn bring(&mut self, words: &[u64; WORDS], levels: [&[f32]; 3], sums: [&[f64]; 4]);
    /// Writes the words that the original's state has: it keeps neither rate, ceiling and bin rate nor the last index, and without a region the region's words stay.
    fn write(&self, words: &mut [u64; WORDS]);
    /// Takes the window, the prefixes and the scores as another scan left them.
    fn lend_scratch(&mut self, window: &[f32], sums: [&[f64]; 3]);
    fn levels(&self) -> [&[f32]; 3];
    fn sums(&self) -> [&[f64]; 4];
}

macro_rules! originals {
    ($($module:ident),*) => { $(
        impl crate::scans::original::Original for crate::$module::CoarseScan {
            fn made(rate: u32, ceiling: u32) -> Self {
                Self::new(rate, ceiling as u16)
            }

            fn reset(&mut self) {
                self.reset()
            }

            fn rearm(&mut self) {
                self.rearm()
            }

            fn discard_near(&mut self) {
                self.discard_near()
            }

            fn push_far(&mut self, samples: &[f32]) {
                self.push_far(samples)
            }

            fn push_numbered(&mut self, last: &mut u64, sample: f32, index: u64) -> bool {
                self.push_numbered(last, sample, index)
            }

            fn under_way(&self) -> bool {
                self.under_way()
            }

            fn scored(&mut self) -> (u32, Vec<u64>) {
                use crate::$module::FrameAnswer as Answer;
                match self.scored() {
                    Answer::Uncovered => (16, vec![]),
                    Answer::Ahead => (17, vec![]),
                    Answer::Quiet => (18, vec![]),
                    Answer::Flat => (19, vec![]),
                    Answer::Banked(peak) => (20, vec![peak.to_bits() as u64]),
                    Answer::Weak => (21, vec![]),
                    Answer::Ceiling => (22, vec![]),
                    Answer::Crowded => (23, vec![]),
                    Answer::Region(region) => {
                        (24, vec![region.delay as u64, region.corr.to_bits()])
                    }
                }
            }

            fn products(&self, counted: bool) -> u64 {
                self.products(counted)
            }

            fn bin_samples(&self) -> u64 {
                self.bin_samples() as u64
            }

            fn ceiling_samples(&self) -> u64 {
                self.ceiling_samples() as u64
            }

            fn frames(&self) -> u64 {
                self.frames() as u64
            }

            fn correlation(&self) -> f32 {
                self.correlation()
            }

            fn region(&self) -> Option<(u64, f64)> {
                self.region().map(|region| (region.delay as u64, region.corr))
            }

            fn beyond_ceiling(&self) -> bool {
                self.beyond_ceiling()
            }

            fn finished(&self) -> bool {
                self.finished()
            }

            fn exhausted(&self) -> bool {
                self.exhausted()
            }

            fn bring(&mut self, words: &[u64; 25], levels: [&[f32]; 3], sums: [&[f64]; 4]) {
                let region = crate::$module::CoarseRegion {
                    delay: words[20] as usize,
                    corr: f64::from_bits(words[21]),
                };
                self.set_buffers(levels, sums);
                self.set_fields(crate::$module::Fields {
                    far_blocks: words[8],
                    far_sum: f64::from_bits(words[9]),
                    far_count: words[10] as usize,
                    far_pushed: words[11],
                    near_len: words[12] as usize,
                    near_sum: f64::from_bits(words[13]),
                    near_count: words[14] as usize,
                    first_bin: words[15],
                    banked: words[16] as u32,
                    frames: words[17] as u32,
                    last_peak: f32::from_bits(words[18] as u32),
                    region: (words[19] == 1).then_some(region),
                    beyond_ceiling: words[22] == 1,
                    exhausted: words[23] == 1,
                });
            }

            fn write(&self, words: &mut [u64; 25]) {
                let geometry = self.geometry();
                let fields = self.fields();
                words[2] = geometry.decimation as u64;
                words[4] = geometry.span as u64;
                words[5] = geometry.frame as u64;
                words[6] = geometry.ceiling_guard as u64;
                words[7] = geometry.peak_guard as u64;
                words[8] = fields.far_blocks;
                words[9] = fields.far_sum.to_bits();
                words[10] = fields.far_count as u64;
                words[11] = fields.far_pushed;
                words[12] = fields.near_len as u64;
                words[13] = fields.near_sum.to_bits();
                words[14] = fields.near_count as u64;
                words[15] = fields.first_bin;
                words[16] = fields.banked as u64;
                words[17] = fields.frames as u64;
                words[18] = fields.last_peak.to_bits() as u64;
                words[19] = fields.region.is_some() as u64;
                if let Some(region) = fields.region {
                    words[20] = region.delay as u64;
                    words[21] = region.corr.to_bits();
                }
                words[22] = fields.beyond_ceiling as u64;
                words[23] = fields.exhausted as u64;
            }

            fn lend_scratch(&mut self, window: &[f32], [prefix, squares, scores]: [&[f64]; 3]) {
                let near = self.levels()[1].to_vec();
                self.set_buffers([&[], &near, window], [prefix, squares, scores, &[]]);
            }

            fn levels(&self) -> [&[f32]; 3] {
                self.levels()
            }

            fn sums(&self) -> [&[f64]; 4] {
                self.sums()
            }
        }
    )* };
}
pub(crate) use originals;

originals!(coarse);

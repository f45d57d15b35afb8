// Accessor of the comparison: the count of samples accepted, set.
impl ReferenceRing {
    pub(crate) fn set_next_abs(&mut self, next_abs: u64) {
        self.next_abs = next_abs;
    }
}

// The samples in their places, read and set.
impl ReferenceRing {
    pub(crate) fn samples(&self) -> &[f32] {
        &self.buf
    }

    pub(crate) fn set_samples(&mut self, samples: impl Iterator<Item = f32>) {
        for (place, sample) in self.buf.iter_mut().zip(samples) {
            *place = sample;
        }
    }
}

// Accessors of the comparison: every field that changes, read and set.
#[derive(Clone, Copy, PartialEq, Eq)]
pub(crate) struct Fields {
    pub(crate) pending: Option<usize>,
    pub(crate) previous: Option<usize>,
    pub(crate) edge_cycles: u32,
    pub(crate) jump_cycles: u32,
    pub(crate) unconfident_cycles: u32,
    pub(crate) suspect: bool,
}

impl Tracker {
    pub(crate) fn fields(&self) -> Fields {
        Fields {
            pending: self.pending_move,
            previous: self.prev_candidate,
            edge_cycles: self.edge_cycles,
            jump_cycles: self.jump_cycles,
            unconfident_cycles: self.unconfident_cycles,
            suspect: self.suspect,
        }
    }

    pub(crate) fn set_fields(&mut self, fields: Fields) {
        self.pending_move = fields.pending;
        self.prev_candidate = fields.previous;
        self.edge_cycles = fields.edge_cycles;
        self.jump_cycles = fields.jump_cycles;
        self.unconfident_cycles = fields.unconfident_cycles;
        self.suspect = fields.suspect;
    }

    /// Late, early, agreement, apart and lead, in samples.
    pub(crate) fn bands(&self) -> [u64; 5] {
        [
            self.late_band as u64,
            self.early_band as u64,
            self.move_agree as u64,
            self.jump_apart as u64,
            self.late_lead as u64,
        ]
    }
}

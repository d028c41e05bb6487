
// Read-only looks at what the original keeps private, appended to its file by compare/run; the original's own text is not touched.
impl Synchronizer {
    pub fn pending_bits(&self) -> usize {
        self.bits.len()
    }
    pub fn net_slip(&self) -> i64 {
        self.realigned
    }
}
impl Merger {
    pub fn positions(&self) -> usize {
        self.pending.len()
    }
    pub fn held(&self) -> usize {
        self.pending.values().map(|slots| slots.iter().flatten().count()).sum()
    }
    pub fn first_key(&self) -> Option<u64> {
        self.pending.keys().next().copied()
    }
    pub fn has_key_near(&self, offset: u64) -> bool {
        self.pending.keys().any(|&key| key.abs_diff(offset) <= SAME_FRAME_BITS)
    }
    pub fn last_released(&self) -> Option<u64> {
        self.released
    }
}


// ---- added by rust/oracle.sh: identifiers and stamps as numbers

impl NodeStamp {
    pub(crate) fn of_bits(bits: u32) -> Self {
        NodeStamp(bits as u16 as i16)
    }

    pub(crate) fn bits(self) -> u32 {
        u32::from(self.0 as u16)
    }
}

impl NodeId {
    /// Slot and stamp of a number, slot not 0.
    pub fn of_number(x: u32) -> Option<Self> {
        NonZeroUsize::new((x >> 16) as usize).map(|i| Self::from_non_zero_usize(i, NodeStamp::of_bits(x & 0xffff)))
    }

    /// The number.
    pub fn number(self) -> u32 {
        (self.index1.get() as u32) << 16 | self.stamp.bits()
    }
}

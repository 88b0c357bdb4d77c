// ---- added by rust/oracle.sh: an arena from words, and words from an arena

impl Arena<u32> {
    /// An arena with these words, where the crate's types can hold them: kinds 0 and 1, no link with slot 0 but 0.
    pub fn from_words(words: &[u32], [used, first, last]: [u32; 3]) -> Option<Self> {
        let slot = |x: u32| if x == 0 { None } else { Some(x as usize - 1) };
        let mut nodes = Vec::with_capacity(used as usize);
        let mut live = 0;
        for w in words.chunks_exact(7).take(used as usize) {
            if w[0] > 131_071 || w[2..].iter().any(|&x| x != 0 && x < 65_536) {
                return None;
            }
            let mut node = Node::new(w[1]);
            node.stamp = crate::id::NodeStamp::of_bits(w[0] & 0xffff);
            if w[0] > 65_535 {
                node.data = NodeData::NextFree(slot(w[1]));
            }
            node.parent = NodeId::of_number(w[2]);
            node.previous_sibling = NodeId::of_number(w[3]);
            node.next_sibling = NodeId::of_number(w[4]);
            node.first_child = NodeId::of_number(w[5]);
            node.last_child = NodeId::of_number(w[6]);
            live += usize::from(!node.is_removed());
            nodes.push(node);
        }
        Some(Arena { nodes, first_free_slot: slot(first), last_free_slot: slot(last), live })
    }

    /// The words, seven to a slot, and the header (used, first, last).
    pub fn to_words(&self) -> (Vec<u32>, [u32; 3]) {
        let number = |x: Option<NodeId>| x.map_or(0, NodeId::number);
        let mut words = Vec::with_capacity(self.nodes.len() * 7);
        for n in &self.nodes {
            let (kind, value) = match n.data {
                NodeData::Data(v) => (0, v),
                NodeData::NextFree(x) => (1, x.map_or(0, |i| i as u32 + 1)),
            };
            words.push(kind * 65_536 + n.stamp.bits());
            words.push(value);
            words.extend([n.parent, n.previous_sibling, n.next_sibling, n.first_child, n.last_child].map(number));
        }
        let slot = |x: Option<usize>| x.map_or(0, |i| i as u32 + 1);
        (words, [self.nodes.len() as u32, slot(self.first_free_slot), slot(self.last_free_slot)])
    }

    /// Whether these are its words and its header.
    pub fn has_words(&self, words: &[u32], header: [u32; 3]) -> bool {
        let number = |x: Option<NodeId>| x.map_or(0, NodeId::number);
        let slot = |x: Option<usize>| x.map_or(0, |i| i as u32 + 1);
        header == [self.nodes.len() as u32, slot(self.first_free_slot), slot(self.last_free_slot)]
            && self.nodes.iter().zip(words.chunks_exact(7)).all(|(n, w)| {
                let (kind, value) = match n.data {
                    NodeData::Data(v) => (0, v),
                    NodeData::NextFree(x) => (1, slot(x)),
                };
                w[0] == kind * 65_536 + n.stamp.bits()
                    && w[1] == value
                    && w[2] == number(n.parent)
                    && w[3] == number(n.previous_sibling)
                    && w[4] == number(n.next_sibling)
                    && w[5] == number(n.first_child)
                    && w[6] == number(n.last_child)
            })
    }

    /// What its own load does to an arena that `validate` accepts.
    pub fn loaded(mut self) -> Self {
        self.unlink_exhausted_free_slots();
        self
    }
}

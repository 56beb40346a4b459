//! The tree over the kept keys (R32 to R34) and the search that counts looks
//! (R35).

use crate::record::Record;

/// A node, with everything below it.
#[derive(Clone, Debug, PartialEq, Eq)]
pub enum Tree {
    /// A kept key and the position of its last committed write.
    Leaf {
        /// The key, which is all that the leaf covers.
        key: u32,
        /// Its last committed write.
        position: u32,
    },
    /// Where kept keys first differ.
    Inner {
        /// The smallest number with the keys' common leading bits.
        low: u32,
        /// The largest number with the keys' common leading bits.
        high: u32,
        /// The largest write position below.
        newest: u32,
        /// Keys with the differing bit 0, keys with the differing bit 1.
        children: Box<(Tree, Tree)>,
    },
}

impl Tree {
    /// The tree over pairs of key and position in rising order of keys; none
    /// for no keys.
    pub fn build(kept: &[(u32, u32)]) -> Option<Tree> {
        let (&(first, position), &(last, _)) = (kept.first()?, kept.last()?);
        if kept.len() == 1 {
            return Some(Tree::Leaf {
                key: first,
                position,
            });
        }
        // Of sorted keys the first and the last differ first.
        let bit = 1_u32 << (31 - (first ^ last).leading_zeros());
        let below = bit | (bit - 1);
        let split = kept.partition_point(|&(key, _)| key & bit == 0);
        let left = Tree::build(&kept[..split])?;
        let right = Tree::build(&kept[split..])?;
        Some(Tree::Inner {
            low: first & !below,
            high: first | below,
            newest: left.newest().max(right.newest()),
            children: Box::new((left, right)),
        })
    }

    /// The largest write position at or below this node.
    pub fn newest(&self) -> u32 {
        match self {
            Tree::Leaf { position, .. } => *position,
            Tree::Inner { newest, .. } => *newest,
        }
    }

    /// The lowest and the highest number covered.
    pub fn cover(&self) -> (u32, u32) {
        match self {
            Tree::Leaf { key, .. } => (*key, *key),
            Tree::Inner { low, high, .. } => (*low, *high),
        }
    }

    /// The conflict search from this node: the looks made, and whether a
    /// conflict was found.
    pub fn search(&self, record: &Record) -> (u32, bool) {
        let (low, high) = self.cover();
        if self.newest() <= record.snapshot || !record.touches_any(low, high) {
            return (1, false);
        }
        let Tree::Inner { children, .. } = self else {
            return (1, true);
        };
        let (left, found) = children.0.search(record);
        if found {
            return (1 + left, true);
        }
        let (right, found) = children.1.search(record);
        (1 + left + right, found)
    }
}

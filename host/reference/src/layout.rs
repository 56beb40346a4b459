//! The bytes of a pool: docs/LAYOUT.md written down straight. What state they
//! mean, or none if they are no state's image, which is answer 7; and bytes that mean a
//! state, be it one that a log makes or not.

use std::collections::BTreeMap;

use crate::state::{Kept, Limits, State};
use crate::tree::Tree;

/// "None" of docs/LAYOUT.md.
const NONE: u32 = u32::MAX;
/// "EMP1".
const MARK: u32 = 0x454D_5031;

/// The state that the bytes are the image of.
pub fn state_of(bytes: &[u8]) -> Option<State> {
    if bytes.len() < 64 || word(bytes, 0) != MARK {
        return None;
    }
    let [n, z, position, kept, root, free] = [4, 8, 12, 16, 20, 24].map(|at| word(bytes, at));
    let limits = Limits::new(n, z).ok()?;
    if bytes.len() != 64 + 64 * n as usize || bytes[28..64].iter().any(|&byte| byte != 0) {
        return None;
    }
    let mut pool = Pool {
        bytes,
        position,
        seen: vec![false; 2 * n as usize],
        kept: BTreeMap::new(),
    };
    if kept > n {
        return None;
    }
    if kept == 0 {
        (root == NONE).then_some(())?;
    } else {
        pool.tree(root, 0, 1 << 32)?;
    }
    (pool.kept.len() == kept as usize).then_some(())?;
    pool.free_nodes(free)?;
    Some(State::of_kept(limits, position, pool.kept))
}

/// A pool that means this state: the nodes of the tree in the order of a walk, a node
/// behind its children, and then the free ones.
pub fn image_of(state: &State) -> Vec<u8> {
    let (n, z) = (state.limits().n(), state.limits().z());
    let keys: Vec<(u32, u32)> = state.kept().iter().map(leaf_of).collect();
    let mut nodes: Vec<[u32; 8]> = Vec::new();
    let root = Tree::build(&keys).map_or(NONE, |tree| placed(&tree, state, &mut nodes).0);
    let (used, all) = (nodes.len() as u32, 2 * n);
    for number in used..all {
        let next = if number + 1 < all { number + 1 } else { NONE };
        nodes.push([NONE, next, all - number, 0, 0, 0, 0, 0]);
    }
    let head = [MARK, n, z, state.position(), keys.len() as u32, root, used];
    let words = head.into_iter().chain([0; 9]).chain(nodes.concat());
    words.flat_map(u32::to_be_bytes).collect()
}

/// A kept key and its position, as a tree is built of.
fn leaf_of((&key, kept): (&u32, &Kept)) -> (u32, u32) {
    (key, kept.position)
}

/// Adds the nodes of a tree: the number of its root, and its oldest.
fn placed(tree: &Tree, state: &State, nodes: &mut Vec<[u32; 8]>) -> (u32, u32) {
    let newest = tree.newest();
    let (words, oldest) = match tree {
        Tree::Leaf { key, .. } => match state.lookup(*key) {
            Some((payload, _)) => {
                let (left, right) = ((payload >> 32) as u32, payload as u32);
                ([0, *key, newest, NONE, left, right, 1, 0], NONE)
            }
            None => ([0, *key, newest, newest, 0, 0, 2, 0], newest),
        },
        Tree::Inner {
            low,
            high,
            children,
            ..
        } => {
            let (left, on_the_left) = placed(&children.0, state, nodes);
            let (right, on_the_right) = placed(&children.1, state, nodes);
            let oldest = on_the_left.min(on_the_right);
            let height = u64::from(high - low).count_ones();
            ([height, *low, newest, oldest, left, right, 0, 0], oldest)
        }
    };
    nodes.push(words);
    (nodes.len() as u32 - 1, oldest)
}

/// Four bytes, big-endian.
fn word(bytes: &[u8], at: usize) -> u32 {
    u32::from_be_bytes([bytes[at], bytes[at + 1], bytes[at + 2], bytes[at + 3]])
}

/// A pool while its nodes are gone through.
struct Pool<'a> {
    bytes: &'a [u8],
    position: u32,
    /// Which nodes were met; none may be met twice.
    seen: Vec<bool>,
    kept: BTreeMap<u32, Kept>,
}

impl Pool<'_> {
    /// The eight words of a node that is there and was not met before.
    fn node(&mut self, number: u32) -> Option<[u32; 8]> {
        let seen = self.seen.get_mut(number as usize)?;
        if *seen {
            return None;
        }
        *seen = true;
        let base = 64 + 32 * number as usize;
        Some([0, 4, 8, 12, 16, 20, 24, 28].map(|at| word(self.bytes, base + at)))
    }

    /// The tree at a node, which has to cover a part of `from` to `to`, `to` left
    /// out: its newest and oldest. Its leaves are kept.
    fn tree(&mut self, number: u32, from: u64, to: u64) -> Option<(u32, u32)> {
        let [height, low, newest, oldest, left, right, kind, spare] = self.node(number)?;
        if spare != 0 || height > 32 {
            return None;
        }
        let start = u64::from(low);
        let size = 1_u64 << height;
        if start % size != 0 || start < from || to < start + size {
            return None;
        }
        if height == 0 {
            let payload = match kind {
                1 if oldest == NONE => Some(u64::from(left) << 32 | u64::from(right)),
                2 if oldest == newest && left == 0 && right == 0 => None,
                _ => return None,
            };
            let position = newest;
            (1 <= position && position <= self.position).then_some(())?;
            self.kept.insert(low, Kept { position, payload });
        } else {
            let middle = start + size / 2;
            let on_the_left = self.tree(left, start, middle)?;
            let on_the_right = self.tree(right, middle, start + size)?;
            let largest = on_the_left.0.max(on_the_right.0);
            let smallest = on_the_left.1.min(on_the_right.1);
            (kind == 0 && newest == largest && oldest == smallest).then_some(())?;
        }
        Some((newest, oldest))
    }

    /// All nodes that the tree has not, in the chain from `first` on.
    fn free_nodes(&mut self, first: u32) -> Option<()> {
        let mut next = first;
        let count = self.seen.iter().filter(|&&seen| !seen).count() as u32;
        for rank in (1..=count).rev() {
            let words = self.node(next)?;
            next = words[1];
            (words == [NONE, next, rank, 0, 0, 0, 0, 0]).then_some(())?;
        }
        (next == NONE).then_some(())
    }
}

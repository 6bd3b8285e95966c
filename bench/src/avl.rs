//! The device's algorithm in Rust: a ranked AVL tree on a slice of nodes, read by index with Rust's checks.
use crate::register::{Place, Region, Register, ends};

#[derive(Clone, Copy)]
struct Node {
    place: Place,
    join: Region,
    left: u16,
    right: u16,
    count: u16,
    height: u8,
}

pub struct Avl {
    nodes: Vec<Node>,
    root: u16,
}

impl Avl {
    fn node(&self, slot: u16) -> &Node {
        &self.nodes[slot as usize]
    }

    fn height(&self, slot: u16) -> u8 {
        if slot == 0 { 0 } else { self.node(slot).height }
    }

    fn count(&self, slot: u16) -> u16 {
        if slot == 0 { 0 } else { self.node(slot).count }
    }

    fn joined(&self, base: Region, slot: u16) -> Region {
        if slot == 0 { base } else { base.join(self.node(slot).join) }
    }

    fn link(&mut self, slot: u16, place: Place, left: u16, right: u16) {
        let height = 1 + self.height(left).max(self.height(right));
        let count = 1 + self.count(left) + self.count(right);
        let join = self.joined(self.joined(Region::of(place), left), right);
        self.nodes[slot as usize] = Node { place, join, left, right, count, height };
    }

    fn widen(&mut self, slot: u16, left: u16, right: u16, added: Place) {
        let Node { place, join, count, height, .. } = *self.node(slot);
        let join = join.join(Region::of(added));
        self.nodes[slot as usize] = Node { place, join, left, right, count: count + 1, height };
    }

    fn rotate_twice(&mut self, s: u16, p: Place, k: u16, q: Place, a: u16, b: u16, c: u16) -> u16 {
        let Node { place, left, right, .. } = *self.node(b);
        self.link(s, p, a, left);
        self.link(k, q, right, c);
        self.link(b, place, s, k);
        b
    }

    fn rebalance(&mut self, slot: u16, place: Place, left: u16, right: u16) -> u16 {
        let (low, high) = (self.height(left), self.height(right));
        if low > high + 1 {
            let Node { place: below, left: outer, right: inner, .. } = *self.node(left);
            if self.height(outer) < self.height(inner) {
                return self.rotate_twice(left, below, slot, place, outer, inner, right);
            }
            self.link(slot, place, inner, right);
            self.link(left, below, outer, slot);
            left
        } else if high > low + 1 {
            let Node { place: below, left: inner, right: outer, .. } = *self.node(right);
            if self.height(outer) < self.height(inner) {
                return self.rotate_twice(slot, place, right, below, left, inner, outer);
            }
            self.link(slot, place, left, inner);
            self.link(right, below, slot, outer);
            right
        } else {
            self.link(slot, place, left, right);
            slot
        }
    }

    fn insert(&mut self, root: u16, set: u16, place: Place) -> u16 {
        if root == 0 {
            self.link(set, place, 0, 0);
            return set;
        }
        let Node { place: here, left, right, .. } = *self.node(root);
        let goes_left = place.entry(set) < here.entry(root);
        let child = if goes_left { left } else { right };
        let before = self.height(child);
        let longer = self.insert(child, set, place);
        let (left, right) = if goes_left { (longer, right) } else { (left, longer) };
        if self.height(longer) == before {
            self.widen(root, left, right, place);
            return root;
        }
        self.rebalance(root, here, left, right)
    }

    fn pull_first(&mut self, root: u16) -> u16 {
        let Node { place, left, right, .. } = *self.node(root);
        if left == 0 {
            return right;
        }
        let shorter = self.pull_first(left);
        self.rebalance(root, place, shorter, right)
    }

    fn remove(&mut self, root: u16, set: u16, place: Place) -> u16 {
        let Node { place: here, left, right, .. } = *self.node(root);
        if set == root {
            if right == 0 {
                return left;
            }
            let mut first = right;
            while self.node(first).left != 0 {
                first = self.node(first).left;
            }
            let place = self.node(first).place;
            let rest = self.pull_first(right);
            return self.rebalance(first, place, left, rest);
        }
        let goes_left = place.entry(set) < here.entry(root);
        let shorter = self.remove(if goes_left { left } else { right }, set, place);
        let (left, right) = if goes_left { (shorter, right) } else { (left, shorter) };
        self.rebalance(root, here, left, right)
    }

    fn rank(&self, set: u16) -> usize {
        let entry = self.node(set).place.entry(set);
        let (mut slot, mut before) = (self.root, 0);
        while slot != set {
            let node = self.node(slot);
            if entry < node.place.entry(slot) {
                slot = node.left;
            } else {
                before += self.count(node.left) as usize + 1;
                slot = node.right;
            }
        }
        before + self.count(self.node(set).left) as usize
    }

    fn suffix(&self, mut slot: u16, mut joined: Region, mut skip: usize) -> Region {
        while slot != 0 {
            let node = self.node(slot);
            let lower = self.count(node.left) as usize;
            if skip > lower {
                skip -= lower + 1;
                slot = node.right;
            } else {
                joined = self.joined(joined.join(Region::of(node.place)), node.right);
                slot = node.left;
            }
        }
        joined
    }

    fn prefix(&self, mut slot: u16, mut joined: Region, mut keep: usize) -> Region {
        while slot != 0 {
            let node = self.node(slot);
            let lower = self.count(node.left) as usize;
            if keep <= lower {
                slot = node.left;
            } else {
                joined = self.joined(joined.join(Region::of(node.place)), node.left);
                keep -= lower + 1;
                slot = node.right;
            }
        }
        joined
    }

    fn between(&self, mut skip: usize, mut keep: usize) -> Region {
        let mut slot = self.root;
        loop {
            let node = self.node(slot);
            let lower = self.count(node.left) as usize;
            if keep <= lower {
                slot = node.left;
            } else if skip > lower {
                skip -= lower + 1;
                keep -= lower + 1;
                slot = node.right;
            } else {
                let low = self.suffix(node.left, Region::of(node.place), skip);
                return self.prefix(node.right, low, keep - lower - 1);
            }
        }
    }
}

impl Register for Avl {
    fn new() -> Avl {
        let place = Place::default();
        let unused = Node { place, join: Region::of(place), left: 0, right: 0, count: 0, height: 0 };
        Avl { nodes: vec![unused; 4096], root: 0 }
    }

    fn enter(&mut self, set: u16, place: Place) {
        self.root = self.insert(self.root, set, place);
    }

    fn relocate(&mut self, set: u16, place: Place) {
        let old = self.node(set).place;
        self.root = self.remove(self.root, set, old);
        self.enter(set, place);
    }

    fn bucket(&self, set: u16, size: usize) -> (usize, usize, Region) {
        let (first, last) = ends(self.count(self.root) as usize, size, self.rank(set));
        (first, last, self.between(first, last + 1))
    }
}

//! What a Rust programmer would take from the library.
use crate::register::{Place, Region, Register, ends};
use std::collections::BTreeSet;

/// The row as a sorted vector.
pub struct SortedRow {
    row: Vec<u64>,
    at: Vec<Place>,
}

impl SortedRow {
    fn rank(&self, set: u16) -> usize {
        self.row.binary_search(&self.at[set as usize].entry(set)).unwrap()
    }
}

impl Register for SortedRow {
    fn new() -> SortedRow {
        SortedRow { row: Vec::with_capacity(4096), at: vec![Place::default(); 4096] }
    }

    fn enter(&mut self, set: u16, place: Place) {
        self.at[set as usize] = place;
        let entry = place.entry(set);
        let rank = self.row.binary_search(&entry).unwrap_err();
        self.row.insert(rank, entry);
    }

    fn relocate(&mut self, set: u16, place: Place) {
        let rank = self.rank(set);
        self.row.remove(rank);
        self.enter(set, place);
    }

    fn bucket(&self, set: u16, size: usize) -> (usize, usize, Region) {
        let (first, last) = ends(self.row.len(), size, self.rank(set));
        let mut members = self.row[first..=last].iter().map(|entry| Region::of(self.at[(entry & 0xffff) as usize]));
        let start = members.next().unwrap();
        (first, last, members.fold(start, Region::join))
    }
}

/// The row as a `BTreeSet`, which has no ranks: a bucket counts the entries before.
pub struct SetTree {
    row: BTreeSet<u64>,
    at: Vec<Place>,
}

impl Register for SetTree {
    fn new() -> SetTree {
        SetTree { row: BTreeSet::new(), at: vec![Place::default(); 4096] }
    }

    fn enter(&mut self, set: u16, place: Place) {
        self.at[set as usize] = place;
        self.row.insert(place.entry(set));
    }

    fn relocate(&mut self, set: u16, place: Place) {
        self.row.remove(&self.at[set as usize].entry(set));
        self.enter(set, place);
    }

    fn bucket(&self, set: u16, size: usize) -> (usize, usize, Region) {
        let rank = self.row.range(..self.at[set as usize].entry(set)).count();
        let (first, last) = ends(self.row.len(), size, rank);
        let mut members =
            self.row.iter().skip(first).take(last + 1 - first).map(|entry| Region::of(self.at[(entry & 0xffff) as usize]));
        let start = members.next().unwrap();
        (first, last, members.fold(start, Region::join))
    }
}

//! A simulated disk of two areas, with crashes and failing calls.

use std::ops::Range;

/// An area: its bytes, the length that no crash goes below, and the ranges in
/// which a crash may leave other bytes, ascending and apart.
#[derive(Clone, Default)]
struct Area {
    bytes: Vec<u8>,
    safe: usize,
    loose: Vec<Range<usize>>,
}

impl Area {
    fn write(&mut self, at: usize, bytes: &[u8]) {
        debug_assert!(at <= self.bytes.len());
        let inside = bytes.len().min(self.bytes.len() - at);
        self.bytes[at..at + inside].copy_from_slice(&bytes[..inside]);
        self.bytes.extend_from_slice(&bytes[inside..]);
        self.loosen(at..at + bytes.len());
    }

    /// Writes so many bytes of a repeated fill.
    fn write_fill(&mut self, at: usize, count: usize, fill: &[u8]) {
        let torn: Vec<u8> = fill.iter().copied().cycle().take(count).collect();
        self.write(at, &torn);
    }

    fn loosen(&mut self, range: Range<usize>) {
        let mut joined = range;
        self.loose.retain(|old| {
            let apart = old.end < joined.start || joined.end < old.start;
            if !apart {
                joined = joined.start.min(old.start)..joined.end.max(old.end);
            }
            apart
        });
        self.loose.push(joined);
        self.loose.sort_by_key(|range| range.start);
    }

    /// Loosens what there is of a range.
    fn loosen_within(&mut self, at: usize, count: usize) {
        let end = self.bytes.len().min(at + count);
        if at < end {
            self.loosen(at..end);
        }
    }

    fn settle(&mut self) {
        self.loose.clear();
        self.safe = self.bytes.len();
    }

    /// Cuts the area and fills what is loose; the fill goes on from place `filled`.
    fn crash(&mut self, cut: usize, fill: &[u8], filled: &mut usize) {
        self.bytes.truncate(cut.max(self.safe));
        let end = self.bytes.len();
        for range in std::mem::take(&mut self.loose) {
            let kept = range.start.min(end)..range.end.min(end);
            if !fill.is_empty() {
                for byte in &mut self.bytes[kept] {
                    *byte = fill[*filled % fill.len()];
                    *filled += 1;
                }
            }
        }
        self.settle();
    }
}

/// A disk with its areas 0 and 1.
#[derive(Clone, Default)]
pub struct Disk {
    areas: [Area; 2],
}

impl Disk {
    /// The bytes of an area.
    pub fn read(&self, area: usize) -> &[u8] {
        &self.areas[area].bytes
    }

    /// Writes bytes, from a place in the area or its end on.
    pub fn write(&mut self, area: usize, at: usize, bytes: &[u8]) {
        self.areas[area].write(at, bytes);
    }

    /// A write that fails: its range holds the fill, repeated, or the bytes
    /// themselves where the fill is empty.
    pub fn fail_write(&mut self, area: usize, at: usize, bytes: &[u8], fill: &[u8]) {
        if fill.is_empty() {
            self.areas[area].write(at, bytes);
        } else {
            self.areas[area].write_fill(at, bytes.len(), fill);
        }
    }

    /// A write that finds no memory: what there is of its range is loose.
    pub fn starve_write(&mut self, area: usize, at: usize, count: usize) {
        self.areas[area].loosen_within(at, count);
    }

    /// Makes all bytes and lengths last.
    pub fn sync(&mut self) {
        self.areas.iter_mut().for_each(Area::settle);
    }

    /// What a crash leaves: each area is cut, and the loose bytes that stay
    /// take those of the fill in turn, area 0 first.
    pub fn crash(&mut self, cuts: [usize; 2], fill: &[u8]) {
        let mut filled = 0;
        for (area, cut) in self.areas.iter_mut().zip(cuts) {
            area.crash(cut, fill, &mut filled);
        }
    }
}

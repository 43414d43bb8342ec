//! Lent memory: marks around it, and values in it before each call.

use std::env;
use std::iter::repeat_n;

/// Cells or bytes lent in the middle of a larger piece with marks on both sides.
pub struct Lent<T> {
    area: Vec<T>,
    margin: usize,
    mark: T,
}

impl Lent<u8> {
    pub fn file(bytes: &[u8]) -> Self {
        Lent::bytes(bytes.iter().copied())
    }

    pub fn bytes(earlier: impl Iterator<Item = u8>) -> Self {
        Lent::new(earlier, 0x5C)
    }
}

impl Lent<u64> {
    pub fn cells(earlier: impl Iterator<Item = u64>) -> Self {
        Lent::new(earlier, 0xDEAD_5EA1_DEAD_5EA1)
    }
}

impl<T: Copy + PartialEq> Lent<T> {
    fn new(middle: impl Iterator<Item = T>, mark: T) -> Self {
        let margin = margin();
        let marks = || repeat_n(mark, margin);
        let area: Vec<T> = marks().chain(middle).chain(marks()).collect();
        // A boxed slice has no spare room, so a tool that watches the heap
        // sees every step past the end when the margin is 0.
        Lent { area: area.into_boxed_slice().into_vec(), margin, mark }
    }

    pub fn middle(&self) -> &[T] {
        &self.area[self.margin..self.area.len() - self.margin]
    }

    pub fn middle_mut(&mut self) -> &mut [T] {
        let end = self.area.len() - self.margin;
        &mut self.area[self.margin..end]
    }

    /// Neither what was lent nor what stands around it has changed.
    pub fn is_still(&self, lent: &[T]) -> bool {
        self.middle() == lent && self.margins_hold()
    }

    pub fn margins_hold(&self) -> bool {
        let end = self.area.len() - self.margin;
        self.area[..self.margin].iter().chain(&self.area[end..]).all(|&cell| cell == self.mark)
    }
}

/// Puts a file into an area that has 30 bytes more, where its address is so much
/// modulo 16.
pub fn at_address<'a>(area: &'a mut [u8], file: &[u8], address: usize) -> &'a [u8] {
    let begin = area.as_ptr().align_offset(16) + address % 16;
    let place = &mut area[begin..begin + file.len()];
    place.copy_from_slice(file);
    place
}

/// With PEER_TIGHT set nothing stands around the lent memory, so that a tool
/// that watches the heap sees reads past the end as well.
fn margin() -> usize {
    if env::var_os("PEER_TIGHT").is_some() {
        0
    } else {
        17
    }
}

/// What result cells hold before the call: each another value.
pub fn earlier_cell(index: usize) -> u64 {
    0x0123_4567_0000_0000 + index as u64
}

pub fn earlier_cells(length: usize) -> impl Iterator<Item = u64> {
    (0..length).map(earlier_cell)
}

/// What lent bytes hold before the call: none is zero, no two neighbours alike.
pub fn earlier_bytes(length: usize) -> impl Iterator<Item = u8> {
    (0..length).map(|at| 1 + (at % 251) as u8)
}

//! The library's calls on slices. What a run may write to stands between guards, so that a byte written outside shows.

use crate::random::Random;
use crate::raw::{self, Answer, Opening, Programme, Reading, ScaleReading, Standing};
use std::ptr;

const GUARD: usize = 64;

/// A buffer between guards, all of it filled with a pattern. One of length 0 may be lent without an address.
#[derive(Clone, PartialEq, Eq)]
pub struct Room {
    bytes: Vec<u8>,
    without_address: bool,
}

impl Room {
    pub fn new(random: &mut Random, length: usize) -> Self {
        let (first, step) = (random.place(256), random.pick(&[1, 3, 31, 131]));
        let bytes = (0..length + 2 * GUARD).map(|place| (first + step * place) as u8).collect();
        Room { bytes, without_address: length == 0 && random.one_in(2) }
    }

    pub fn lent(&mut self) -> &mut [u8] {
        let length = self.length();
        &mut self.bytes[GUARD..][..length]
    }

    pub fn length(&self) -> usize {
        self.bytes.len() - 2 * GUARD
    }

    /// The first bytes lent, as many as a call says that it has written.
    pub fn text(&self, length: u64) -> &[u8] {
        &self.bytes[GUARD..][..self.length().min(length as usize)]
    }

    /// The first place that differs from another room's, counted from the first byte lent.
    pub fn first_difference(&self, other: &Room) -> Option<isize> {
        let place = self.bytes.iter().zip(&other.bytes).position(|(ours, theirs)| ours != theirs)?;
        Some(place as isize - GUARD as isize)
    }

    fn address(&mut self) -> *mut u8 {
        if self.without_address {
            ptr::null_mut()
        } else {
            self.lent().as_mut_ptr()
        }
    }
}

/// A standing between guards.
#[repr(C)]
#[derive(Clone, Copy, PartialEq, Eq)]
pub struct Lent {
    before: [u64; 8],
    pub standing: Standing,
    after: [u64; 8],
}

impl Lent {
    pub fn new(standing: Standing) -> Self {
        let guard = [1, 2, 3, 4, 5, 6, 7, 8].map(|word: u64| word.wrapping_mul(0x9e37_79b9_7f4a_7c15));
        Lent { before: guard, standing, after: guard }
    }
}

pub fn read(text: &[u8]) -> Reading {
    unsafe { raw::cession_read(text.as_ptr(), text.len()) }
}

pub fn write(programme: &Programme, room: &mut Room) -> Answer {
    let (address, length) = (room.address(), room.length());
    unsafe { raw::cession_write(*programme, address, length) }
}

pub fn open(programme: &Programme) -> Opening {
    unsafe { raw::cession_open(*programme) }
}

pub fn read_scale(text: &[u8]) -> ScaleReading {
    unsafe { raw::cession_read_scale(text.as_ptr(), text.len()) }
}

/// A run that is lent a scale's shares, or none: it then charges by the built-in ones. No shares have no address.
pub fn run(
    programme: &Programme,
    lent: &mut Lent,
    scale: Option<&[u64]>,
    events: &[u8],
    room: &mut Room,
) -> Answer {
    let (address, length) = (room.address(), room.length());
    let (standing, text, size) = (&mut lent.standing, events.as_ptr(), events.len());
    let Some(shares) = scale else {
        return unsafe { raw::cession_run(*programme, standing, text, size, address, length) };
    };
    let first = shares.first().map_or(ptr::null(), ptr::from_ref);
    unsafe { raw::cession_run_scaled(*programme, standing, first, shares.len(), text, size, address, length) }
}

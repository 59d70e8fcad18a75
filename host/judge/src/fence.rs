//! Memory between pages that nobody may touch: a byte read or written beside a buffer ends the program at
//! once.
//!
//! Guard elements show what is written beside a buffer; this shows what is read there too.

use crate::request::{Buffer, Lent};
use std::ffi::c_void;
use std::ops::{Deref, DerefMut};

extern "C" {
    fn mmap(addr: *mut c_void, len: usize, protection: i32, flags: i32, file: i32, offset: i64) -> *mut c_void;
    fn mprotect(addr: *mut c_void, len: usize, protection: i32) -> i32;
}

/// Linux's numbers.
const NONE: i32 = 0;
const READ_WRITE: i32 = 3;
const PRIVATE_ANONYMOUS: i32 = 0x22;

/// At least a page everywhere (Arm has pages of 64 KiB).
const PAGE: usize = 1 << 16;
/// Room for one buffer.
const ROOM: usize = 1 << 17;

/// Which end of a buffer lies against the fence.
#[derive(Clone, Copy, PartialEq, Eq)]
pub enum Side {
    Start,
    End,
}

/// Room for one buffer, fenced on both sides. It is kept until the program ends.
pub struct Fenced {
    room: *mut u8,
}

impl Fenced {
    pub fn new() -> Fenced {
        // SAFETY: fresh memory of our own, of which the middle is opened; both calls are checked.
        unsafe {
            let all = mmap(std::ptr::null_mut(), ROOM + 2 * PAGE, NONE, PRIVATE_ANONYMOUS, -1, 0).cast::<u8>();
            assert!(all as isize != -1, "the system gave no memory");
            let room = all.add(PAGE);
            assert_eq!(mprotect(room.cast(), ROOM, READ_WRITE), 0, "the system opened no memory");
            Fenced { room }
        }
    }

    /// Lends the buffer, or a copy of it with the given side against the fence.
    pub fn lend<'a, T: Lent>(&'a mut self, own: &'a mut Buffer<T>, side: Option<Side>) -> Loan<'a, T> {
        let size = size_of_val::<[T]>(own);
        let from = match side {
            Some(Side::Start) if size <= ROOM => 0,
            Some(Side::End) if size <= ROOM => ROOM - size,
            _ => return Loan { own, copy: None },
        };
        // SAFETY: the copy lies in the room, aligned since the room's ends and all sizes are multiples of the
        // element's alignment; it is borrowed from `self` as long as the loan lives; integers, and structs of
        // integers alone, have no invalid bytes.
        let copy = unsafe { std::slice::from_raw_parts_mut(self.room.add(from).cast::<T>(), own.len()) };
        copy.copy_from_slice(own);
        Loan { own, copy: Some(copy) }
    }
}

/// A lent buffer. What was written to a copy comes back at the end, also where it was lent for reading alone.
pub struct Loan<'a, T: Lent> {
    own: &'a mut Buffer<T>,
    copy: Option<&'a mut [T]>,
}

impl<T: Lent> Deref for Loan<'_, T> {
    type Target = [T];
    fn deref(&self) -> &[T] {
        self.copy.as_deref().unwrap_or(self.own)
    }
}

impl<T: Lent> DerefMut for Loan<'_, T> {
    fn deref_mut(&mut self) -> &mut [T] {
        match &mut self.copy {
            Some(copy) => copy,
            None => self.own,
        }
    }
}

impl<T: Lent> Drop for Loan<'_, T> {
    fn drop(&mut self) {
        if let Some(copy) = &self.copy {
            self.own.copy_from_slice(copy);
        }
    }
}

#[cfg(test)]
mod tests {
    use super::*;

    #[test]
    fn a_loan_comes_back_and_is_fenced() {
        let mut fenced = Fenced::new();
        for side in [None, Some(Side::Start), Some(Side::End)] {
            let mut b: Buffer<i16> = vec![1, 2, 3].into();
            let mut loan = fenced.lend(&mut b, side);
            assert_eq!(loan[..], [1, 2, 3]);
            loan[2] = -7;
            drop(loan);
            assert_eq!(b[..], [1, 2, -7]);
        }
        // the last byte of the room is ours, the next one nobody's
        let end = fenced.room as usize + ROOM;
        let maps = std::fs::read_to_string("/proc/self/maps").expect("Linux has it");
        let rights = |at: usize| {
            let holds = |line: &&str| {
                let (from, to) = line.split(' ').next().and_then(|range| range.split_once('-')).expect("a range");
                let number = |hex| usize::from_str_radix(hex, 16).expect("an address");
                number(from) <= at && at < number(to)
            };
            maps.lines().find(holds).and_then(|line| line.split(' ').nth(1)).expect("mapped").to_string()
        };
        assert_eq!([rights(end - 1), rights(end), rights(end - ROOM - 1)], ["rw-p", "---p", "---p"]);
        let mut empty: Buffer<u8> = Vec::new().into();
        assert!(fenced.lend(&mut empty, Some(Side::End)).is_empty());
    }
}

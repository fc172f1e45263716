//! Memory beside pages that cannot be touched: what is lent ends at one, or begins after one, and slices that are only read lie on pages that cannot be
//! written. Linux on x86-64, as the library.

use std::cell::Cell;

extern "C" {
    fn mmap(at: *mut u8, length: usize, protection: i32, flags: i32, file: i32, offset: i64) -> *mut u8;
    fn memfd_create(name: *const u8, flags: u32) -> i32;
    fn ftruncate(file: i32, length: i64) -> i32;
}

const PAGE: usize = 4096;

/// What lies between two pages that cannot be touched.
const LENGTH: usize = 256 * PAGE;

const NOTHING: i32 = 0;
const READ: i32 = 1;
const WRITE: i32 = 2;

const SHARED: i32 = 1;
const PRIVATE: i32 = 2;
const FIXED: i32 = 16;
const ANONYMOUS: i32 = 32;

fn map(at: *mut u8, length: usize, protection: i32, flags: i32, file: i32) -> *mut u8 {
    let address = unsafe { mmap(at, length, protection, flags, file, 0) };
    assert!(address as isize != -1, "no memory");
    address
}

/// The same bytes twice: where they can be put, and where they are lent.
struct Pages {
    put: *mut u8,
    lent: *mut u8,
}

impl Pages {
    fn new(protection: i32) -> Pages {
        let file = unsafe { memfd_create(c"pages".as_ptr().cast(), 0) };
        assert!(file >= 0 && unsafe { ftruncate(file, LENGTH as i64) } == 0, "no memory");
        let put = map(std::ptr::null_mut(), LENGTH, READ | WRITE, SHARED, file);
        let around = map(std::ptr::null_mut(), LENGTH + 2 * PAGE, NOTHING, PRIVATE | ANONYMOUS, -1);
        Pages { put, lent: map(around.wrapping_add(PAGE), LENGTH, protection, SHARED | FIXED, file) }
    }

    /// The bytes of the same memory as they can be put and looked at, from `from` on.
    fn at(&self, from: usize, length: usize) -> &mut [u8] {
        assert!(from + length <= LENGTH, "{length} bytes from {from} on");
        unsafe { std::slice::from_raw_parts_mut(self.put.add(from), length) }
    }
}

/// On which side of what is lent the page lies that cannot be touched.
#[derive(Clone, Copy, PartialEq)]
pub enum Side {
    After,
    Before,
}

impl Side {
    pub fn words(self) -> &'static str {
        match self {
            Side::After => "a page after",
            Side::Before => "a page before",
        }
    }

    /// Where so many bytes begin.
    fn place(self, length: usize) -> usize {
        match self {
            Side::After => LENGTH.checked_sub(length).expect("too many bytes to lend"),
            Side::Before => 0,
        }
    }
}

thread_local! {
    static SIDE: Cell<Option<Side>> = const { Cell::new(None) };
    static DEPTH: Cell<usize> = const { Cell::new(0) };
    static READABLE: [Pages; 3] = std::array::from_fn(|_| Pages::new(READ));
    static WRITABLE: [Pages; 2] = std::array::from_fn(|_| Pages::new(READ | WRITE));
}

/// From here on calls are lent such memory, or ordinary memory.
pub fn lend_at(side: Option<Side>) {
    SIDE.set(side);
}

pub fn side() -> Option<Side> {
    SIDE.get()
}

/// These slices as a call is lent them, each with a page of its own beside it; the next such call takes the same memory.
pub fn readable<const N: usize>(slices: [&[u8]; N]) -> [&[u8]; N] {
    let Some(side) = side() else { return slices };
    READABLE.with(|all| {
        std::array::from_fn(|i| {
            let (pages, from) = (&all[i], side.place(slices[i].len()));
            pages.at(from, slices[i].len()).copy_from_slice(slices[i]);
            unsafe { std::slice::from_raw_parts(pages.lent.add(from), slices[i].len()) }
        })
    })
}

/// Bytes of the room's own page that are not lent, and what they hold.
const MARGIN: usize = 64;
const PAINT: u8 = 0xa5;

/// Lends a copy of `room`: the call's answer, and the room after it. A byte of the margin that changed ends the run.
pub fn lent<A>(side: Side, room: &[u8], call: impl FnOnce(*mut u8, usize) -> A) -> (A, Vec<u8>) {
    let depth = DEPTH.replace(DEPTH.get() + 1);
    let from = side.place(room.len());
    let margin = if side == Side::After { from - MARGIN } else { room.len() };
    let lent = WRITABLE.with(|all| {
        all[depth].at(from, room.len()).copy_from_slice(room);
        all[depth].at(margin, MARGIN).fill(PAINT);
        all[depth].lent.wrapping_add(from)
    });
    let answer = call(lent, room.len());
    DEPTH.set(depth);
    WRITABLE.with(|all| {
        assert!(all[depth].at(margin, MARGIN).iter().all(|&b| b == PAINT), "a byte beside the room was written");
        (answer, all[depth].at(from, room.len()).to_vec())
    })
}

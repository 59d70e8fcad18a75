//! How much stack each call of the archive touches, and beside it the original's whole-picture call and its
//! strength calls.
//!
//! Each runs on a thread of its own whose stack is memory of ours, painted before. Afterwards the lowest byte
//! that is not the paint tells how deep it went; a thread that calls nothing tells what of that is the
//! thread's own. Twice, with two paints, since a byte that the call wrote may look like one.

use deblock::{y4m, Flags, Grids, Kind, Part, Picture, Place, Size, SliceRecord};
use oracle::probed::probe::{derive_flags_into, Edges};
use oracle::probed::{derive_mb, derive_mb_kind, MbKind};
use std::ffi::c_void;
use std::hint::black_box;
use std::mem::MaybeUninit;

const BYTES: usize = 1 << 20;

#[repr(C, align(4096))]
struct Stack([u8; BYTES]);

/// glibc's pthread_attr_t is 56 or 64 bytes.
#[repr(C, align(16))]
struct Attributes([u8; 128]);

extern "C" {
    fn pthread_attr_init(attributes: *mut Attributes) -> i32;
    fn pthread_attr_setstack(attributes: *mut Attributes, low: *mut c_void, bytes: usize) -> i32;
    fn pthread_create(
        thread: *mut usize,
        attributes: *const Attributes,
        start: extern "C" fn(*mut c_void) -> *mut c_void,
        argument: *mut c_void,
    ) -> i32;
    fn pthread_join(thread: usize, answer: *mut *mut c_void) -> i32;
}

type Work<'a> = &'a mut (dyn FnMut() + Send);

extern "C" fn start(work: *mut c_void) -> *mut c_void {
    // SAFETY: `touched` hands over a pointer to its `Work`, and waits until the thread has ended.
    unsafe { (*work.cast::<Work>())() };
    std::ptr::null_mut()
}

/// The bytes from the top of the stack to the lowest that the thread wrote.
fn touched(paint: u8, mut work: Work) -> usize {
    let mut stack = Box::new(MaybeUninit::<Stack>::uninit());
    let low = stack.as_mut_ptr().cast::<u8>();
    let mut attributes = Attributes([0; 128]);
    let mut thread = 0;
    // SAFETY: the stack is ours, painted before the thread has it and read after the thread has ended.
    let stack = unsafe {
        low.write_bytes(paint, BYTES);
        assert_eq!(pthread_attr_init(&mut attributes), 0);
        assert_eq!(pthread_attr_setstack(&mut attributes, low.cast(), BYTES), 0);
        assert_eq!(pthread_create(&mut thread, &attributes, start, (&raw mut work).cast()), 0);
        assert_eq!(pthread_join(thread, std::ptr::null_mut()), 0);
        std::slice::from_raw_parts(low, BYTES)
    };
    BYTES - stack.iter().position(|&byte| byte != paint).expect("the thread wrote something")
}

fn deepest(mut work: impl FnMut() + Send) -> usize {
    [0xA5, 0x3C].map(|paint| touched(paint, &mut work)).into_iter().max().expect("there are two")
}

const SIZE: Size = Size { w: 2, h: 2 };
const LAST: Place = Place { x: 1, y: 1 };
const QPS: [u8; 4] = [40; 4];
/// Two slices of mode 0 whose macroblocks alternate, so that offsets are taken anew with each.
const SLICES: [SliceRecord; 2] = [SliceRecord { mode: 0, a: 0, b: 0 }, SliceRecord { mode: 0, a: 2, b: 2 }];
const NUMBERS: [u16; 4] = [0, 1, 1, 0];

/// Memory for a picture of two by two macroblocks in which every edge that exists is filtered in both passes.
struct Memory {
    part: Part,
    planes: [Vec<u8>; 3],
    strengths: Vec<u8>,
    marks: [u8; 4],
}

impl Memory {
    /// The planes of a field are those of its frame.
    fn new(part: Part) -> Memory {
        let times = if part == Part::Frame { 4 } else { 8 };
        let side = |n: usize| (0..times * n * n).map(|i| (90 + i % 9) as u8).collect();
        Memory { part, planes: [side(16), side(8), side(8)], strengths: [4, 3, 2, 1].repeat(32), marks: [0; 4] }
    }

    fn lent(&mut self) -> Picture<'_> {
        let Memory { part, planes: [luma, u, v], strengths, marks } = self;
        let (part, qps, slices, slice_numbers) = (*part, &QPS, &SLICES, &NUMBERS);
        Picture { size: SIZE, part, luma, u, v, strengths, qps, marks, slices, slice_numbers, ..Picture::default() }
    }
}

fn main() {
    let idle = deepest(|| ());
    let show = |name: &str, bytes: usize| println!("{name:<36}{:>6}", bytes - idle);
    println!("bytes of stack touched, beyond a thread that calls nothing");
    // inter blocks that use both lists, each with a motion of its own; with tables most is read
    let mv: Vec<i16> = (0..128).collect();
    let grids = Grids {
        inter: &[1; 64],
        nnz: &[0; 64],
        ref0: &[5; 64],
        mv0: &mv,
        ref1: &[6; 64],
        mv1: &mv,
        pictures0: &[5; 8],
        pictures1: &[6; 8],
    };
    for (part, of) in [(Part::Frame, ""), (Part::BottomField, " of a field")] {
        let show = |name: &str, bytes: usize| show(&format!("{name}{of}"), bytes);
        filtering(&show, part);
        strengths(&show, part, grids);
    }
    finality(&show);
    streams(&show);
    show("the Rust's whole picture", original());
    original_strengths(&show, grids);
}

fn filtering(show: &dyn Fn(&str, usize), part: Part) {
    let mut memory = Memory::new(part);
    let mut p = memory.lent();
    show("whole picture", deepest(|| assert!(p.whole().is_done())));
    show("rows", deepest(|| assert!(p.rows(0..2).is_done())));
    show("visit", {
        deepest(|| {
            p.marks.copy_from_slice(&[1, 1, 1, 0]);
            assert!(p.visit(LAST).is_done());
        })
    });
    show("whole picture with slices", deepest(|| assert!(p.whole_slices().is_done())));
    show("rows with slices", deepest(|| assert!(p.rows_slices(0..2).is_done())));
    show("visit with slices", {
        deepest(|| {
            p.marks.copy_from_slice(&[1, 1, 1, 0]);
            assert!(p.visit_slices(LAST).is_done());
        })
    });
}

/// Which part it is does not matter to these.
fn finality(show: &dyn Fn(&str, usize)) {
    let mut memory = Memory { marks: [1; 4], ..Memory::new(Part::Frame) };
    let p = memory.lent();
    show("is it final", deepest(|| assert_eq!(p.is_final(LAST), Ok(true))));
    show("what a visit made final", deepest(|| assert!(p.made_final(LAST).is_ok_and(|made| made.own))));
}

/// Of a stream that holds the frame.
fn streams(show: &dyn Fn(&str, usize)) {
    let Memory { planes: [mut luma, mut u, mut v], .. } = Memory::new(Part::Frame);
    show("length of a stream", deepest(|| assert!(y4m::length(SIZE).is_some())));
    let mut stream = vec![0; y4m::length(SIZE).expect("a size")];
    show("writing a stream", deepest(|| assert!(y4m::write(SIZE, &luma, &u, &v, &mut stream).is_done())));
    show("looking at a stream", deepest(|| assert_eq!(y4m::look(&stream), Ok(SIZE))));
    show("reading a stream", deepest(|| assert_eq!(y4m::read(&stream, &mut luma, &mut u, &mut v), Ok(SIZE))));
}

fn original() -> usize {
    let Memory { planes: [mut luma, mut u, mut v], strengths, .. } = Memory::new(Part::Frame);
    let stored = oracle::Stored::new(SIZE.w, SIZE.h, &strengths, &QPS, &[]);
    deepest(|| {
        let planes = oracle::Planes { luma: &mut luma, u: &mut u, v: &mut v };
        stored.filter_frame(planes, oracle::Offsets { a: 0, b: 0, chroma: 0 });
    })
}

fn strengths(show: &dyn Fn(&str, usize), part: Part, grids: Grids) {
    let mut memory = Memory::new(part);
    let mut p = Picture { t8s: &[1; 4], ..memory.lent() }; // with the flags most is read
    show("strengths by kind", deepest(|| assert!(p.derive_by_kind(grids, LAST, Kind::Inter).is_done())));
    show("strengths by flags", deepest(|| assert!(p.derive_by_flags(grids, LAST, Flags::default()).is_done())));
    show("strengths", deepest(|| assert!(p.derive(grids, LAST).is_done())));
    let kinds = &[Kind::Inter; 4];
    show("row's strengths by kinds", deepest(|| assert!(p.derive_row(grids, LAST.y, kinds).is_done())));
    show("row's strengths", deepest(|| assert!(p.derive_row(grids, LAST.y, &[]).is_done())));
}

/// Without 8x8 flags: with them the original reads as much, and compares less.
fn original_strengths(show: &dyn Fn(&str, usize), grids: Grids) {
    let Grids { inter, nnz, ref0, mv0, ref1, mv1, pictures0, pictures1 } = grids;
    let lent = oracle::Grids { inter, nnz, ref0, mv0, ref1, mv1, pictures0, pictures1 };
    let blocks = oracle::Blocks::new(SIZE.w, lent);
    let (info, Place { x, y }, mut edges) = (&blocks.info(), LAST, Edges::default());
    show("the Rust's strengths by kind", deepest(|| _ = black_box(derive_mb_kind(info, x, y, MbKind::Inter))));
    show("the Rust's strengths by flags", deepest(|| derive_flags_into(info, x, y, [false; 2], false, &mut edges)));
    show("the Rust's strengths", deepest(|| _ = black_box(derive_mb(info, x, y, false))));
}

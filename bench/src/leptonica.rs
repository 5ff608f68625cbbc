//! The same operations by Leptonica. It is told that the outside is background, and its results
//! are compared with the proved ones. It has no decomposition, no reconstruction at a cut and no
//! thinning by the house set: those are written here with its calls. What its hit-or-miss hits at
//! the edge is cleared. Its own thinning is another operation.

use crate::compare::Other;
use bench::baseline::GOLAY_L;
use bench::inputs::SIDE;
use std::cell::Cell;
use std::ffi::{c_char, CStr};
use std::rc::Rc;
use std::time::Instant;

#[repr(C)]
struct Pix([u8; 0]);
#[repr(C)]
struct Sel([u8; 0]);
type P = *mut Pix;

const HIT: i32 = 1;
const MISS: i32 = 2;
/// The outside is OFF for erosion as well as for dilation.
const ASYMMETRIC: i32 = 1;
const THIN_FG: i32 = 1;
const CLEAR: i32 = 0;
/// No message, for composite bricks that cannot be had.
const SILENT: i32 = 6;

extern "C" {
    fn getLeptonicaVersion() -> *const c_char;
    fn setMsgSeverity(severity: i32) -> i32;
    fn resetMorphBoundaryCondition(condition: i32);
    fn makePixelSumTab8() -> *const i32;
    fn selCreate(height: i32, width: i32, name: *const c_char) -> *mut Sel;
    fn selSetOrigin(sel: *mut Sel, cy: i32, cx: i32) -> i32;
    fn selSetElement(sel: *mut Sel, row: i32, column: i32, kind: i32) -> i32;
    fn pixCreate(width: i32, height: i32, depth: i32) -> P;
    fn pixDestroy(pix: *mut P);
    fn pixClearAll(pix: P) -> i32;
    fn pixCopy(to: P, from: P) -> P;
    fn pixSetPixel(pix: P, x: i32, y: i32, value: u32) -> i32;
    fn pixGetPixel(pix: P, x: i32, y: i32, value: *mut u32) -> i32;
    fn pixZero(pix: P, empty: *mut i32) -> i32;
    fn pixCountPixels(pix: P, count: *mut i32, table: *const i32) -> i32;
    fn pixErode(to: P, from: P, sel: *mut Sel) -> P;
    fn pixDilate(to: P, from: P, sel: *mut Sel) -> P;
    fn pixErodeBrick(to: P, from: P, across: i32, down: i32) -> P;
    fn pixOpenBrick(to: P, from: P, across: i32, down: i32) -> P;
    fn pixErodeCompBrick(to: P, from: P, across: i32, down: i32) -> P;
    fn pixOpenCompBrick(to: P, from: P, across: i32, down: i32) -> P;
    fn pixHMT(to: P, from: P, sel: *mut Sel) -> P;
    fn pixSetOrClearBorder(pix: P, left: i32, right: i32, top: i32, bottom: i32, op: i32) -> i32;
    fn pixSubtract(to: P, from: P, less: P) -> P;
    fn pixOr(to: P, one: P, other: P) -> P;
    fn pixSetMasked(pix: P, mask: P, value: u32) -> i32;
    fn pixGenerateMaskByValue(pix: P, value: i32, colours: i32) -> P;
    fn pixGetMaxValueInRect(pix: P, rect: P, value: *mut u32, x: *mut i32, y: *mut i32) -> i32;
    fn pixThinConnected(from: P, kind: i32, connectivity: i32, iterations: i32) -> P;
}

/// What is said of it in the heading.
pub fn note() -> String {
    // A string that ends in a zero byte.
    let version = unsafe { CStr::from_ptr(getLeptonicaVersion()) };
    let version = version.to_string_lossy();
    format!(
        "{version}: erosion and opening by the square the quickest way it has, by others in n calls;\n\
         decomposition, reconstruction and thinning by the house set written with its calls. `own thin` is its own\n\
         thinning, another operation. It tests no refusal and clears no work."
    )
}

/// An image of Leptonica's.
struct Image {
    pix: Cell<P>,
}

// All calls below are handed images and elements that live; their sizes are the same.
impl Image {
    fn new(depth: i32) -> Image {
        let pix = unsafe { pixCreate(SIDE as i32, SIDE as i32, depth) };
        Image {
            pix: Cell::new(pix),
        }
    }

    fn of(depth: i32, value: impl Fn(usize, usize) -> u8) -> Image {
        let image = Image::new(depth);
        each_pixel(|x, y| image.set(x, y, value(x, y) as u32));
        image
    }

    fn set(&self, x: usize, y: usize, value: u32) {
        unsafe { pixSetPixel(self.pix.get(), x as i32, y as i32, value) };
    }

    fn get(&self, x: usize, y: usize) -> u32 {
        let mut value = 0;
        unsafe { pixGetPixel(self.pix.get(), x as i32, y as i32, &mut value) };
        value
    }

    fn is(&self, wanted: impl Fn(usize, usize) -> u8) -> bool {
        let mut same = true;
        each_pixel(|x, y| same &= self.get(x, y) == wanted(x, y) as u32);
        same
    }

    fn is_empty(&self) -> bool {
        let mut empty = 0;
        unsafe { pixZero(self.pix.get(), &mut empty) };
        empty != 0
    }

    fn area(&self, table: *const i32) -> u32 {
        let mut count = 0;
        unsafe { pixCountPixels(self.pix.get(), &mut count, table) };
        count as u32
    }

    fn copy(&self, from: &Image) {
        unsafe { pixCopy(self.pix.get(), from.pix.get()) };
    }
}

impl Drop for Image {
    fn drop(&mut self) {
        unsafe { pixDestroy(self.pix.as_ptr()) };
    }
}

fn each_pixel(mut each: impl FnMut(usize, usize)) {
    let side = SIDE as usize;
    (0..side * side).for_each(|place| each(place % side, place / side));
}

/// The ones of each byte, which counting asks for; made once.
fn table() -> *const i32 {
    thread_local!(static TABLE: *const i32 = unsafe { makePixelSumTab8() });
    TABLE.with(|table| *table)
}

/// A pixel of a packed image.
fn pixel(image: &[u8], x: usize, y: usize) -> u8 {
    image[y * SIDE.div_ceil(8) as usize + x / 8] << (x % 8) >> 7
}

fn label(labels: &[u8], x: usize, y: usize) -> u8 {
    labels[y * SIDE as usize + x]
}

/// An element or a mask of so many columns and rows, by what it has at each offset.
fn sel(side: i32, kind: impl Fn(i32) -> i32) -> *mut Sel {
    unsafe {
        setMsgSeverity(SILENT);
        resetMorphBoundaryCondition(ASYMMETRIC);
        let sel = selCreate(side, side, std::ptr::null());
        selSetOrigin(sel, side / 2, side / 2);
        for bit in 0..side * side {
            selSetElement(sel, bit / side, bit % side, kind(bit));
        }
        sel
    }
}

fn element_sel(element: u32) -> *mut Sel {
    sel(5, |bit| (element >> bit & 1) as i32 * HIT)
}

const SQUARE: u32 = 473536;

/// Erosion by nB, or opening. By the square: the quickest of one brick, one composite brick
/// where that leaves the same (it has not every side), and n squares. By others n calls, which
/// end once nothing is left.
pub fn erode_or_open(opens: bool, element: u32, n: u32, image: &[u8]) -> Option<Other> {
    let (from, sel) = (
        Image::of(1, |x, y| pixel(image, x, y)),
        element_sel(element),
    );
    let (out, spare) = (Rc::new(Image::new(1)), Image::new(1));
    let result = out.clone();
    let run = move |way: Way| {
        let brick = |way: unsafe extern "C" fn(P, P, i32, i32) -> P| {
            let side = 2 * n as i32 + 1;
            unsafe { way(out.pix.get(), from.pix.get(), side, side) };
        };
        let times = |step: unsafe extern "C" fn(P, P, *mut Sel) -> P| {
            for _ in 0..n {
                if out.is_empty() {
                    break;
                }
                unsafe { step(spare.pix.get(), out.pix.get(), sel) };
                out.pix.swap(&spare.pix);
            }
        };
        match (way, opens) {
            (Way::Brick, false) => brick(pixErodeBrick),
            (Way::Brick, true) => brick(pixOpenBrick),
            (Way::Composite, false) => brick(pixErodeCompBrick),
            (Way::Composite, true) => brick(pixOpenCompBrick),
            (Way::Times, _) => {
                out.copy(&from);
                times(pixErode);
                if opens {
                    times(pixDilate);
                }
            }
        }
        out.area(table())
    };
    let way = if element == SQUARE {
        quickest(&run, &result)
    } else {
        Way::Times
    };
    Some(Other {
        call: Box::new(move || run(way)),
        same: Some(Box::new(move |lent| {
            result.is(|x, y| pixel(&lent.out, x, y))
        })),
    })
}

/// How nB is applied.
#[derive(Clone, Copy)]
enum Way {
    Brick,
    Composite,
    Times,
}

/// The quickest way that leaves what n squares leave.
fn quickest(run: &impl Fn(Way) -> u32, result: &Image) -> Way {
    run(Way::Times);
    let wanted = Image::new(1);
    wanted.copy(result);
    let mut ways = vec![];
    for way in [Way::Times, Way::Brick, Way::Composite] {
        run(way);
        let start = Instant::now();
        run(way);
        let time = start.elapsed();
        if result.is(|x, y| wanted.get(x, y) as u8) {
            ways.push((time, way));
        }
    }
    let quickest = ways.into_iter().min_by_key(|(time, _)| *time);
    quickest.expect("n squares are a way").1
}

/// Decomposition by Leptonica's erosion, dilation, difference and masked labels.
pub fn decompose(element: u32, image: &[u8]) -> Option<Other> {
    let (from, sel) = (
        Image::of(1, |x, y| pixel(image, x, y)),
        element_sel(element),
    );
    let labels = Rc::new(Image::new(8));
    let planes = [0; 3].map(|_| Image::new(1));
    let result = labels.clone();
    let call = move || {
        let [x, eroded, rest] = &planes;
        let (mut points, mut label) = (0, 0);
        unsafe { pixClearAll(labels.pix.get()) };
        x.copy(&from);
        while !x.is_empty() {
            label += 1;
            unsafe {
                pixErode(eroded.pix.get(), x.pix.get(), sel);
                pixDilate(rest.pix.get(), eroded.pix.get(), sel);
                pixSubtract(rest.pix.get(), x.pix.get(), rest.pix.get());
                pixSetMasked(labels.pix.get(), rest.pix.get(), label);
            }
            points += rest.area(table());
            x.pix.swap(&eroded.pix);
        }
        points
    };
    Some(Other {
        call: Box::new(call),
        same: Some(Box::new(move |lent| {
            result.is(|x, y| label(&lent.labels, x, y))
        })),
    })
}

/// Reconstruction by Leptonica's masks of a label, unions and dilations.
pub fn reconstruct(element: u32, cut: u32, labels: &[u8]) -> Option<Other> {
    let (labels, sel) = (
        Image::of(8, |x, y| label(labels, x, y)),
        element_sel(element),
    );
    let out = Rc::new(Image::new(1));
    let (spare, result) = (Image::new(1), out.clone());
    let call = move || {
        let dilate = || {
            if !out.is_empty() {
                unsafe { pixDilate(spare.pix.get(), out.pix.get(), sel) };
                out.pix.swap(&spare.pix);
            }
        };
        let (mut largest, null) = (0, std::ptr::null_mut());
        unsafe {
            pixClearAll(out.pix.get());
            pixGetMaxValueInRect(
                labels.pix.get(),
                null,
                &mut largest,
                null.cast(),
                null.cast(),
            );
        }
        for label in (cut + 1..=largest).rev() {
            dilate();
            unsafe {
                let mut points = pixGenerateMaskByValue(labels.pix.get(), label as i32, 0);
                pixOr(out.pix.get(), out.pix.get(), points);
                pixDestroy(&mut points);
            }
        }
        (0..cut).for_each(|_| dilate());
        out.area(table())
    };
    Some(Other {
        call: Box::new(call),
        same: Some(Box::new(move |lent| {
            result.is(|x, y| pixel(&lent.image, x, y))
        })),
    })
}

/// Thinning by the house set with Leptonica's hit-or-miss, but for its hits at the edge.
pub fn thin(image: &[u8]) -> Option<Other> {
    let from = Image::of(1, |x, y| pixel(image, x, y));
    let kind = |(fg, bg): (u32, u32), bit: i32| match (fg >> bit & 1, bg >> bit & 1) {
        (1, _) => HIT,
        (_, 1) => MISS,
        _ => 0,
    };
    let masks = GOLAY_L.map(|mask| sel(3, |bit| kind(mask, bit)));
    let out = Rc::new(Image::new(1));
    let (hits, result) = (Image::new(1), out.clone());
    let call = move || {
        out.copy(&from);
        let (mut passes, mut area) = (0, out.area(table()));
        loop {
            for mask in masks {
                unsafe {
                    pixHMT(hits.pix.get(), out.pix.get(), mask);
                    pixSetOrClearBorder(hits.pix.get(), 1, 1, 1, 1, CLEAR);
                    pixSubtract(out.pix.get(), out.pix.get(), hits.pix.get());
                }
            }
            let before = std::mem::replace(&mut area, out.area(table()));
            passes += 1;
            if area == before {
                return passes;
            }
        }
    };
    Some(Other {
        call: Box::new(call),
        same: Some(Box::new(move |lent| {
            result.is(|x, y| pixel(&lent.image, x, y))
        })),
    })
}

/// Leptonica's own thinning, 8-connected, to the end: another operation.
pub fn own_thin(image: &[u8]) -> Option<Other> {
    let from = Image::of(1, |x, y| pixel(image, x, y));
    let call = move || {
        let mut thinned = unsafe { pixThinConnected(from.pix.get(), THIN_FG, 8, 0) };
        unsafe { pixDestroy(&mut thinned) };
        0
    };
    Some(Other {
        call: Box::new(call),
        same: None,
    })
}

//! Frames, offsets, and the tests of the table of refusals. Every point outside the frame is
//! background; the highest bit of a byte is its leftmost pixel.

use std::ops::Range;

/// The bytes of the longest row.
pub const MAX_STRIDE: usize = 32;

/// Width and height in pixels, the bytes of a row and of a plane.
#[derive(Clone, Copy)]
pub struct Frame {
    pub width: usize,
    pub height: usize,
    pub stride: usize,
    pub plane_bytes: usize,
}

impl Frame {
    pub fn new(w: u32, h: u32) -> Result<Frame, u8> {
        refuse(1, !(1..=255).contains(&w) || !(1..=255).contains(&h))?;
        let (width, height) = (w as usize, h as usize);
        let stride = width.div_ceil(8);
        Ok(Frame {
            width,
            height,
            stride,
            plane_bytes: height * stride,
        })
    }

    pub fn pixels(self) -> usize {
        self.width * self.height
    }

    /// The bytes of a row, if it is in the frame.
    pub fn row(self, y: isize) -> Option<Range<usize>> {
        let y = usize::try_from(y).ok().filter(|&y| y < self.height)?;
        Some(y * self.stride..(y + 1) * self.stride)
    }

    /// The pixels of a row's last byte.
    pub fn last_byte(self) -> u8 {
        0xff << (self.stride * 8 - self.width)
    }

    /// The three planes of the work buffer.
    pub fn planes(self, work: &mut [u8]) -> [&mut [u8]; 3] {
        let (first, rest) = work.split_at_mut(self.plane_bytes);
        let (second, rest) = rest.split_at_mut(self.plane_bytes);
        [first, second, &mut rest[..self.plane_bytes]]
    }

    /// Row 3: the lengths of images, labels and work.
    pub fn lengths(self, images: &[&[u8]], labels: Option<&[u8]>, work: &[u8]) -> Result<(), u8> {
        let bad = images.iter().any(|image| image.len() != self.plane_bytes)
            || labels.is_some_and(|labels| labels.len() != self.pixels())
            || work.len() < 3 * self.plane_bytes;
        refuse(3, bad)
    }

    /// Row 4: an image that is read has no padding bit set.
    pub fn padding(self, image: &[u8]) -> Result<(), u8> {
        let unused = !self.last_byte();
        let mut last_bytes = image[self.stride - 1..].iter().step_by(self.stride);
        refuse(4, last_bytes.any(|byte| byte & unused != 0))
    }

    /// Row 5: every point, dilated to its size, stays in the frame. One of size 0 does anywhere.
    pub fn fitting(self, element: &Offsets, labels: &[u8]) -> Result<(), u8> {
        let (width, height) = (self.width as isize, self.height as isize);
        let fits = |x: usize, y: usize, label: u8| {
            let (x, y, size) = (x as isize, y as isize, label as isize - 1);
            x + size * element.left >= 0
                && x + size * element.right < width
                && y + size * element.top >= 0
                && y + size * element.bottom < height
        };
        for (y, row) in labels.chunks_exact(self.width).enumerate() {
            if largest(row) <= 1 {
                continue;
            }
            let leaves = |(x, &label): (usize, &u8)| label > 1 && !fits(x, y, label);
            refuse(5, row.iter().enumerate().any(leaves))?;
        }
        Ok(())
    }
}

/// The refusal of a row of the table, where it applies.
pub fn refuse(row: u8, applies: bool) -> Result<(), u8> {
    if applies {
        Err(row)
    } else {
        Ok(())
    }
}

/// The largest label.
pub fn largest(labels: &[u8]) -> u8 {
    labels.iter().fold(0, |most, &label| most.max(label))
}

/// The foreground points of a plane, by parts whose count fits a byte.
pub fn area(plane: &[u8]) -> u32 {
    let count = |part: &[u8]| part.iter().map(|byte| byte.count_ones() as u8).sum::<u8>();
    plane.chunks(16).map(|part| count(part) as u32).sum()
}

/// The offsets (dx, dy) of a structuring element or a mask but the origin, and how far they
/// reach along each axis, the origin included.
pub struct Offsets {
    list: [(isize, isize); 24],
    len: usize,
    pub left: isize,
    pub right: isize,
    pub top: isize,
    pub bottom: isize,
}

impl Offsets {
    pub const NONE: Offsets = Offsets {
        list: [(0, 0); 24],
        len: 0,
        left: 0,
        right: 0,
        top: 0,
        bottom: 0,
    };

    /// The offsets of a number, for a square of so many pixels a side about the origin.
    pub fn new(number: u32, side: isize) -> Offsets {
        let mut offsets = Offsets::NONE;
        for bit in (0..side * side).filter(|bit| number >> bit & 1 == 1) {
            let (dx, dy) = (bit % side - side / 2, bit / side - side / 2);
            if (dx, dy) != (0, 0) {
                offsets.list[offsets.len] = (dx, dy);
                offsets.len += 1;
                offsets.left = offsets.left.min(dx);
                offsets.right = offsets.right.max(dx);
                offsets.top = offsets.top.min(dy);
                offsets.bottom = offsets.bottom.max(dy);
            }
        }
        offsets
    }

    /// The offsets of an element that row 2 lets pass.
    pub fn element(element: u32) -> Result<Offsets, u8> {
        let bad = element >> 25 != 0 || element >> 12 & 1 == 0 || element.count_ones() < 2;
        refuse(2, bad)?;
        Ok(Offsets::new(element, 5))
    }

    pub fn iter(&self) -> impl Iterator<Item = (isize, isize)> + '_ {
        self.list[..self.len].iter().copied()
    }
}

//! The frame ("sheet" in 01) and sets of its points. Here the conventions stand once:
//! (0, 0) is the top left point, every point outside the frame is background, the highest
//! bit of a byte is its leftmost pixel, padding bits ("unused bits") are 0.

/// A frame of width by height points, each side 1 to 255.
#[derive(Clone, Copy, Debug, PartialEq)]
pub struct Frame {
    pub width: i32,
    pub height: i32,
}

impl Frame {
    /// The frame of two sides, if row 1 lets them pass.
    pub fn new(w: u32, h: u32) -> Option<Frame> {
        let side = |n: u32| (1..=255).contains(&n).then_some(n as i32);
        Some(Frame {
            width: side(w)?,
            height: side(h)?,
        })
    }

    /// R of 01: the bytes of one row.
    pub fn stride(self) -> usize {
        (self.width as usize).div_ceil(8)
    }

    /// P of 01: the bytes of a packed image.
    pub fn plane_bytes(self) -> usize {
        self.stride() * self.height as usize
    }

    /// The number of points, and so of labels and counters.
    pub fn pixels(self) -> usize {
        (self.width * self.height) as usize
    }

    /// Whether a point lies on the frame.
    pub fn has(self, x: i32, y: i32) -> bool {
        0 <= x && x < self.width && 0 <= y && y < self.height
    }

    /// The place of a point in row order; none outside the frame.
    pub fn index(self, x: i32, y: i32) -> Option<usize> {
        self.has(x, y).then(|| (y * self.width + x) as usize)
    }

    /// All points, row by row, left to right.
    pub fn points(self) -> impl Iterator<Item = (i32, i32)> {
        (0..self.height).flat_map(move |y| (0..self.width).map(move |x| (x, y)))
    }

    /// Byte and bit of a point in a packed image.
    fn place(self, x: i32, y: i32) -> (usize, u8) {
        let byte = y as usize * self.stride() + x as usize / 8;
        (byte, 0x80 >> (x % 8))
    }

    /// The foreground of a packed image.
    pub fn unpack(self, image: &[u8]) -> Set {
        self.collect(|x, y| {
            let (byte, bit) = self.place(x, y);
            image[byte] & bit != 0
        })
    }

    /// The packed image of a set.
    pub fn pack(self, set: &Set) -> Vec<u8> {
        let mut image = vec![0; self.plane_bytes()];
        for (x, y) in set.points() {
            let (byte, bit) = self.place(x, y);
            image[byte] |= bit;
        }
        image
    }

    /// The set of all points of the frame that pass a test.
    pub fn collect(self, test: impl Fn(i32, i32) -> bool) -> Set {
        Set {
            frame: self,
            member: self.points().map(|(x, y)| test(x, y)).collect(),
        }
    }
}

/// A set of points of a frame.
#[derive(Clone, Debug, PartialEq)]
pub struct Set {
    pub frame: Frame,
    /// Whether each point, in row order, belongs to the set.
    pub member: Vec<bool>,
}

impl Set {
    pub fn has(&self, x: i32, y: i32) -> bool {
        self.frame.index(x, y).is_some_and(|i| self.member[i])
    }

    pub fn points(&self) -> impl Iterator<Item = (i32, i32)> + '_ {
        self.frame.points().filter(|&(x, y)| self.has(x, y))
    }

    pub fn area(&self) -> u32 {
        self.member.iter().filter(|&&m| m).count() as u32
    }

    pub fn minus(&self, other: &Set) -> Set {
        self.frame
            .collect(|x, y| self.has(x, y) && !other.has(x, y))
    }
}

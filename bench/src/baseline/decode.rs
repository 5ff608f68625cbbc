//! An image from its code: the points of each size, the largest first, are placed on the pixels
//! that the larger ones, grown so far, leave; each cover eroded must be the one before it.

use super::frame::{area, refuse, Frame, Offsets};
use super::planes::{dilate_plane, erode_plane, is_empty};

/// Reads a code with its largest size, or marked blank, into an image; its area.
pub fn decode(
    w: u32,
    h: u32,
    element: u32,
    largest: Option<u32>,
    stream: &[u8],
    image: &mut [u8],
    work: &mut [u8],
) -> Result<u32, u8> {
    let frame = Frame::new(w, h)?;
    let element = Offsets::element(element)?;
    let planes = 5 * frame.plane_bytes;
    refuse(3, image.len() != frame.plane_bytes || work.len() < planes)?;
    work[..planes].fill(0);
    let read = match largest {
        Some(largest) => read_sizes(frame, &element, largest, stream, work),
        None => refuse(10, !stream.is_empty()),
    };
    if read.is_ok() {
        image.copy_from_slice(&work[..frame.plane_bytes]);
    }
    work[..planes].fill(0);
    read.map(|()| area(image))
}

/// The cover of all sizes, in the first plane of an empty work.
fn read_sizes(
    frame: Frame,
    element: &Offsets,
    largest: u32,
    stream: &[u8],
    work: &mut [u8],
) -> Result<(), u8> {
    refuse(9, largest > 254)?;
    let [cover, next, eroded] = frame.planes(work);
    let mut symbols = Symbols { stream, at: 0 };
    let mut is_skeleton = true;
    for size in (0..=largest).rev() {
        refuse(9, leaves(frame, element, cover))?;
        dilate_plane(frame, element, cover, next);
        place(frame, &mut symbols, next)?;
        refuse(9, size == largest && is_empty(frame, next))?;
        if is_skeleton {
            erode_plane(frame, element, next, eroded);
            is_skeleton = eroded == cover;
        }
        cover.copy_from_slice(next);
    }
    refuse(10, !symbols.is_padding())?;
    refuse(11, !is_skeleton)
}

/// Whether ink of a plane is so near to an edge that growing it once leaves the frame.
fn leaves(frame: Frame, element: &Offsets, plane: &[u8]) -> bool {
    let (first, last) = (-element.left as usize, -element.top as usize);
    let (end, low) = (
        frame.width.saturating_sub(element.right as usize),
        frame.height.saturating_sub(element.bottom as usize),
    );
    let mut columns = [0u8; super::frame::MAX_STRIDE];
    for (y, row) in plane.chunks_exact(frame.stride).enumerate() {
        if (y < last || y >= low) && row.iter().any(|&byte| byte != 0) {
            return true;
        }
        for (column, byte) in columns.iter_mut().zip(row) {
            *column |= byte;
        }
    }
    let ink = |x: usize| columns[x / 8] << (x % 8) & 0x80 != 0;
    (0..first.min(frame.width)).chain(end..frame.width).any(ink)
}

/// Joins the points of one size to the plane of its mask.
fn place(frame: Frame, symbols: &mut Symbols, plane: &mut [u8]) -> Result<(), u8> {
    let Some(mut left) = symbols.first_run()? else {
        return Ok(());
    };
    for row in plane.chunks_exact_mut(frame.stride) {
        let free = frame.width as u32 - area(row);
        if free <= left {
            left -= free;
            continue;
        }
        for (i, byte) in row.iter_mut().enumerate() {
            let pixels = if i + 1 == frame.stride {
                frame.last_byte()
            } else {
                0xff
            };
            let mut free = pixels & !*byte;
            while left < free.count_ones() {
                for _ in 0..left {
                    free &= 0x7f >> free.leading_zeros();
                }
                let pixel = free.leading_zeros();
                *byte |= 0x80 >> pixel;
                free &= 0x7f >> pixel;
                match symbols.next_run()? {
                    Some(run) => left = run,
                    None => return Ok(()),
                }
            }
            left -= free.count_ones();
        }
    }
    Err(9)
}

/// A stream, and the symbol that is read next.
struct Symbols<'a> {
    stream: &'a [u8],
    at: usize,
}

impl Symbols<'_> {
    fn next(&mut self) -> Result<u8, u8> {
        let byte = self.stream.get(self.at / 4).ok_or(9)?;
        let symbol = byte >> (6 - 2 * (self.at % 4)) & 3;
        self.at += 1;
        Ok(symbol)
    }

    /// What a size begins with: a run, or two commas.
    fn first_run(&mut self) -> Result<Option<u32>, u8> {
        match self.next()? {
            0 => refuse(9, self.next()? != 0).map(|()| None),
            digit => self.run(digit).map(Some),
        }
    }

    /// What follows a run and its comma: a run, or a comma.
    fn next_run(&mut self) -> Result<Option<u32>, u8> {
        match self.next()? {
            0 => Ok(None),
            digit => self.run(digit).map(Some),
        }
    }

    /// The run that begins with a digit. No run is as long as 2^24.
    fn run(&mut self, first: u8) -> Result<u32, u8> {
        let mut run = first as u32 - 1;
        loop {
            match self.next()? {
                0 => return Ok(run),
                digit => {
                    refuse(9, run == 0 || run >= 1 << 24)?;
                    run = 3 * run + digit as u32 - 1;
                }
            }
        }
    }

    /// Whether only the rest of a byte, 0, is left.
    fn is_padding(&self) -> bool {
        let rest = &self.stream[(self.at / 4).min(self.stream.len())..];
        match rest {
            [] => true,
            [last] => self.at % 4 != 0 && last << (2 * (self.at % 4)) == 0,
            _ => false,
        }
    }
}

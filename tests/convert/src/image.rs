//! A binary image ("scan" in 01) and its formats: the input of the skeleton program, and P4
//! PBM. Both pack a row into whole bytes, the highest bit leftmost, 1 for foreground.

/// Sides from 1 to 255; the padding bits at a row's end are 0.
#[derive(Clone, Debug, PartialEq)]
pub struct Image {
    width: u8,
    height: u8,
    bytes: Vec<u8>,
}

impl Image {
    /// The image of all points that pass a test.
    pub fn collect(width: u8, height: u8, test: impl Fn(i32, i32) -> bool) -> Image {
        let stride = width.div_ceil(8) as usize;
        let mut bytes = vec![0; stride * height as usize];
        for (y, row) in bytes.chunks_exact_mut(stride).enumerate() {
            for x in (0..width as usize).filter(|&x| test(x as i32, y as i32)) {
                row[x / 8] |= 0x80 >> (x % 8);
            }
        }
        Image {
            width,
            height,
            bytes,
        }
    }

    pub fn has(&self, x: usize, y: usize) -> bool {
        let stride = self.width.div_ceil(8) as usize;
        self.bytes[y * stride + x / 8] << (x % 8) & 0x80 != 0
    }

    pub fn width(&self) -> usize {
        self.width as usize
    }

    pub fn height(&self) -> usize {
        self.height as usize
    }

    /// The packed rows.
    pub fn bytes(&self) -> &[u8] {
        &self.bytes
    }

    /// An image of packed rows, its padding bits cleared.
    pub fn packed(width: u32, height: u32, bytes: &[u8]) -> Result<Image, String> {
        let side = |side: u32| match u8::try_from(side) {
            Ok(0) => Err("a side is 0".to_string()),
            Ok(side) => Ok(side),
            Err(_) => Err(format!("a side is {side}, above 255")),
        };
        let (width, height) = (side(width)?, side(height)?);
        let stride = width.div_ceil(8) as usize;
        let (want, have) = (stride * height as usize, bytes.len());
        if have != want {
            return Err(format!("{have} bytes of pixels, and not {want}"));
        }
        let mut bytes = bytes.to_vec();
        for row in bytes.chunks_exact_mut(stride) {
            row[stride - 1] &= 0xff << ((8 - width % 8) % 8);
        }
        Ok(Image {
            width,
            height,
            bytes,
        })
    }

    /// The program's input: width, height, the element lowest byte first, the rows.
    pub fn to_scan(&self, element: u32) -> Vec<u8> {
        let mut scan = vec![self.width, self.height];
        scan.extend(element.to_le_bytes());
        scan.extend(&self.bytes);
        scan
    }

    /// The image of a program's input; its element is left out.
    pub fn from_scan(scan: &[u8]) -> Result<Image, String> {
        match scan {
            [w, h, _, _, _, _, bytes @ ..] => Image::packed(*w as u32, *h as u32, bytes),
            _ => Err("fewer than six bytes".to_string()),
        }
    }

    pub fn to_pbm(&self) -> Vec<u8> {
        let mut pbm = format!("P4\n{} {}\n", self.width, self.height).into_bytes();
        pbm.extend(&self.bytes);
        pbm
    }

    pub fn from_pbm(pbm: &[u8]) -> Result<Image, String> {
        let mut rest = pbm.strip_prefix(b"P4").ok_or("no P4 at the start")?;
        let width = number(&mut rest)?;
        let height = number(&mut rest)?;
        // One blank ends the header.
        match rest {
            [blank, bytes @ ..] if blank.is_ascii_whitespace() => {
                Image::packed(width, height, bytes)
            }
            _ => Err("no blank after the sides".to_string()),
        }
    }
}

/// The next number of a PBM header, after blanks and comments.
fn number(rest: &mut &[u8]) -> Result<u32, String> {
    let mut comment = false;
    let skipped = rest.iter().take_while(|&&byte| {
        comment = byte == b'#' || comment && byte != b'\n';
        comment || byte.is_ascii_whitespace()
    });
    let from = skipped.count();
    let digits = rest[from..].iter().take_while(|byte| byte.is_ascii_digit());
    let to = from + digits.count();
    let digits = String::from_utf8_lossy(&rest[from..to]);
    *rest = &rest[to..];
    match digits.parse() {
        Ok(number) if from > 0 => Ok(number),
        _ => Err(format!("a side is missing or no number: {digits:?}")),
    }
}

#[cfg(test)]
mod tests {
    use super::*;

    fn pbm(header: &str, bytes: &[u8]) -> Result<Image, String> {
        Image::from_pbm(&[header.as_bytes(), bytes].concat())
    }

    #[test]
    fn every_width_to_and_fro() {
        for width in 1..=255 {
            let image = Image::collect(width, 3, |x, y| (x * 5 + y * 3) % 7 < 3);
            assert_eq!(Image::from_pbm(&image.to_pbm()), Ok(image.clone()));
            assert_eq!(Image::from_scan(&image.to_scan(473536)), Ok(image));
        }
    }

    #[test]
    fn padding_is_cleared() {
        let image = pbm("P4\n3 2\n", &[0xff, 0x5f]).expect("a PBM");
        assert_eq!(image.to_scan(0), [3, 2, 0, 0, 0, 0, 0xe0, 0x40]);
        let whole = pbm("P4\n8 1\n", &[0xff]).expect("a PBM");
        assert_eq!(whole.to_scan(0), [8, 1, 0, 0, 0, 0, 0xff]);
    }

    #[test]
    fn element_lowest_byte_first() {
        let image = Image::collect(1, 1, |_, _| true);
        let scan = image.to_scan(0x04030201);
        assert_eq!(scan, [1, 1, 1, 2, 3, 4, 0x80]);
    }

    #[test]
    fn comments_and_blanks_in_the_header() {
        let plain = pbm("P4\n9 1\n", &[0x23, 0x80]);
        assert!(plain.is_ok());
        assert_eq!(pbm("P4 # 7 7\n#\n\t9\r\n1\n", &[0x23, 0x80]), plain);
    }

    #[test]
    fn sides_above_255_are_refused() {
        let message = |header: &str| pbm(header, &[0; 9600]).expect_err("refused");
        assert_eq!(message("P4\n256 1\n"), "a side is 256, above 255");
        assert_eq!(message("P4\n1 300\n"), "a side is 300, above 255");
        assert_eq!(message("P4\n0 3\n"), "a side is 0");
        assert_eq!(
            message("P4\n99999999999 1\n"),
            "a side is missing or no number: \"99999999999\""
        );
    }

    #[test]
    fn damaged_files_are_refused() {
        for (header, bytes) in [
            ("P1\n1 1\n", 1),
            ("P4", 0),
            ("P41 1\n", 1),
            ("P4\n1\n", 0),
            ("P4\n1 1", 0),
            ("P4\n1 1#\n", 1),
            ("P4\n9 2\n", 3),
            ("P4\n9 2\n", 5),
        ] {
            assert!(pbm(header, &vec![0; bytes]).is_err(), "{header:?}");
        }
        assert!(Image::from_scan(&[1, 1, 0, 0, 0]).is_err());
        assert!(Image::from_scan(&[0, 1, 0, 0, 0, 0]).is_err());
        assert!(Image::from_scan(&[1, 1, 0, 0, 0, 0]).is_err());
        assert!(Image::from_scan(&[1, 1, 0, 0, 0, 0, 0, 0]).is_err());
    }
}

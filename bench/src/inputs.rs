//! What is timed: frames of 255 by 255, a ticket for the codes, and the named elements.

/// Both sides of every frame but the ticket's.
pub const SIDE: u32 = 255;

pub const ELEMENTS: [(&str, u32); 5] = [
    ("SQUARE", 473536),
    ("PLUS", 145536),
    ("ROUND", 15728622),
    ("RIGHT", 12288),
    ("LEFT", 6144),
];

/// The images, by name.
pub fn images() -> [(&'static str, Vec<u8>); 5] {
    let scan = |scan: &[u8]| scan[6..].to_vec();
    [
        ("all ink", image(|_, _| true)),
        ("stripes across", image(|_, y| y % 5 < 3)),
        ("stripes down", image(|x, _| x % 5 < 3)),
        (
            "sheet 0417",
            scan(include_bytes!("../../samples/sheet-0417.scan")),
        ),
        (
            "sheet 417",
            scan(include_bytes!("../../samples/sheet-417.scan")),
        ),
    ]
}

/// What is thinned: the images, and a block that keeps one pixel off each edge. A sheet all ink
/// stays whole after one pass; the block takes many.
pub fn thinned() -> Vec<(&'static str, Vec<u8>)> {
    let inner = 1..SIDE as usize - 1;
    let block = image(|x, y| inner.contains(&x) && inner.contains(&y));
    images().into_iter().chain([("block", block)]).collect()
}

/// An image with its name and sides.
pub struct Scan {
    pub name: &'static str,
    pub w: u32,
    pub h: u32,
    pub image: Vec<u8>,
}

/// What is encoded: the images, and one ticket.
pub fn scans() -> Vec<Scan> {
    let sheet = |(name, image)| Scan {
        name,
        w: SIDE,
        h: SIDE,
        image,
    };
    let ticket = include_bytes!("../../samples/ticket-0417.scan");
    let ticket = Scan {
        name: "ticket 0417",
        w: ticket[0] as u32,
        h: ticket[1] as u32,
        image: ticket[6..].to_vec(),
    };
    images().into_iter().map(sheet).chain([ticket]).collect()
}

/// A sheet of so many rows and columns, all ink.
pub fn full(side: u32) -> Vec<u8> {
    square(side, |_, _| true)
}

fn image(test: impl Fn(usize, usize) -> bool) -> Vec<u8> {
    square(SIDE, test)
}

fn square(side: u32, test: impl Fn(usize, usize) -> bool) -> Vec<u8> {
    let stride = side.div_ceil(8) as usize;
    let mut image = vec![0; stride * side as usize];
    for (y, row) in image.chunks_exact_mut(stride).enumerate() {
        for x in (0..side as usize).filter(|&x| test(x, y)) {
            row[x / 8] |= 0x80 >> (x % 8);
        }
    }
    image
}

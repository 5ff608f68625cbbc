//! The formula of 01 read word for word, on sets of points of the whole plane, and T-04's edge.
//! Slow, and made to be believed.

use std::collections::BTreeSet;

pub type Points = BTreeSet<(i32, i32)>;

/// The offsets of an element.
pub fn element(number: u32) -> Points {
    let plane = (-2..=2).flat_map(|dy| (-2..=2).map(move |dx| (dx, dy)));
    plane
        .filter(|(dx, dy)| number & 1 << (5 * (dy + 2) + (dx + 2)) != 0)
        .collect()
}

/// All points of a frame.
pub fn frame(w: u32, h: u32) -> impl Iterator<Item = (i32, i32)> {
    (0..h as i32).flat_map(move |y| (0..w as i32).map(move |x| (x, y)))
}

/// The foreground of a packed image.
pub fn foreground(w: u32, h: u32, image: &[u8]) -> Points {
    let stride = w.div_ceil(8) as usize;
    let bit = |x: usize, y: usize| image[y * stride + x / 8] << (x % 8) & 0x80 != 0;
    frame(w, h)
        .filter(|&(x, y)| bit(x as usize, y as usize))
        .collect()
}

/// The packed image of points that all lie in the frame.
pub fn packed(w: u32, h: u32, points: &Points) -> Vec<u8> {
    let stride = w.div_ceil(8) as usize;
    let mut image = vec![0; stride * h as usize];
    for &(x, y) in points {
        assert!(0 <= x && x < w as i32 && 0 <= y && y < h as i32);
        image[y as usize * stride + x as usize / 8] += 0x80 >> (x % 8);
    }
    image
}

/// A set moved to a point.
pub fn moved(set: &Points, (x, y): (i32, i32)) -> Points {
    set.iter().map(|(dx, dy)| (x + dx, y + dy)).collect()
}

/// Every z with z+b in X for all b in B.
pub fn erode(x: &Points, b: &Points) -> Points {
    let first = b.first().expect("an element has points");
    let candidates = moved(x, (-first.0, -first.1));
    let fits = |z: &(i32, i32)| b.iter().all(|b| x.contains(&(z.0 + b.0, z.1 + b.1)));
    candidates.into_iter().filter(fits).collect()
}

/// Every x+b.
pub fn dilate(x: &Points, b: &Points) -> Points {
    x.iter().flat_map(|&x| moved(b, x)).collect()
}

/// Erosion, then dilation, by the same B.
pub fn open(x: &Points, b: &Points) -> Points {
    dilate(&erode(x, b), b)
}

/// nB: the origin alone, dilated n times by B.
pub fn times(b: &Points, n: usize) -> Points {
    (0..n).fold(Points::from([(0, 0)]), |sum, _| dilate(&sum, b))
}

/// The points of each size: X(n) less the opening of X(n) by B, until X(n) is empty.
pub fn skeleton(x: &Points, b: &Points) -> Vec<Points> {
    let mut subsets = vec![];
    loop {
        let eroded = erode(x, &times(b, subsets.len()));
        if eroded.is_empty() {
            return subsets;
        }
        subsets.push(&eroded - &open(&eroded, b));
    }
}

/// The labels of points by size; no point has two.
pub fn labels(w: u32, h: u32, subsets: &[Points]) -> Vec<u8> {
    frame(w, h)
        .map(|z| {
            let sizes: Vec<usize> = (0..subsets.len())
                .filter(|&n| subsets[n].contains(&z))
                .collect();
            assert!(sizes.len() <= 1, "one size for a point");
            sizes.first().map_or(0, |&n| u8::try_from(n + 1).unwrap())
        })
        .collect()
}

/// The points of labels with their sizes, row by row.
pub fn points(w: u32, h: u32, labels: &[u8]) -> Vec<((i32, i32), usize)> {
    let labelled = frame(w, h).zip(labels).filter(|(_, &label)| label > 0);
    labelled
        .map(|(z, &label)| (z, label as usize - 1))
        .collect()
}

/// The union, over all points of size n with n at least the cut, of nB moved to that point.
pub fn reconstruct(w: u32, h: u32, b: &Points, cut: u32, labels: &[u8]) -> Points {
    points(w, h, labels)
        .into_iter()
        .filter(|&(_, n)| n as u32 >= cut)
        .flat_map(|(z, n)| moved(&times(b, n), z))
        .collect()
}

/// The walk by size, smallest first, and within a size row by row: a point is dropped when
/// each pixel it covers is also covered by another point still there.
pub fn minimise(w: u32, h: u32, b: &Points, labels: &[u8]) -> Vec<u8> {
    let mut left = labels.to_vec();
    for size in 0..255 {
        for (z, n) in points(w, h, labels) {
            if n == size {
                let place = (z.1 * w as i32 + z.0) as usize;
                let mut others = left.clone();
                others[place] = 0;
                if moved(&times(b, n), z).is_subset(&reconstruct(w, h, b, 0, &others)) {
                    left = others;
                }
            }
        }
    }
    left
}

/// Three rows of a mask as drawn: x foreground, o background, anything else either.
pub type Mask = [&'static [u8; 3]; 3];

/// The house set, drawn in its order.
pub const HOUSE: [Mask; 8] = [
    [b"ooo", b".x.", b"xxx"],
    [b".oo", b"xxo", b".x."],
    [b"x.o", b"xxo", b"x.o"],
    [b".x.", b"xxo", b".oo"],
    [b"xxx", b".x.", b"ooo"],
    [b".x.", b"oxx", b"oo."],
    [b"o.x", b"oxx", b"o.x"],
    [b"oo.", b"oxx", b".x."],
];

/// The two numbers of a drawn mask.
pub fn numbers(mask: Mask) -> (u32, u32) {
    let sum = |wanted: u8| {
        (0..9)
            .filter(|bit| mask[bit / 3][bit % 3] == wanted)
            .map(|bit| 1 << bit)
            .sum()
    };
    (sum(b'x'), sum(b'o'))
}

/// Whether all that a mask asks at a point is so.
pub fn fits(x: &Points, mask: Mask, (zx, zy): (i32, i32)) -> bool {
    (0..9).all(|bit| {
        let here = x.contains(&(zx + bit % 3 - 1, zy + bit / 3 - 1));
        match mask[bit as usize / 3][bit as usize % 3] {
            b'x' => here,
            b'o' => !here,
            _ => true,
        }
    })
}

/// "Points whose whole 3 by 3 neighbourhood lies on the sheet".
pub fn interior(w: u32, h: u32) -> Points {
    let (sheet, block) = (frame(w, h).collect(), element(reference::SQUARE));
    let whole = |z: &(i32, i32)| moved(&block, *z).is_subset(&sheet);
    frame(w, h).filter(whole).collect()
}

/// The points that a mask hits. `judged` are those that can be.
pub fn hit_or_miss(judged: &Points, x: &Points, mask: Mask) -> Points {
    let hit = |z: &(i32, i32)| fits(x, mask, *z);
    (x & judged).into_iter().filter(hit).collect()
}

/// Thinning by steps of any kind: what is left and the passes made.
pub fn thin(x: &Points, step: impl Fn(&Points, Mask) -> Points) -> (Points, u32) {
    let (mut thinned, mut passes) = (x.clone(), 0);
    loop {
        let after = HOUSE
            .iter()
            .fold(thinned.clone(), |x, &mask| step(&x, mask));
        passes += 1;
        if after == thinned {
            return (thinned, passes);
        }
        thinned = after;
    }
}

/// The step of 01: all hit points at once, judged on the image before the step.
pub fn thin_step(judged: &Points, x: &Points, mask: Mask) -> Points {
    x - &hit_or_miss(judged, x, mask)
}

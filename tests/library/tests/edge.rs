//! T-04: hit-or-miss hits only points whose whole 3 by 3 neighbourhood lies on the sheet, whatever
//! the mask, and so thinning leaves the sheet's edge as it is.

use library::call;
use reference::cases::{image_of, IMAGE_KINDS};
use reference::drawn::{draw, full, image};
use reference::rng::Rng;
use reference::Answer::{self, Area, Thinned};
use reference::GOLAY_L;

/// Ink at the centre, and nothing else asked.
const CENTRE: (u32, u32) = (16, 0);
/// Ink at the centre, background at its eight neighbours.
const LONE: (u32, u32) = (16, 0b111_101_111);

/// What hit-or-miss answers and writes. Its output holds anything before.
fn hits(w: u32, h: u32, (fg, bg): (u32, u32), image: &[u8]) -> (Answer, Vec<u8>) {
    let mut out = vec![0xa5; image.len()];
    let reply = call(5, [w, h, fg, bg], image, &mut out, &mut [], &mut []);
    assert_eq!((reply.refusal, reply.count), (0, 1), "{w} by {h}");
    (Area(reply.first), out)
}

/// What thinning answers and leaves.
fn thinned(w: u32, h: u32, image: &[u8]) -> (Answer, Vec<u8>) {
    let (mut left, mut work) = (image.to_vec(), vec![0xa5; 3 * image.len()]);
    let reply = call(6, [w, h, 0, 0], &[], &mut left, &mut work, &mut []);
    assert_eq!((reply.refusal, reply.count), (0, 3), "{w} by {h}");
    let answer = Thinned {
        passes: reply.first,
        removed: reply.second,
        area: reply.third,
    };
    (answer, left)
}

/// The same two by the second program.
fn second_hits(w: u32, h: u32, (fg, bg): (u32, u32), image: &[u8]) -> (Answer, Vec<u8>) {
    let mut out = vec![0xa5; image.len()];
    let answer = reference::hit_or_miss(w, h, fg, bg, image, &mut out);
    (answer, out)
}

fn second_thinned(w: u32, h: u32, image: &[u8]) -> (Answer, Vec<u8>) {
    let (mut left, mut work) = (image.to_vec(), vec![0xa5; 3 * image.len()]);
    let answer = reference::thin(w, h, &mut left, &mut work);
    (answer, left)
}

/// An image that comes back whole: one pass, none removed.
fn whole(image: &[u8]) -> (Answer, Vec<u8>) {
    let answer = Thinned {
        passes: 1,
        removed: 0,
        area: area(image),
    };
    (answer, image.to_vec())
}

fn area(image: &[u8]) -> u32 {
    image.iter().map(|byte| byte.count_ones()).sum()
}

/// Every sheet with sides of these.
fn sheets(sides: impl Iterator<Item = u32> + Clone) -> impl Iterator<Item = (u32, u32)> {
    let heights = sides.clone();
    sides.flat_map(move |w| heights.clone().map(move |h| (w, h)))
}

/// The image of the points that pass a test.
fn points(w: u32, h: u32, test: impl Fn(u32, u32) -> bool) -> Vec<u8> {
    let stride = w.div_ceil(8);
    let mut image = vec![0; (stride * h) as usize];
    for (x, y) in (0..h).flat_map(|y| (0..w).map(move |x| (x, y))) {
        image[(y * stride + x / 8) as usize] |= (test(x, y) as u8) << (7 - x % 8);
    }
    image
}

/// How far a point is from the left, the right, the top and the bottom edge.
fn distances(w: u32, h: u32, x: u32, y: u32) -> [u32; 4] {
    [x, w - 1 - x, y, h - 1 - y]
}

fn is_inner(w: u32, h: u32, x: u32, y: u32) -> bool {
    distances(w, h, x, y).iter().all(|&far| far >= 1)
}

#[test]
fn the_centre_alone_hits_all_ink_but_the_edge() {
    for (w, h) in sheets((1..=40).chain(248..=255)) {
        let inner = points(w, h, |x, y| is_inner(w, h, x, y));
        let area = w.saturating_sub(2) * h.saturating_sub(2);
        let (answer, out) = hits(w, h, CENTRE, &full(w, h));
        assert_eq!(answer, Area(area), "{w} by {h}");
        assert!(out == inner, "{w} by {h}: {}", draw(w, &out));
    }
}

/// By 01 a lone point was hit at the edge too, where the outside was its background.
#[test]
fn a_lone_point_is_hit_but_at_the_edge() {
    for (w, h) in sheets(1..=20) {
        for (x, y) in (0..h).flat_map(|y| (0..w).map(move |x| (x, y))) {
            let lone = points(w, h, |px, py| (px, py) == (x, y));
            let (answer, out) = hits(w, h, LONE, &lone);
            let inner = is_inner(w, h, x, y);
            assert_eq!(answer, Area(inner as u32), "({x},{y}) of {w} by {h}");
            assert_eq!(out == lone, inner, "({x},{y}) of {w} by {h}");
        }
    }
}

/// By 01 each first drawing had one hit by its mask of the house set, at one edge. It has none;
/// with a blank row or column more at that edge it has that one.
#[test]
fn a_hit_at_each_edge_alone() {
    #[rustfmt::skip]
    let drawings = [
        ("left", 7, "010/110/010", "0010/0110/0010", "0000/0100/0000"),
        ("right", 3, "010/011/010", "0100/0110/0100", "0000/0010/0000"),
        ("top", 1, "010/111/000", "000/010/111/000", "000/010/000/000"),
        ("bottom", 5, "000/111/010", "000/111/010/000", "000/000/010/000"),
    ];
    for (edge, mask, at, off, hit) in drawings {
        let drawn_hits = |drawn: &str| {
            let (w, h, bytes) = image(drawn);
            let (answer, out) = hits(w, h, GOLAY_L[mask - 1], &bytes);
            (answer, draw(w, &out))
        };
        assert_eq!(drawn_hits(at), (Area(0), "000/000/000".into()), "{edge}");
        assert_eq!(drawn_hits(off), (Area(1), hit.into()), "off the {edge}");
    }
}

/// Along each edge and along all four: a stroke of one pixel stays whole, and of one of three
/// pixels the line at the edge.
#[test]
fn strokes_along_the_edges_stay() {
    for (w, h) in sheets(1..=40) {
        for (name, edges) in [
            ("left", 0..1),
            ("right", 1..2),
            ("top", 2..3),
            ("bottom", 3..4),
            ("all four", 0..4),
        ] {
            let stroke = |pixels: u32| {
                points(w, h, |x, y| {
                    let far = distances(w, h, x, y);
                    far[edges.clone()].iter().any(|&far| far < pixels)
                })
            };
            let line = stroke(1);
            assert!(thinned(w, h, &line) == whole(&line), "{w} by {h}: {name}");
            let (_, left) = thinned(w, h, &stroke(3));
            let stays = line.iter().zip(&left).all(|(line, left)| line & !left == 0);
            assert!(stays, "{w} by {h}: {name}: {}", draw(w, &left));
        }
    }
}

/// Ink that keeps one pixel off each edge is thinned as ever. All ink stays: each mask of the
/// house set asks for background, and there is none on the sheet.
#[test]
fn ink_off_the_edge_is_thinned_and_all_ink_is_not() {
    for (w, h) in sheets(1..=40) {
        let ink = full(w, h);
        let title = format!("{w} by {h}, all ink");
        assert!(thinned(w, h, &ink) == whole(&ink), "{title}");
        assert!(second_thinned(w, h, &ink) == whole(&ink), "{title}");
        if w < 5 || h < 5 {
            continue;
        }
        let block = points(w, h, |x, y| is_inner(w, h, x, y));
        let (answer, left) = thinned(w, h, &block);
        assert!(area(&left) < area(&block), "{w} by {h}: nothing is removed");
        assert_eq!((answer, left), second_thinned(w, h, &block), "{w} by {h}");
    }
}

#[test]
fn sheets_with_a_side_below_3_stay() {
    let rng = &mut Rng::new(4);
    for (w, h) in sheets(1..=40).filter(|&(w, h)| w < 3 || h < 3) {
        for kind in IMAGE_KINDS {
            let image = image_of(rng, kind, w, h);
            let none = (Area(0), vec![0; image.len()]);
            for mask in GOLAY_L.into_iter().chain([CENTRE, LONE]) {
                assert!(hits(w, h, mask, &image) == none, "{w} by {h}: {mask:?}");
            }
            assert!(thinned(w, h, &image) == whole(&image), "{w} by {h}");
        }
    }
}

/// The masks of the house set, and thinning, on drawn scans that touch three edges.
#[test]
fn house_masks_and_thinning_of_scans() {
    let scans: [&[u8]; 4] = [
        include_bytes!("../../../samples/ticket-0417.scan"),
        include_bytes!("../../../samples/ticket-417.scan"),
        include_bytes!("../../../samples/sheet-0417.scan"),
        include_bytes!("../../../samples/sheet-417.scan"),
    ];
    for scan in scans {
        let (w, h, image) = (scan[0] as u32, scan[1] as u32, &scan[6..]);
        for mask in GOLAY_L {
            let (answer, out) = hits(w, h, mask, image);
            assert_ne!(answer, Area(0), "{mask:?}");
            assert!((answer, out) == second_hits(w, h, mask, image), "{mask:?}");
        }
        assert!(thinned(w, h, image) == second_thinned(w, h, image));
    }
}

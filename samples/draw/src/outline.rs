//! The outline of a set of pixels as an SVG path: one closed line for each edge of the set,
//! so that no seam shows between its pixels at any scale.

use std::collections::BTreeMap;
use std::fmt::Write;

type Corner = (i32, i32);

/// The path of all pixels of a frame that pass a test, in units of a pixel. Outer lines and
/// holes run in opposite directions.
pub fn outline(width: usize, height: usize, test: impl Fn(usize, usize) -> bool) -> String {
    let has = |x: i32, y: i32| {
        let inside = 0 <= x && x < width as i32 && 0 <= y && y < height as i32;
        inside && test(x as usize, y as usize)
    };
    // The sides of pixels where the set ends, with the set on the right hand: from each
    // corner, the corners that follow.
    let mut sides: BTreeMap<Corner, Vec<Corner>> = BTreeMap::new();
    for (y, x) in (0..height as i32).flat_map(|y| (0..width as i32).map(move |x| (y, x))) {
        if has(x, y) {
            let around = [
                ((x, y - 1), (x, y), (x + 1, y)),
                ((x + 1, y), (x + 1, y), (x + 1, y + 1)),
                ((x, y + 1), (x + 1, y + 1), (x, y + 1)),
                ((x - 1, y), (x, y + 1), (x, y)),
            ];
            for ((beside_x, beside_y), from, to) in around {
                if !has(beside_x, beside_y) {
                    sides.entry(from).or_default().push(to);
                }
            }
        }
    }
    let mut path = String::new();
    while let Some((&start, _)) = sides.first_key_value() {
        line(&mut path, start, &mut sides);
    }
    path
}

/// Takes one closed line from the sides and writes it, straight pieces joined.
fn line(path: &mut String, start: Corner, sides: &mut BTreeMap<Corner, Vec<Corner>>) {
    let mut corners = vec![start];
    loop {
        let from = corners[corners.len() - 1];
        let to = follow(from, sides);
        // A corner in the middle of a straight piece goes.
        if let [.., (x, y), _] = corners[..] {
            let straight = x == from.0 && x == to.0 || y == from.1 && y == to.1;
            if straight {
                corners.pop();
            }
        }
        if to == start {
            break;
        }
        corners.push(to);
    }
    write!(path, "M{} {}", start.0, start.1).expect("a string");
    for pair in corners.windows(2) {
        let (dx, dy) = (pair[1].0 - pair[0].0, pair[1].1 - pair[0].1);
        let piece = if dy == 0 {
            write!(path, "h{dx}")
        } else {
            write!(path, "v{dy}")
        };
        piece.expect("a string");
    }
    path.push('z');
}

/// Takes a side from this corner: the corner where it ends.
fn follow(from: Corner, sides: &mut BTreeMap<Corner, Vec<Corner>>) -> Corner {
    let ends = sides.get_mut(&from).expect("lines are closed");
    let to = ends.pop().expect("a side");
    if ends.is_empty() {
        sides.remove(&from);
    }
    to
}

#[cfg(test)]
mod tests {
    use super::*;

    fn drawn(rows: &[&str]) -> String {
        let pixel = |x: usize, y: usize| rows[y].as_bytes()[x] == b'#';
        outline(rows[0].len(), rows.len(), pixel)
    }

    #[test]
    fn straight_pieces_are_joined() {
        assert_eq!(drawn(&["...", "..."]), "");
        assert_eq!(drawn(&["#"]), "M0 0h1v1h-1z");
        assert_eq!(drawn(&["##", "##"]), "M0 0h2v2h-2z");
        assert_eq!(drawn(&["#.", "##"]), "M0 0h1v1h1v1h-2z");
    }

    #[test]
    fn holes_run_the_other_way() {
        assert_eq!(drawn(&["###", "#.#", "###"]), "M0 0h3v3h-3zM1 1v1h1v-1z");
    }

    #[test]
    fn pixels_that_touch_at_a_corner() {
        let path = drawn(&["#.", ".#"]);
        assert_eq!(
            path.matches(['h', 'v']).count() + path.matches('z').count(),
            8
        );
    }
}

//! A skeleton that is wrong on purpose: every point outside the sheet is taken as ink. It is
//! here for the picture alone, to show what the rule "outside is background" is for.

use crate::Image;

/// What is rebuilt at cut 0 from such a skeleton by the 3 by 3 square.
pub fn rebuilt_with_outside_as_ink(image: &Image) -> Image {
    let (width, height) = (image.width() as i32, image.height() as i32);
    let sheet = || (0..height).flat_map(move |y| (0..width).map(move |x| (x, y)));
    let near = |(x, y)| (-1..=1).flat_map(move |dy| (-1..=1).map(move |dx| (x + dx, y + dy)));
    // A point of size n is in X(n), and nothing of X(n+1) is near it: no depth is larger.
    let points: Vec<((i32, i32), i32)> = sheet()
        .map(|point| (point, depth(image, point)))
        .filter(|(_, here)| *here > 0)
        .filter(|(point, here)| near(*point).all(|other| depth(image, other) <= *here))
        .collect();
    Image::collect(image.width() as u8, image.height() as u8, |x, y| {
        let covers = |((px, py), depth): &((i32, i32), i32)| {
            (x - px).abs() < *depth && (y - py).abs() < *depth
        };
        points.iter().any(covers)
    })
}

/// How many n have a point in X(n), the erosion by the n-fold square: the distance to the
/// nearest background. Here only the sheet has background.
fn depth(image: &Image, (x, y): (i32, i32)) -> i32 {
    let blank = |x: i32, y: i32| {
        let (width, height) = (image.width() as i32, image.height() as i32);
        let inside = 0 <= x && x < width && 0 <= y && y < height;
        inside && !image.has(x as usize, y as usize)
    };
    let ring = |r: i32| {
        (-r..=r).any(|d| {
            blank(x + d, y - r) || blank(x + d, y + r) || blank(x - r, y + d) || blank(x + r, y + d)
        })
    };
    (0..=255).find(|&r| ring(r)).unwrap_or(256)
}

#[cfg(test)]
mod tests {
    use super::*;

    /// A stroke at the edge is lost, and one that keeps away from it is not.
    #[test]
    fn strokes_at_the_edge_are_lost() {
        let stroke = |at: i32| Image::collect(9, 9, |x, _| x == at);
        let inner = Image::collect(9, 9, |x, y| x == 4 && (2..7).contains(&y));
        assert_eq!(rebuilt_with_outside_as_ink(&inner), inner);
        let blank = Image::collect(9, 9, |_, _| false);
        assert_eq!(rebuilt_with_outside_as_ink(&stroke(0)), blank);
        assert_eq!(rebuilt_with_outside_as_ink(&stroke(8)), blank);
    }
}

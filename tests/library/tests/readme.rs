//! README's picture is what the proved functions give.

use library::call;
use reference::drawn::{draw, draw_labels, image};
use reference::SQUARE;

const README: &str = include_str!("../../../README.md");

/// The drawings that stand side by side, each as the tests write them: rows parted by a slash.
fn panels() -> Vec<String> {
    let picture = README.split_once("## In a picture\n\n").unwrap().1;
    let rows: Vec<Vec<&str>> = picture
        .lines()
        .take_while(|line| line.starts_with("    "))
        .map(|line| line.split_whitespace().collect())
        .collect();
    let column = |k: usize| rows.iter().map(|row| row[k]).collect::<Vec<_>>().join("/");
    (0..rows[0].len())
        .map(column)
        .map(|drawn| drawn.replace(['.', '·'], "0").replace('#', "1"))
        .collect()
}

/// What the call of a number writes, into anything, and the first value that it answers.
fn written(op: u8, numbers: [u32; 4], read: &[u8], mut out: Vec<u8>) -> (Vec<u8>, u32) {
    let reply = call(op, numbers, read, &mut out, &mut [0xa5; 60], &mut []);
    assert_eq!(reply.refusal, 0);
    (out, reply.first)
}

#[test]
fn picture() {
    let panels = panels();
    let (w, h, scan) = image(&panels[0]);
    let (labels, _) = written(2, [w, h, SQUARE, 0], &scan, vec![0xa5; (w * h) as usize]);
    let rebuilt = |cut: u32| written(3, [w, h, SQUARE, cut], &labels, vec![0xa5; scan.len()]).0;
    let (thinned, passes) = written(6, [w, h, 0, 0], &[], scan.clone());
    assert_eq!(rebuilt(0), scan);
    let drawn = [
        draw(w, &scan),
        draw_labels(w, &labels),
        draw(w, &rebuilt(1)),
        draw(w, &thinned),
    ];
    assert_eq!((&panels[..], passes), (&drawn[..], 4));
}

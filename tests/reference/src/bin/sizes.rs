//! What the codes of scans take: for each file, in the program's input format, and each named
//! element the bytes of the image, the points, the largest size and the bytes of the stream.

use reference::Answer::{Blank, Coded, Skeleton};
use reference::{decompose, encode, LEFT, PLUS, RIGHT, ROUND, SQUARE};
use std::process::exit;

const ELEMENTS: [(&str, u32); 5] = [
    ("SQUARE", SQUARE),
    ("PLUS", PLUS),
    ("ROUND", ROUND),
    ("RIGHT", RIGHT),
    ("LEFT", LEFT),
];

fn main() -> std::io::Result<()> {
    let files: Vec<String> = std::env::args().skip(1).collect();
    if files.is_empty() {
        eprintln!("use: sizes SCAN ...");
        exit(2);
    }
    let heading = [
        "element", "sheet", "image", "points", "largest", "stream", "share",
    ];
    println!("{}", columns("scan", heading.map(String::from)));
    for file in files {
        let scan = std::fs::read(&file)?;
        for (name, element) in ELEMENTS {
            match line(&scan, name, element) {
                Some(line) => println!("{}", columns(&file, line)),
                None => println!("{file}: no scan"),
            }
        }
    }
    Ok(())
}

fn columns(file: &str, others: [String; 7]) -> String {
    let [element, sheet, image, points, largest, stream, share] = others;
    format!("{file:<28} {element:<7} {sheet:>9} {image:>6} {points:>6} {largest:>7} {stream:>6} {share:>6}")
}

/// The columns after the file's name. The largest size travels beside the stream and is not in
/// its bytes, nor are the sides and the element.
fn line(scan: &[u8], name: &str, element: u32) -> Option<[String; 7]> {
    let [w, h, _, _, _, _, image @ ..] = scan else {
        return None;
    };
    let (w, h) = (*w as u32, *h as u32);
    let pixels = (w * h) as usize;
    let mut work = vec![0; 3 * image.len()];
    let points = match decompose(w, h, element, image, &mut vec![0; pixels], &mut work) {
        Skeleton { points, .. } => points,
        Blank => 0,
        _ => return None,
    };
    let mut out = vec![0; 65_536];
    let (stream, largest) = match encode(w, h, element, image, &mut out, &mut work) {
        Coded { bytes, max_size } => (bytes, max_size.to_string()),
        Blank => (0, "-".to_string()),
        _ => return None,
    };
    let share = 100.0 * stream as f64 / image.len() as f64;
    Some([
        name.to_string(),
        format!("{w} x {h}"),
        image.len().to_string(),
        points.to_string(),
        largest,
        stream.to_string(),
        format!("{share:.1} %"),
    ])
}

//! The picture of docs/picture.svg: a ticket, its skeleton, and what is rebuilt from it, all
//! from the replies of `replay`; and beside them a rebuilding that is wrong on purpose.

use crate::outline::outline;
use crate::outside::rebuilt_with_outside_as_ink;
use crate::{samples, Image, SQUARE};
use programs::format::{Message, Reply};
use programs::replay::Replay;
use std::fmt::Write;

const DECOMPOSE: u8 = 2;
const RECONSTRUCT: u8 = 3;

/// Sizes from 0 on.
const SIZES: [&str; 4] = ["#f0a202", "#dd5a2b", "#a3215f", "#3b1c6e"];
const INK: &str = "#2d3136";
/// Ink that is not the matter.
const PALE: &str = "#e2ddd0";
const LOST: &str = "#d1242f";
const QUIET: &str = "#6a6a64";

/// Drawing units to a pixel of a sheet, and of the first digit.
const SCALE: f64 = 2.0;
const DIGIT_SCALE: f64 = 2.5;
/// The part of the sheet that the first digit takes: width, and its first row.
const DIGIT: (usize, usize) = (44, 16);
const COLUMNS: [f64; 2] = [24.0, 562.0];
const ROWS: [f64; 3] = [46.0, 262.0, 478.0];
const WHOLE: (u32, u32) = (1096, 662);

/// A ticket and what `replay` replies of it.
struct Ticket {
    scan: Image,
    labels: Vec<u8>,
    points: u32,
    largest: u32,
    /// What is rebuilt at each cut, and its area.
    rebuilt: Vec<(Image, u32)>,
}

impl Ticket {
    fn of(scan: Image) -> Ticket {
        let mut replay = Replay::start();
        let (w, h) = (scan.width() as u32, scan.height() as u32);
        let mut call = |operation, cut, x: &[u8], y: usize| -> Reply {
            let reply = replay.call(&Message {
                operation,
                numbers: [w, h, SQUARE, cut],
                x: x.to_vec(),
                y: vec![0; y],
                z: vec![0; 3 * scan.bytes().len()],
                c: vec![],
            });
            assert_eq!(reply.row, 0, "refused");
            reply
        };
        let map = call(DECOMPOSE, 0, scan.bytes(), (w * h) as usize);
        let [points, largest, _] = map.values;
        let rebuilt = (0..=largest).map(|cut| {
            let reply = call(RECONSTRUCT, cut, &map.y, scan.bytes().len());
            let image = Image::packed(w, h, &reply.y).expect("a whole image");
            (image, reply.values[0])
        });
        let rebuilt = rebuilt.collect();
        replay.end();
        Ticket {
            scan,
            labels: map.y,
            points,
            largest,
            rebuilt,
        }
    }

    fn has_size(&self, x: usize, y: usize, size: usize) -> bool {
        self.labels[y * self.scan.width() + x] as usize == size + 1
    }
}

/// The whole file.
pub fn picture() -> String {
    let mut samples = samples().into_iter();
    let scan = samples.find(|(name, _)| *name == "ticket-0417");
    let ticket = Ticket::of(scan.expect("a sample").1);
    assert!(
        (ticket.largest as usize) < SIZES.len(),
        "a colour for each size"
    );
    assert!(ticket.rebuilt[0].0 == ticket.scan, "rebuilt to the pixel");
    let mut svg = Svg::new();
    svg.scan(&ticket);
    svg.skeleton(&ticket);
    for (cut, (column, row)) in [(1, (0, 1)), (2, (1, 1)), (3, (0, 2))] {
        svg.rebuilt(&ticket, cut, (COLUMNS[column], ROWS[row]));
    }
    svg.first_digit(&ticket, (COLUMNS[1], ROWS[2]));
    svg.0 + "</svg>\n"
}

struct Svg(String);

impl Svg {
    /// A card of its own colour, so that it reads on any page.
    fn new() -> Svg {
        let (width, height) = WHOLE;
        let mut svg = Svg(String::new());
        svg.line(&format!(
            "<svg xmlns=\"http://www.w3.org/2000/svg\" viewBox=\"0 0 {width} {height}\" \
             font-family=\"system-ui, 'Segoe UI', Helvetica, Arial, sans-serif\" font-size=\"17\" fill=\"{INK}\">"
        ));
        svg.line("<title>Ticket 0417, its skeleton by size, and what is rebuilt at cuts</title>");
        svg.line(&format!(
            "<rect x=\"1\" y=\"1\" width=\"{}\" height=\"{}\" rx=\"10\" fill=\"#f4f1e8\" stroke=\"#d5d0c2\"/>",
            width - 2,
            height - 2
        ));
        svg
    }

    fn line(&mut self, text: &str) {
        writeln!(self.0, "{text}").expect("a string");
    }

    fn text(&mut self, (x, y): (f64, f64), colour: &str, text: &str) {
        self.line(&format!(
            "<text x=\"{x}\" y=\"{y}\" fill=\"{colour}\">{text}</text>"
        ));
    }

    /// A caption above a panel: what it is, and in a quieter colour what is to be said of it.
    fn caption(&mut self, (x, y): (f64, f64), what: &str, more: &str) {
        self.line(&format!(
            "<text x=\"{x}\" y=\"{}\"><tspan font-weight=\"600\">{what}</tspan> <tspan fill=\"{QUIET}\">{more}</tspan></text>",
            y - 12.0
        ));
    }

    /// A sheet of paper with sets of pixels on it, each a colour and a path.
    fn sheet(
        &mut self,
        (x, y): (f64, f64),
        scale: f64,
        (w, h): (usize, usize),
        sets: &[(&str, String)],
    ) {
        self.line(&format!(
            "<g transform=\"translate({x} {y}) scale({scale})\">"
        ));
        self.line(&format!(
            "<path fill=\"#fffefa\" d=\"M0 0h{w}v{h}h-{w}z\"/>"
        ));
        for (colour, path) in sets.iter().filter(|(_, path)| !path.is_empty()) {
            self.line(&format!("<path fill=\"{colour}\" d=\"{path}\"/>"));
        }
        self.line("</g>");
    }

    fn scan(&mut self, ticket: &Ticket) {
        let (at, area) = ((COLUMNS[0], ROWS[0]), thousands(ticket.rebuilt[0].1));
        let (w, h) = (ticket.scan.width(), ticket.scan.height());
        self.caption(at, "A scan", &format!("{w} by {h}, {area} points of ink"));
        let ink = outline(w, h, |x, y| ticket.scan.has(x, y));
        self.sheet(at, SCALE, (w, h), &[(INK, ink)]);
    }

    /// The points by size over the pale scan, and the key of colours.
    fn skeleton(&mut self, ticket: &Ticket) {
        let (x, y) = (COLUMNS[1], ROWS[0]);
        let (w, h) = (ticket.scan.width(), ticket.scan.height());
        self.caption(
            (x, y),
            "Its skeleton",
            &format!("{} points, by size", ticket.points),
        );
        let mut sets = vec![(PALE, outline(w, h, |x, y| ticket.scan.has(x, y)))];
        for (size, colour) in SIZES.iter().enumerate() {
            sets.push((colour, outline(w, h, |x, y| ticket.has_size(x, y, size))));
        }
        self.sheet((x, y), SCALE, (w, h), &sets);
        let right = x + SCALE * w as f64;
        let sizes = ticket.largest as usize + 1;
        for (size, colour) in SIZES.iter().enumerate().take(sizes) {
            let (left, top) = (right - 40.0 * (sizes - size) as f64, y - 24.0);
            self.line(&format!(
                "<rect x=\"{left}\" y=\"{top}\" width=\"13\" height=\"13\" fill=\"{colour}\"/>"
            ));
            self.text((left + 18.0, y - 12.0), QUIET, &size.to_string());
        }
    }

    /// What is rebuilt at a cut over the pale scan.
    fn rebuilt(&mut self, ticket: &Ticket, cut: usize, at: (f64, f64)) {
        let (w, h) = (ticket.scan.width(), ticket.scan.height());
        let (image, area) = &ticket.rebuilt[cut];
        let more = format!("{} points of ink, pale: cut away", thousands(*area));
        self.caption(at, &format!("Rebuilt at cut {cut}"), &more);
        let pale = outline(w, h, |x, y| ticket.scan.has(x, y) && !image.has(x, y));
        let ink = outline(w, h, |x, y| image.has(x, y));
        self.sheet(at, SCALE, (w, h), &[(PALE, pale), (INK, ink)]);
    }

    /// The first digit as rebuilt at cut 0, and as a coder loses it that takes the outside as
    /// ink.
    fn first_digit(&mut self, ticket: &Ticket, (x, y): (f64, f64)) {
        let ((w, top), h) = (DIGIT, ticket.scan.height() - DIGIT.1);
        let wrong = rebuilt_with_outside_as_ink(&ticket.scan);
        let lost = |x: usize, y: usize| ticket.scan.has(x, y) && !wrong.has(x, y);
        self.caption(
            (x, y),
            "The first digit at cut 0",
            "touches the edge of the sheet",
        );
        let right = outline(w, h, |x, y| ticket.rebuilt[0].0.has(x, y + top));
        self.sheet((x, y), DIGIT_SCALE, (w, h), &[(INK, right)]);
        let kept = outline(w, h, |x, y| wrong.has(x, y + top));
        let gone = outline(w, h, |x, y| lost(x, y + top));
        let beside = (x + 244.0, y);
        self.sheet(beside, DIGIT_SCALE, (w, h), &[(INK, kept), (LOST, gone)]);
        let digit = (0..ticket.scan.height()).flat_map(|y| (0..w).map(move |x| (x, y)));
        let lost = format!("{} points lost", digit.filter(|&(x, y)| lost(x, y)).count());
        let notes = [
            (x, ["outside is", "background:", "to the pixel"], INK),
            (
                beside.0,
                ["wrong, for show:", "outside as ink,", &lost],
                LOST,
            ),
        ];
        for (left, words, last) in notes {
            let after = left + DIGIT_SCALE * w as f64 + 14.0;
            for (words, (down, colour)) in
                words.iter().zip([(66.0, INK), (89.0, INK), (112.0, last)])
            {
                self.text((after, y + down), colour, words);
            }
        }
    }
}

/// A number with its thousands apart.
fn thousands(number: u32) -> String {
    match number {
        0..=999 => number.to_string(),
        _ => format!("{},{:03}", number / 1000, number % 1000),
    }
}

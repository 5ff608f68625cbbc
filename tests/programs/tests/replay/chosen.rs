//! Calls of chosen kinds: every kind of image, of labels and of outputs, every named element,
//! every cut that matters, every mask of the house set, the tickets of images and of labels.

use programs::replay::Replay;
use reference::cases::{element, image_of, labels_of, mask, side, Call};
use reference::cases::{output_of, ticket_of_image, ticket_of_labels, OutputKind};
use reference::cases::{LabelsKind, IMAGE_KINDS, LABELS_KINDS};
use reference::rng::Rng;
use reference::Answer::{self, Area, Refused};
use reference::Mark;
use reference::{GOLAY_L, LEFT, PLUS, RIGHT, ROUND, SQUARE};
use std::collections::BTreeMap;

const NAMED: [u32; 5] = [SQUARE, PLUS, ROUND, RIGHT, LEFT];

/// What a block of calls shares; buffers that are lent hold anything.
struct Block {
    rng: Rng,
    w: u32,
    h: u32,
    element: u32,
    name: String,
    calls: Vec<(String, Call)>,
    /// What each call was chosen for.
    kinds: Vec<&'static str>,
}

impl Block {
    /// Sides and an element, one of the named ones or any.
    fn new(name: String, seed: u64) -> Block {
        let mut rng = Rng::new(seed);
        let (w, h) = (side(&mut rng), side(&mut rng));
        let any = element(&mut rng);
        Block {
            w,
            h,
            element: *NAMED.get(seed as usize % 6).unwrap_or(&any),
            rng,
            name: format!("{name}, seed {seed}"),
            calls: vec![],
            kinds: vec![],
        }
    }

    fn add(&mut self, kind: &'static str, call: Call) {
        self.calls.push((self.name.clone(), call));
        self.kinds.push(kind);
    }

    fn image(&mut self) -> Vec<u8> {
        let plane = self.w.div_ceil(8) * self.h;
        self.rng.bytes(plane as usize)
    }

    /// Some bytes more than 3P at times.
    fn work(&mut self) -> Vec<u8> {
        let plane = self.w.div_ceil(8) * self.h;
        let spare = self.rng.below(3) as u32;
        self.rng.bytes((3 * plane + spare) as usize)
    }

    fn labels(&mut self) -> Vec<u8> {
        self.rng.bytes((self.w * self.h) as usize)
    }

    /// Erosion and opening by n.
    #[rustfmt::skip]
    fn erode_and_open(&mut self, kind: &'static str, n: u32, image: &[u8]) {
        let (w, h, element, image) = (self.w, self.h, self.element, image.to_vec());
        let (out, work) = (self.image(), self.work());
        self.add(kind, Call::Erode { w, h, element, n, image: image.clone(), out, work });
        let (out, work) = (self.image(), self.work());
        self.add(kind, Call::Open { w, h, element, n, image, out, work });
    }

    #[rustfmt::skip]
    fn decompose(&mut self, kind: &'static str, image: &[u8]) {
        let (w, h, element, image) = (self.w, self.h, self.element, image.to_vec());
        let (labels, work) = (self.labels(), self.work());
        self.add(kind, Call::Decompose { w, h, element, image, labels, work });
    }

    #[rustfmt::skip]
    fn reconstruct(&mut self, kind: &'static str, cut: u32, labels: &[u8]) {
        let (w, h, element, labels) = (self.w, self.h, self.element, labels.to_vec());
        let (image, work) = (self.image(), self.work());
        self.add(kind, Call::Reconstruct { w, h, element, cut, labels, image, work });
    }

    #[rustfmt::skip]
    fn minimise(&mut self, kind: &'static str, labels: &[u8]) {
        let (w, h, element, labels) = (self.w, self.h, self.element, labels.to_vec());
        let (work, counters) = (self.work(), vec![0xA5A5; labels.len()]);
        self.add(kind, Call::Minimise { w, h, element, labels, work, counters });
    }

    /// Codes into outputs of each kind.
    #[rustfmt::skip]
    fn encode(&mut self, image: &[u8]) {
        let (w, h, element) = (self.w, self.h, self.element);
        let bytes = stream_bytes(self, image);
        for (kind, name) in OUTPUTS {
            let (image, out) = (image.to_vec(), output_of(&mut self.rng, kind, bytes));
            let work = self.work();
            self.add(name, Call::Encode { w, h, element, image, out, work });
        }
    }

    /// A ticket, read.
    #[rustfmt::skip]
    fn decode(&mut self, kind: &'static str, (mark, stream): (Mark, Vec<u8>)) {
        let (w, h, element) = (self.w, self.h, self.element);
        let plane = (w.div_ceil(8) * h) as usize;
        let spare = self.rng.below(3);
        let (image, work) = (self.rng.bytes(plane), self.rng.bytes(5 * plane + spare));
        self.add(kind, Call::Decode { w, h, element, mark, stream, image, work });
    }

    /// The ticket of an image, with a byte more or less, and beside other marks.
    fn decode_about(&mut self, image: &[u8]) {
        let (mark, stream) = ticket_of_image(self.w, self.h, self.element, image);
        let mut longer = stream.clone();
        longer.push(self.rng.pick(&[0, 0, 1, 255]));
        self.decode("a byte more", (mark, longer));
        if let Some((_, shorter)) = stream.split_last() {
            self.decode("a byte less", (mark, shorter.to_vec()));
            self.decode("marked blank", (Mark::Blank, stream.clone()));
        }
        let above = match mark {
            Mark::Blank => 0,
            Mark::Largest(largest) => largest + 1,
        };
        self.decode("largest + 1", (Mark::Largest(above), stream.clone()));
        self.decode("largest 255", (Mark::Largest(255), stream.clone()));
        self.decode("own", (mark, stream));
    }

    #[rustfmt::skip]
    fn dilate(&mut self, image: &[u8]) {
        let (w, h, element, image) = (self.w, self.h, self.element, image.to_vec());
        let (out, work) = (self.image(), self.work());
        self.add("", Call::Dilate { w, h, element, image, out, work });
    }

    /// Hit-or-miss by the house set and two other masks; thinning.
    #[rustfmt::skip]
    fn hit_or_miss_and_thin(&mut self, image: &[u8]) {
        let (w, h) = (self.w, self.h);
        let others = [mask(&mut self.rng), mask(&mut self.rng)];
        for (fg, bg) in GOLAY_L.into_iter().chain(others) {
            let (image, out) = (image.to_vec(), self.image());
            self.add("", Call::HitOrMiss { w, h, fg, bg, image, out });
        }
        let (image, work) = (image.to_vec(), self.work());
        self.add("", Call::Thin { w, h, image, work });
    }
}

/// The kinds of outputs whose answer is known, by name.
const OUTPUTS: [(OutputKind, &str); 5] = [
    (OutputKind::Exact, "exactly enough"),
    (OutputKind::Short, "one byte short"),
    (OutputKind::Empty, "empty"),
    (OutputKind::Longer, "longer"),
    (OutputKind::FarLonger, "far longer"),
];

/// The cuts that matter for these labels, by name.
fn cuts(labels: &[u8]) -> [(&'static str, u32); 7] {
    let label = labels.iter().copied().max().unwrap_or(0);
    let largest = label.saturating_sub(1) as u32;
    [
        ("0", 0),
        ("1", 1),
        ("largest", largest),
        ("largest + 1", largest + 1),
        ("255", 255),
        ("256", 256),
        ("4294967295", u32::MAX),
    ]
}

/// Which edges an image touches: left, right, top, bottom.
fn edges(w: u32, image: &[u8]) -> [bool; 4] {
    let rows: Vec<&[u8]> = image.chunks(w.div_ceil(8) as usize).collect();
    let last = w as usize - 1;
    let any = |row: &[u8]| row.iter().any(|&byte| byte > 0);
    [
        rows.iter().any(|row| row[0] & 0x80 != 0),
        rows.iter()
            .any(|row| row[last / 8] << (last % 8) & 0x80 != 0),
        any(rows[0]),
        any(rows[rows.len() - 1]),
    ]
}

/// Calls by operation, what they were chosen for, and how they were answered.
type Met = BTreeMap<(&'static str, &'static str, &'static str), u32>;

/// Makes the calls of a block and counts them.
fn agree(replay: &mut Replay, met: &mut Met, block: &Block) {
    let answers = replay.all_agree(&block.calls);
    for (((_, call), kind), answer) in block.calls.iter().zip(&block.kinds).zip(answers) {
        let answered = match answer {
            Refused(_) => "refused",
            Area(0) | Answer::Blank | Answer::Minimal(0) | Answer::Dilated { area: 0, .. } => {
                "blank"
            }
            Answer::Dilated { fell: true, .. } => "fell",
            _ => "ink",
        };
        *met.entry((call.name(), kind, answered)).or_default() += 1;
    }
}

fn reached(met: &Met, operation: &'static str, kind: &'static str, answered: &'static str) {
    let times = met.get(&(operation, kind, answered)).copied().unwrap_or(0);
    assert!(times >= 5, "{operation}, {kind}, {answered}: {times} times");
}

/// Every kind of image and every named element: all operations, all cuts, the labels of the
/// image and its minimal labels among them.
#[test]
fn every_kind_of_image() {
    let mut replay = Replay::start();
    let mut met = Met::new();
    for kind in IMAGE_KINDS {
        let mut touched = [0; 4];
        for seed in 0..240 {
            let mut block = Block::new(format!("{kind:?}"), seed);
            let (w, h) = (block.w, block.h);
            let image = image_of(&mut block.rng, kind, w, h);
            for (count, edge) in touched.iter_mut().zip(edges(w, &image)) {
                *count += edge as u32;
            }
            let labels = skeleton(&block, &image);
            let minimal = minimal(&block, &labels);
            for (cut, n) in cuts(&labels) {
                block.erode_and_open(cut, n, &image);
                block.reconstruct(cut, n, &labels);
                block.reconstruct(cut, n, &minimal);
            }
            block.decompose("", &image);
            block.minimise("", &labels);
            block.minimise("", &minimal);
            block.hit_or_miss_and_thin(&image);
            block.encode(&image);
            block.decode_about(&image);
            let (w, h, element) = (block.w, block.h, block.element);
            block.decode("minimal", ticket_of_labels(w, h, element, &minimal));
            block.dilate(&image);
            agree(&mut replay, &mut met, &block);
        }
        let least = if kind == IMAGE_KINDS[0] { 0 } else { 10 };
        assert!(
            touched.iter().all(|&edge| edge >= least),
            "{kind:?}: {touched:?}"
        );
    }
    for operation in ["erode", "open", "reconstruct"] {
        for cut in ["0", "1", "largest"] {
            reached(&met, operation, cut, "ink");
        }
        for cut in ["1", "largest + 1", "255"] {
            reached(&met, operation, cut, "blank");
        }
        for cut in ["256", "4294967295"] {
            reached(&met, operation, cut, "refused");
        }
    }
    for operation in ["decompose", "minimise", "hit_or_miss"] {
        reached(&met, operation, "", "ink");
        reached(&met, operation, "", "blank");
    }
    reached(&met, "thin", "", "ink");
    for answered in ["ink", "fell", "blank"] {
        reached(&met, "dilate", "", answered);
    }
    for output in ["exactly enough", "longer", "far longer"] {
        reached(&met, "encode", output, "ink");
        assert!(!met.contains_key(&("encode", output, "refused")));
    }
    for output in ["one byte short", "empty"] {
        reached(&met, "encode", output, "refused");
        assert!(!met.contains_key(&("encode", output, "ink")));
    }
    for (_, output) in OUTPUTS {
        reached(&met, "encode", output, "blank");
    }
    for ticket in ["own", "minimal"] {
        reached(&met, "decode", ticket, "ink");
        reached(&met, "decode", ticket, "blank");
    }
    assert!(!met.contains_key(&("decode", "own", "refused")));
    reached(&met, "decode", "minimal", "refused");
    for ticket in ["a byte more", "a byte less", "marked blank", "largest 255"] {
        reached(&met, "decode", ticket, "refused");
        assert!(!met.contains_key(&("decode", ticket, "ink")));
        assert!(!met.contains_key(&("decode", ticket, "blank")));
    }
    reached(&met, "decode", "largest + 1", "refused");
    replay.end();
}

/// Labels of every kind at every cut, and their tickets. A bad map is bad at any cut, and cannot be
/// shortened.
#[test]
fn every_kind_of_labels() {
    let mut replay = Replay::start();
    for kind in LABELS_KINDS {
        let mut met = Met::new();
        for seed in 1000..1300 {
            let mut block = Block::new(format!("{kind:?}"), seed);
            let (w, h, element) = (block.w, block.h, block.element);
            let labels = labels_of(&mut block.rng, kind, w, h, element);
            for (cut, n) in cuts(&labels) {
                block.reconstruct(cut, n, &labels);
            }
            block.minimise("", &labels);
            block.decode("", ticket_of_labels(w, h, element, &labels));
            agree(&mut replay, &mut met, &block);
        }
        // Of the labels of an image alone every ticket is read.
        let skeleton = kind == LabelsKind::Skeleton;
        assert_eq!(met.contains_key(&("decode", "", "refused")), !skeleton);
        reached(&met, "decode", "", if skeleton { "ink" } else { "refused" });
        let bad = matches!(kind, LabelsKind::Beyond | LabelsKind::Any);
        let or_bad = |answered| if bad { "refused" } else { answered };
        reached(&met, "minimise", "", or_bad("ink"));
        for (cut, answered) in [
            ("0", or_bad("ink")),
            ("largest", or_bad("ink")),
            ("largest + 1", or_bad("blank")),
            ("255", or_bad("blank")),
            ("256", "refused"),
            ("4294967295", "refused"),
        ] {
            reached(&met, "reconstruct", cut, answered);
        }
        let refused = |operation, cut| met.get(&(operation, cut, "refused")).copied();
        for cut in ["0", "1", "largest", "largest + 1", "255"] {
            let [rebuilt, shortened] = [refused("reconstruct", cut), refused("minimise", "")];
            assert_eq!(rebuilt, shortened, "{kind:?}, cut {cut}");
        }
    }
    replay.end();
}

/// The labels of an image, by the second program.
fn skeleton(block: &Block, image: &[u8]) -> Vec<u8> {
    let (w, h) = (block.w, block.h);
    let mut labels = vec![0; (w * h) as usize];
    let mut work = vec![0; 3 * image.len()];
    reference::decompose(w, h, block.element, image, &mut labels, &mut work);
    labels
}

/// The bytes of an image's stream, by the second program; none of a blank image.
fn stream_bytes(block: &Block, image: &[u8]) -> usize {
    let (mut out, mut work) = (vec![0; 65_536], vec![0; 3 * image.len()]);
    match reference::encode(block.w, block.h, block.element, image, &mut out, &mut work) {
        Answer::Coded { bytes, .. } => bytes as usize,
        _ => 0,
    }
}

/// The minimal labels, by the second program.
fn minimal(block: &Block, labels: &[u8]) -> Vec<u8> {
    let (w, h) = (block.w, block.h);
    let mut minimal = labels.to_vec();
    let mut work = vec![0; (3 * w.div_ceil(8) * h) as usize];
    let mut counters = vec![0; labels.len()];
    reference::minimise(w, h, block.element, &mut minimal, &mut work, &mut counters);
    minimal
}

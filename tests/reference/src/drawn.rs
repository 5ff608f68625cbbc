//! Images and labels as text: rows from top to bottom, apart by a slash.

/// The sides and bytes of a drawn image, 1 for foreground.
pub fn image(text: &str) -> (u32, u32, Vec<u8>) {
    let rows: Vec<&[u8]> = text.split('/').map(str::as_bytes).collect();
    let pack = |eight: &[u8]| {
        let bits = eight.iter().enumerate();
        bits.fold(0, |byte, (i, &pixel)| byte | (pixel - b'0') << (7 - i))
    };
    let bytes = rows.iter().flat_map(|row| row.chunks(8).map(pack));
    (rows[0].len() as u32, rows.len() as u32, bytes.collect())
}

/// The drawing of an image.
pub fn draw(w: u32, image: &[u8]) -> String {
    let rows = image.chunks(w.div_ceil(8) as usize).map(|row| {
        let bits: String = row.iter().map(|byte| format!("{byte:08b}")).collect();
        bits[..w as usize].to_string()
    });
    rows.collect::<Vec<_>>().join("/")
}

/// The bytes of drawn labels, each below 10.
pub fn labels(text: &str) -> Vec<u8> {
    let digits = text.bytes().filter(|&byte| byte != b'/');
    digits.map(|digit| digit - b'0').collect()
}

/// The drawing of labels, each below 10.
pub fn draw_labels(w: u32, labels: &[u8]) -> String {
    let rows = labels.chunks(w as usize);
    let rows = rows.map(|row| row.iter().map(u8::to_string).collect::<String>());
    rows.collect::<Vec<_>>().join("/")
}

/// An image all foreground.
pub fn full(w: u32, h: u32) -> Vec<u8> {
    image(&vec!["1".repeat(w as usize); h as usize].join("/")).2
}

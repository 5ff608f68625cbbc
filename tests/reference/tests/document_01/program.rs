//! The program of 01: standard input to standard output.

use reference::program;

fn prints(input: &[u8], expected: &str) {
    let output = String::from_utf8(program(input)).expect("plain text");
    assert_eq!(output, expected, "{input:02X?}");
}

#[test]
fn program_example_printed_whole() {
    let input = [0x03, 0x03, 0xC0, 0x39, 0x07, 0x00, 0xE0, 0xE0, 0xE0];
    prints(&input, "3 3 1 1\n0 0 0\n0 2 0\n0 0 0\n");
}

#[test]
fn program_blank_image_prints_a_dash() {
    prints(&[3, 2, 0xC0, 0x39, 7, 0, 0, 0], "3 2 0 -\n0 0 0\n0 0 0\n");
    prints(&[1, 1, 0xC0, 0x39, 7, 0, 0x80], "1 1 1 0\n1\n");
}

#[test]
fn program_labels_of_three_digits() {
    let mut input = vec![255, 1, 0x00, 0x30, 0, 0];
    input.extend([0xFF; 31]);
    input.push(0xFE);
    let expected = format!("255 1 1 254\n255{}\n", " 0".repeat(254));
    prints(&input, &expected);
}

#[test]
fn program_below_six_bytes_is_3_whatever_they_hold() {
    prints(&[], "refused 3\n");
    for len in 0..6 {
        prints(&vec![0; len], "refused 3\n");
        prints(&vec![255; len], "refused 3\n");
    }
}

#[test]
fn program_refuses_in_the_order_of_the_table() {
    // Sides 0, a bad element and no image: 1, and so on.
    prints(&[0, 3, 0, 0, 0, 0], "refused 1\n");
    prints(&[3, 0, 0, 0, 0, 0, 0xFF], "refused 1\n");
    prints(&[3, 1, 0, 0, 0, 0], "refused 2\n");
    prints(&[3, 1, 0, 0x10, 0, 0, 0xFF], "refused 2\n");
    prints(&[3, 1, 0, 0x30, 0, 2, 0xE0], "refused 2\n");
    prints(&[3, 1, 0, 0x30, 0, 0], "refused 3\n");
    prints(&[3, 1, 0, 0x30, 0, 0, 0xE1, 0], "refused 3\n");
    prints(&[3, 1, 0, 0x30, 0, 0, 0xE1], "refused 4\n");
    prints(&[3, 1, 0, 0x30, 0, 0, 0xE0], "3 1 1 2\n3 0 0\n");
}

#[test]
fn program_trailing_line_feed_is_one_byte_too_many() {
    let mut input = vec![3, 3, 0xC0, 0x39, 7, 0, 0xE0, 0xE0, 0xE0];
    input.push(b'\n');
    prints(&input, "refused 3\n");
    input.truncate(8);
    prints(&input, "refused 3\n");
}

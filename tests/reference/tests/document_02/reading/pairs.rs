//! Rows that apply at once: 9 to 11 with one another and rows 1 to 3 with each of them. The lowest
//! is answered; rows 1 to 3 change no lent byte, the others clear work.

use crate::plain;
use reference::Answer::{Area, Refused};
use reference::Mark::{self, Blank, Largest};
use reference::SQUARE;

/// A ticket on 5 by 3 by SQUARE.
struct Ticket {
    mark: Mark,
    stream: Vec<u8>,
    /// All rows that refuse it.
    rows: &'static [u8],
}

/// Tickets for each row of 9 to 11 and each two of them. Case B's own is "20,0,0,,,,".
#[rustfmt::skip]
fn tickets() -> Vec<Ticket> {
    let text = |largest, text: &str, rows| Ticket {
        mark: Largest(largest),
        stream: plain::bytes(text),
        rows,
    };
    let bytes = |mark, stream: &[u8], rows| Ticket {
        mark,
        stream: stream.to_vec(),
        rows,
    };
    let more = |ticket: Ticket, byte: u8, rows| Ticket {
        stream: [&ticket.stream[..], &[byte]].concat(),
        rows,
        ..ticket
    };
    vec![
        text(1, "20,0,0,,,,", &[]),
        bytes(Blank, &[], &[]),
        // Ends early, a leading zero, no digit, passes the sheet, above 254, no point in the
        // first size, a point that leaves.
        text(1, "20,0,0,", &[9]),
        text(1, "20,00,0,,,,", &[9]),
        text(1, ",20,0,0,,,,", &[9]),
        text(1, "20,0,120,,,,", &[9]),
        text(255, "20,0,0,,,,", &[9]),
        text(2, ",,20,0,0,,,,", &[9]),
        text(1, "0,,,,", &[9]),
        // Padding, a byte 0 or 1 more, a byte with a blank.
        text(1, "20,0,0,,,,,1", &[10]),
        more(text(1, "20,0,0,,,,", &[]), 0, &[10]),
        more(text(1, "20,0,0,,,,", &[]), 1, &[10]),
        bytes(Blank, &[0], &[10]),
        bytes(Blank, &[1], &[10]),
        // B shortened; all of B as points of size 0.
        text(1, "20,1,,,,", &[11]),
        text(0, "0,0,0,0,0,0,0,0,0,0,0,0,0,0,0,,", &[11]),
        // A point that leaves, or no point in the first size, and padding or a byte more.
        text(1, "0,,,,,,1", &[9, 10]),
        more(text(1, "0,,,,", &[]), 0, &[9, 10]),
        more(text(2, ",,20,0,0,,,,", &[]), 7, &[9, 10]),
        // A point that leaves and points that are no skeleton.
        text(1, "0,1,,0,0,0,,", &[9, 11]),
        // B shortened, with padding or a byte more.
        more(text(1, "20,1,,,,", &[]), 0, &[10, 11]),
        text(0, "0,0,0,0,0,0,0,0,0,0,0,0,0,0,0,,2", &[10, 11]),
        more(text(1, "0,1,,0,0,0,,", &[]), 0, &[9, 10, 11]),
    ]
}

/// The answer, and the image and the work after it. They hold A5 before.
fn answer(
    (w, h, element): (u32, u32, u32),
    ticket: &Ticket,
    image: usize,
    work: usize,
) -> (u8, Vec<u8>, Vec<u8>) {
    let (mut image, mut work) = (vec![0xA5; image], vec![0xA5; work]);
    let Ticket { mark, stream, .. } = ticket;
    let answer = reference::decode(w, h, element, *mark, stream, &mut image, &mut work);
    let row = match answer {
        Refused(row) => row,
        Area(_) => 0,
        other => panic!("{other:?}"),
    };
    (row, image, work)
}

/// The rows of each ticket are those of 02 word for word.
#[test]
fn the_rows_are_those_of_02() {
    let b = plain::element(SQUARE);
    for ticket in tickets() {
        let reading = plain::read(5, 3, &b, ticket.mark, &ticket.stream);
        let mut rows: Vec<u8> = reading.reasons.iter().map(|reason| reason.row()).collect();
        rows.dedup();
        assert_eq!(rows, ticket.rows, "{:?} {:?}", ticket.mark, ticket.stream);
    }
}

/// "9 and 10", "9 and 11", "10 and 11", all three: the lowest, with the image as it was and the
/// first 5P bytes of work 0.
#[test]
fn the_lowest_of_9_to_11() {
    for ticket in tickets() {
        let lowest = ticket.rows.iter().copied().min().unwrap_or(0);
        let (row, image, work) = answer((5, 3, SQUARE), &ticket, 3, 18);
        assert_eq!(row, lowest, "{:?} {:?}", ticket.mark, ticket.stream);
        assert!(row == 0 || image == [0xA5; 3]);
        assert_eq!((&work[..15], &work[15..]), (&[0; 15][..], &[0xA5; 3][..]));
    }
}

/// Rows 1 to 3 come before 9, 10 and 11, and before a success; they change no lent byte.
#[test]
fn rows_1_to_3_come_first() {
    for ticket in tickets() {
        let refused = |row, sheet, image: usize, work: usize| {
            let unchanged = (row, vec![0xA5; image], vec![0xA5; work]);
            assert_eq!(answer(sheet, &ticket, image, work), unchanged);
        };
        for side in [0, 256, 65_536, u32::MAX] {
            refused(1, (side, 3, SQUARE), 3, 15);
            refused(1, (5, side, SQUARE), 3, 15);
            // With rows 2 and 3.
            refused(1, (side, 3, 0), 0, 0);
        }
        for element in [0, 4096, SQUARE & !4096, SQUARE | 1 << 25, u32::MAX] {
            refused(2, (5, 3, element), 3, 15);
            refused(2, (5, 3, element), 2, 14);
        }
        for image in [0, 1, 2, 4, 15] {
            refused(3, (5, 3, SQUARE), image, 15);
        }
        for work in [0, 3, 9, 12, 14] {
            refused(3, (5, 3, SQUARE), 3, work);
        }
    }
}

//! Damaged arguments of every kind.

use super::tickets::{pad, ticket_of_labels};
use super::{Call, Parts};
use crate::code::pack;
use crate::decode::unpack;
use crate::element::ORIGIN;
use crate::frame::{Frame, Set};
use crate::rng::Rng;
use crate::skeleton::{decompose, minimise};
use crate::Answer::Area;
use crate::Mark::{self, Blank, Largest};

/// A way to damage a call: the row of the table that it aims at, and an edit that says
/// whether the call has such an argument. An edit that says no has changed nothing.
pub type Damage = (u8, fn(&mut Parts) -> bool);

/// Every kind of damaged argument.
#[rustfmt::skip]
pub const DAMAGES: &[Damage] = &[
    (1, |p| change(p.w, |_| 0)),
    (1, |p| change(p.w, |_| 256)),
    (1, |p| change(p.w, |w| w | 256)),
    (1, |p| change(p.w, |_| u32::MAX)),
    (1, |p| change(p.h, |_| 0)),
    (1, |p| change(p.h, |_| 256)),
    (1, |p| change(p.h, |h| h | 65536)),
    (1, |p| change(p.h, |_| u32::MAX)),
    (2, |p| change_if(&mut p.element, |e| e | 1 << 25)),
    (2, |p| change_if(&mut p.element, |e| e | 1 << 31)),
    (2, |p| change_if(&mut p.element, |e| e & !ORIGIN)),
    (2, |p| change_if(&mut p.element, |_| ORIGIN)),
    (2, |p| change_if(&mut p.element, |_| 0)),
    (2, |p| change_if(&mut p.element, |_| u32::MAX)),
    (3, |p| shorten(&mut p.read)),
    (3, |p| lengthen(&mut p.read)),
    (3, |p| empty(&mut p.read)),
    (3, |p| shorten(&mut p.written)),
    (3, |p| lengthen(&mut p.written)),
    (3, |p| empty(&mut p.written)),
    (3, |p| shorten(&mut p.labels)),
    (3, |p| lengthen(&mut p.labels)),
    (3, |p| empty(&mut p.labels)),
    (3, |p| shorten(&mut p.counters)),
    (3, |p| lengthen(&mut p.counters)),
    (3, |p| empty(&mut p.counters)),
    (3, |p| empty(&mut p.work)),
    (3, |p| shorten_work(p, |needed, _| needed - 1)),
    (3, |p| p.planes > 3 && shorten_work(p, |_, plane| 3 * plane)),
    (4, |p| set_padding(p, |_| 0, |_| 7)),
    (4, |p| set_padding(p, |frame| frame.height - 1, |_| 7)),
    (4, |p| set_padding(p, |frame| frame.height / 2, |frame| frame.width % 8)),
    (5, |p| set_label(p, |_| 0)),
    (5, |p| set_label(p, |len| len - 1)),
    (5, |p| hide_label(p, |_| 0)),
    (6, |p| set_mask(p, |fg, bg| (fg | 512, bg))),
    (6, |p| set_mask(p, |fg, bg| (fg, bg | 512))),
    (6, |p| set_mask(p, |fg, bg| (fg | 1 << 31, bg))),
    (6, |p| set_mask(p, |fg, bg| (fg & !16, bg))),
    (6, |p| set_mask(p, |fg, bg| (fg, bg | 16))),
    (6, |p| set_mask(p, |fg, bg| (fg | 1, bg | 1))),
    (6, |p| set_mask(p, |_, _| (0, 0))),
    (7, |p| change_if(&mut p.cut_or_n, |_| 256)),
    (7, |p| change_if(&mut p.cut_or_n, |n| n | 256)),
    (7, |p| change_if(&mut p.cut_or_n, |n| n | 65536)),
    (7, |p| change_if(&mut p.cut_or_n, |_| u32::MAX)),
    (8, |p| shorten(&mut p.stream)),
    (8, |p| empty(&mut p.stream)),
    (9, |p| set_mark(p, |_| Some(Largest(255)))),
    (9, |p| set_mark(p, |_| Some(Largest(u32::MAX)))),
    (9, |p| sized(p, |largest, _| change(largest, |n| n | 256))),
    (9, |p| sized(p, |largest, _| change(largest, |n| n | 65536))),
    // A blank scan has no largest size.
    (9, |p| set_mark(p, |stream| stream.is_empty().then_some(Largest(0)))),
    (9, |p| sized(p, |_, stream| empty(&mut Some(stream)))),
    // Digits without end.
    (9, |p| sized(p, |_, stream| { stream.fill(0xAA); true })),
    // A leading zero digit, a run with no digit, a first size without a point, a run that passes
    // every sheet, a point that is too large for its place.
    (9, |p| sized(p, |_, stream| put_before(stream, &[1]))),
    (9, |p| sized(p, |_, stream| put_before(stream, &[0]))),
    (9, |p| sized(p, |_, stream| put_before(stream, &[0, 0]))),
    (9, |p| sized(p, |_, stream| put_before(stream, &[2; 12]))),
    (9, |p| sized(p, |largest, stream| {
        put_before(stream, &[1, 0, 0]) && change(largest, |n| n.saturating_add(1))
    })),
    (10, |p| put_after(p, 0)),
    (10, |p| put_after(p, 1)),
    (10, |p| put_after(p, 0x80)),
    (10, |p| set_bit_after(p, 1)),
    (10, |p| set_bit_after(p, 2)),
    (10, |p| set_mark(p, |stream| (!stream.is_empty()).then_some(Blank))),
    // Every point of the image as one of size 0; the minimal labels.
    (11, |p| exchange(p, |x, _| x.member.iter().map(|&ink| ink as u8).collect())),
    (11, |p| exchange(p, |x, element| minimise(x.frame, element, &decompose(x, element)))),
];

/// Damages one argument, each row of the table as often as another.
pub fn damage(rng: &mut Rng, call: &mut Call) {
    loop {
        let row = rng.between(1, 11) as u8;
        let kinds: Vec<&Damage> = DAMAGES.iter().filter(|damage| damage.0 == row).collect();
        let (_, edit) = rng.pick(&kinds);
        if edit(&mut call.parts()) {
            return;
        }
    }
}

fn change(number: &mut u32, to: fn(u32) -> u32) -> bool {
    *number = to(*number);
    true
}

fn change_if(number: &mut Option<&mut u32>, to: fn(u32) -> u32) -> bool {
    number.as_mut().is_some_and(|number| change(number, to))
}

fn shorten<T>(buffer: &mut Option<&mut Vec<T>>) -> bool {
    let last = buffer.as_mut().and_then(|buffer| buffer.pop());
    last.is_some()
}

fn lengthen<T: Default>(buffer: &mut Option<&mut Vec<T>>) -> bool {
    let longer = buffer.as_mut().map(|buffer| buffer.push(T::default()));
    longer.is_some()
}

fn empty<T>(buffer: &mut Option<&mut Vec<T>>) -> bool {
    let all = buffer.as_mut().map_or(0, |buffer| buffer.drain(..).count());
    all > 0
}

/// Leaves less work than is needed: so many bytes, by those that are and by P.
fn shorten_work(p: &mut Parts, to: fn(usize, usize) -> usize) -> bool {
    let (Some(frame), Some(work)) = (Frame::new(*p.w, *p.h), p.work.as_mut()) else {
        return false;
    };
    let plane = frame.plane_bytes();
    work.truncate(to(p.planes * plane, plane));
    true
}

/// Sets a padding bit in a row of the image that is read.
fn set_padding(p: &mut Parts, row: fn(Frame) -> i32, bit: fn(Frame) -> i32) -> bool {
    let padded = Frame::new(*p.w, *p.h).filter(|frame| frame.width % 8 != 0);
    let (Some(frame), Some(image)) = (padded, p.read.as_mut()) else {
        return false;
    };
    let last = (row(frame) as usize + 1) * frame.stride() - 1;
    let byte = image.get_mut(last);
    byte.map(|byte| *byte |= 0x80 >> bit(frame)).is_some()
}

/// Sets a label to the largest size; up to sides of 254 it leaves the frame. Labels are read
/// where no image is.
fn set_label(p: &mut Parts, place: fn(usize) -> usize) -> bool {
    match &mut p.labels {
        Some(labels) if !labels.is_empty() && p.read.is_none() => {
            let place = place(labels.len());
            labels[place] = 255;
            true
        }
        _ => false,
    }
}

/// The same where there is a cut, which is then above that size.
fn hide_label(p: &mut Parts, place: fn(usize) -> usize) -> bool {
    p.cut_or_n.is_some() && set_label(p, place) && change_if(&mut p.cut_or_n, |cut| cut.max(255))
}

fn set_mask(p: &mut Parts, to: fn(u32, u32) -> (u32, u32)) -> bool {
    let Some((fg, bg)) = &mut p.mask else {
        return false;
    };
    (**fg, **bg) = to(**fg, **bg);
    true
}

/// Puts another mark beside a stream that is read, if it has one for it.
fn set_mark(p: &mut Parts, to: fn(&[u8]) -> Option<Mark>) -> bool {
    let Some((mark, stream)) = &mut p.ticket else {
        return false;
    };
    let other = to(stream);
    **mark = other.unwrap_or(**mark);
    other.is_some()
}

/// Edits a largest size and the stream that is read with it.
fn sized(p: &mut Parts, edit: fn(&mut u32, &mut Vec<u8>) -> bool) -> bool {
    match &mut p.ticket {
        Some((Largest(max_size), stream)) => edit(max_size, stream),
        _ => false,
    }
}

/// Puts symbols before those of a stream.
fn put_before(stream: &mut Vec<u8>, symbols: &[u8]) -> bool {
    *stream = pack(&[symbols, &unpack(stream)].concat());
    true
}

/// Puts a byte after a stream that is read.
fn put_after(p: &mut Parts, byte: u8) -> bool {
    let longer = p.ticket.as_mut().map(|(_, stream)| stream.push(byte));
    longer.is_some()
}

/// Sets a bit in the padding of a stream that is read, counted from the last.
fn set_bit_after(p: &mut Parts, bit: usize) -> bool {
    let ticket = p.ticket.as_mut();
    ticket.is_some_and(|(mark, stream)| pad(**mark, stream, bit))
}

/// Exchanges a code that is sound for that of other labels that its image makes.
fn exchange(p: &mut Parts, to: fn(&Set, u32) -> Vec<u8>) -> bool {
    let (Some(image), Some(element)) = (read(p), p.element.as_ref()) else {
        return false;
    };
    let labels = to(&image, **element);
    if labels == decompose(&image, **element) {
        return false;
    }
    let other = ticket_of_labels(*p.w, *p.h, **element, &labels);
    let ticket = p.ticket.as_mut();
    ticket
        .map(|(mark, stream)| (**mark, **stream) = other)
        .is_some()
}

/// The image of a code that is sound.
fn read(p: &Parts) -> Option<Set> {
    let (frame, element) = (Frame::new(*p.w, *p.h)?, **p.element.as_ref()?);
    let (mark, stream) = p.ticket.as_ref()?;
    let mut image = vec![0; frame.plane_bytes()];
    let mut work = vec![0; p.planes * image.len()];
    let answer = crate::decode(*p.w, *p.h, element, **mark, stream, &mut image, &mut work);
    matches!(answer, Area(_)).then(|| frame.unpack(&image))
}

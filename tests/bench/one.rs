//! Each call once, by the library and in plain Rust, for counting instructions:
//! `one KIND DEGREE SECOND OPERATION VERTEX [ORDER]`, the second degree of a rectangular patch and 0 of the
//! others. With an order the point is a common zero of a curve, of that order. The functions with C names are
//! what the counter looks for.
#[allow(dead_code)]
mod plain;
mod records;

use gadwemosh::raw;
use plain::{Shape, FOUND, NET, PLACES};
use std::hint::black_box;

#[no_mangle]
#[inline(never)]
fn plain_open(s: &[u8], net: &mut [i64], layout: &mut plain::Layout) -> u8 {
    plain::open(s, net, layout).0
}

#[no_mangle]
#[inline(never)]
fn plain_first(shape: Shape, frame: &[i64], coefficients: &[i64], net: &mut [i64]) -> u8 {
    plain::first_of(shape, frame, coefficients, net)
}

#[no_mangle]
#[inline(never)]
fn plain_move(net: &mut [i64], operation: u8, vertex: u8, w: [i64; 4]) -> u8 {
    if operation == 1 { plain::replace(net, vertex, w) } else { plain::flip(net, vertex) }
}

#[no_mangle]
#[inline(never)]
fn plain_point(net: &[i64], w: [i64; 4], found: &mut [i64]) -> u8 {
    plain::point(net, w, found)
}

#[no_mangle]
#[inline(never)]
fn plain_text(s: &[u8], out: &mut [u8]) -> usize {
    plain::text(s, out).unwrap()
}

fn main() {
    let words: Vec<String> = std::env::args().collect();
    let byte = |k: usize| -> u8 { words[k].parse().unwrap() };
    let shape = Shape { kind: byte(1), degree: byte(2), second: byte(3) };
    let (Shape { kind, degree, second }, operation, vertex) = (shape, byte(4), byte(5));
    let s = if words.len() > 6 { records::zero_record(degree, byte(6)) } else { records::record(shape) };
    let point = records::point(kind);
    let weights = match (operation, kind) {
        (1, 3) => [1, 1, 0, 0],
        (1, _) => point,
        _ => [0; 4],
    };
    let (mut frame, mut coefficients) = ([0; 9], [0; PLACES]);
    assert_eq!(plain::read(&s, &mut frame, &mut coefficients).0, 0);

    let (mut lent, mut made) = ([0i64; NET], [0i64; NET]);
    let (mut found, mut out) = ([0i64; FOUND], [0u8; plain::LONGEST_TEXT]);
    let (mut offset, mut length) = (0u64, 0u64);
    let number = raw::open(&s, &mut lent, &mut offset)
        + raw::first(kind, degree, second, &frame, &coefficients, &mut made)
        + raw::point(&lent, point, &mut found)
        + raw::make_move(&mut lent, operation, vertex, weights)
        + raw::text(&s, &mut out, &mut length);
    assert_eq!(number, 0);

    let (mut net, mut first) = ([0i64; NET], [0i64; NET]);
    let (mut same, mut text) = ([0i64; FOUND], [0u8; plain::LONGEST_TEXT]);
    let mut layout = plain::Layout::default();
    let number = plain_open(black_box(&s), black_box(&mut net), &mut layout)
        + plain_first(black_box(shape), black_box(&frame), black_box(&coefficients), black_box(&mut first))
        + plain_point(black_box(&net), black_box(point), black_box(&mut same))
        + plain_move(black_box(&mut net), black_box(operation), black_box(vertex), black_box(weights));
    assert_eq!(number, 0);
    assert_eq!(plain_text(black_box(&s), black_box(&mut text)) as u64, length);

    assert_eq!(lent, net);
    assert_eq!(made, first);
    assert_eq!(found, same);
    assert_eq!(out, text);
}

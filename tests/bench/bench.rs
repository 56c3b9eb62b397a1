//! Times of the static library beside the plain Rust version, in one run: each row alternates the two
//! and takes the best of many rounds. The figure is the ratio of the two times.
#[allow(dead_code)]
mod plain;
mod records;

use gadwemosh::raw;
use plain::{Shape, FOUND, NET};
use records::{point, record, zero_record};
use std::fs::File;
use std::hint::black_box;
use std::process::{Command, Stdio};
use std::time::Instant;

/// The best time of a call in nanoseconds, of both, in turn.
fn both(mut ours: impl FnMut(), mut theirs: impl FnMut()) -> (f64, f64) {
    let mut best = (f64::MAX, f64::MAX);
    let turns = 2000;
    for _ in 0..60 {
        let t = Instant::now();
        for _ in 0..turns {
            ours();
        }
        best.0 = best.0.min(t.elapsed().as_nanos() as f64 / turns as f64);
        let t = Instant::now();
        for _ in 0..turns {
            theirs();
        }
        best.1 = best.1.min(t.elapsed().as_nanos() as f64 / turns as f64);
    }
    best
}

fn row(name: &str, t: (f64, f64)) {
    println!("{name:<28} {:>9.1} ns {:>9.1} ns   ratio {:.2}", t.0, t.1, t.0 / t.1);
}

/// A row for the point on a net, which both have.
fn point_row(name: &str, kind: u8, lent: &[i64; NET], net: &[i64; NET]) {
    let w = point(kind);
    let (mut f, mut g) = ([0i64; FOUND], [0i64; FOUND]);
    row(
        name,
        both(
            || {
                black_box(raw::point(black_box(lent), w, &mut f));
            },
            || {
                black_box(plain::point(black_box(net), black_box(w), &mut g));
            },
        ),
    );
    assert_eq!(f, g);
}

/// A row for a point that is a common zero of a curve of degree 10, of this order.
fn zero_row(order: u8) {
    let s = zero_record(10, order);
    let mut net = [0i64; NET];
    assert_eq!(raw::open(&s, &mut net, &mut 0), 0);
    point_row(&format!("point curve 10 zero {order}"), 1, &net, &net);
}

/// The mean time of a whole process on the circle record, in microseconds.
fn process(program: &str, record: &str) -> f64 {
    let turns = 400;
    let t = Instant::now();
    for _ in 0..turns {
        let input = File::open(record).unwrap();
        let status = Command::new(program).stdin(input).stdout(Stdio::null()).status().unwrap();
        assert!(status.success());
    }
    t.elapsed().as_micros() as f64 / turns as f64
}

fn main() {
    let words: Vec<String> = std::env::args().collect();
    println!("{:<28} {:>12} {:>12}", "", "library", "plain Rust");
    for (kind, degree, second) in [(1, 1, 0), (1, 3, 0), (1, 10, 0), (2, 1, 0), (2, 3, 0), (2, 8, 0), (3, 1, 1), (3, 3, 3), (3, 5, 5)] {
        let shape = Shape { kind, degree, second };
        let name = match kind {
            1 => format!("curve {degree}"),
            2 => format!("patch {degree}"),
            _ => format!("rect {degree} {second}"),
        };
        let s = record(shape);
        let (mut lent, mut net) = ([0i64; NET], [0i64; NET]);
        let mut offset = 0u64;
        let mut layout = plain::Layout::default();
        assert_eq!(raw::open(&s, &mut lent, &mut offset), 0);
        assert_eq!(plain::open(&s, &mut net, &mut layout), (0, 0));
        assert_eq!(lent, net);
        row(
            &format!("open {name}"),
            both(
                || {
                    black_box(raw::open(black_box(&s), &mut lent, &mut offset));
                },
                || {
                    black_box(plain::open(black_box(&s), &mut net, &mut layout));
                },
            ),
        );
        let (mut frame, mut coefficients) = ([0; 9], [0; plain::PLACES]);
        assert_eq!(plain::read(&s, &mut frame, &mut coefficients).0, 0);
        let mut made = net;
        row(
            &format!("first net {name}"),
            both(
                || {
                    black_box(raw::first(kind, degree, second, black_box(&frame), &coefficients, &mut lent));
                },
                || {
                    black_box(plain::first_of(shape, black_box(&frame), &coefficients, &mut made));
                },
            ),
        );
        assert_eq!(lent, made);
        let (mut a, mut b) = (lent, net);
        for vertex in 1..=kind + 1 {
            let mut w = [0; 4];
            w[if kind == 3 { (vertex - 1) % 2 } else { vertex - 1 } as usize] = 1;
            row(
                &format!("replace {name} vertex {vertex}"),
                both(
                    || {
                        black_box(raw::make_move(black_box(&mut a), raw::REPLACE, vertex, w));
                    },
                    || {
                        black_box(plain::replace(black_box(&mut b), vertex, black_box(w)));
                    },
                ),
            );
            assert_eq!(a, b);
        }
        point_row(&format!("point {name}"), kind, &lent, &net);
        let (mut o, mut p) = ([0u8; plain::LONGEST_TEXT], [0u8; plain::LONGEST_TEXT]);
        let mut n = 0u64;
        row(
            &format!("text {name}"),
            both(
                || {
                    black_box(raw::text(black_box(&s), &mut o, &mut n));
                },
                || {
                    black_box(plain::text(black_box(&s), &mut p));
                },
            ),
        );
        assert_eq!(o[..], p[..]);
    }
    zero_row(1);
    zero_row(10);
    if let [_, netprint, copy, record] = &words[..] {
        let (mut a, mut b) = (f64::MAX, f64::MAX);
        for _ in 0..5 {
            a = a.min(process(netprint, record));
            b = b.min(process(copy, record));
        }
        println!("{:<28} {a:>9.1} us {b:>9.1} us   ratio {:.2}   (netprint beside a C program that copies)", "process", a / b);
    }
}

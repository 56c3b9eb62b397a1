//! Splits a curve: reads its record from standard input, opens it, and makes its two halves at the weights
//! (1, 1), by replacing s in one copy of the net and r in another; each half has a line with the frame that
//! it has reached and one with its largest component. Then takes the record's own moves and finds its own
//! point. `tests/callers/circle.c` does the same in C.
//!
//! In this folder: `cargo run --example circle < ../crates/netprint/stdin`.

use gadwemosh::{Kind, Net, Projection, Record, Refused, Vertex};
use std::error::Error;
use std::io::Read;
use std::process::ExitCode;

fn print_net(name: &str, net: &Net) {
    println!("{name}");
    print!("frame");
    for number in net.frame() {
        print!(" {number}");
    }
    println!();
    for [x, y, z, w] in net.entries() {
        println!("{x} {y} {z} {w}");
    }
    println!("largest {}", net.largest());
}

/// A copy of the net with one vertex replaced by the point at (1, 1).
fn half(net: &Net, vertex: Vertex) -> Result<Net, Refused> {
    let mut copy = net.clone();
    copy.replace(vertex, [1, 1, 0, 0])?;
    Ok(copy)
}

/// Takes the record's own moves and finds its own point: its four components, and where it lies. At a common
/// zero the four are zeros, and it lies where the curve goes on.
fn print_own_point(record: &Record) -> Result<(), Refused> {
    let mut net = record.first_net().clone();
    for (number, own) in record.moves().into_iter().enumerate() {
        if let Err(refused) = net.take(own) {
            println!("move {}: refused {}", number + 1, refused.number());
        }
    }
    if let Some(weights) = record.point() {
        let found = net.point(weights)?;
        let [x, y, z, w] = found.components();
        println!("the record's own point\n{x} {y} {z} {w}");
        match found.project() {
            Projection::Finite([x, y, z]) => println!("at {x} {y} {z}"),
            Projection::Direction {
                vector: [x, y, z],
                length,
            } => println!("far {x} {y} {z} {length}"),
            Projection::Nowhere => println!("nowhere"),
        }
    }
    Ok(())
}

fn split() -> Result<(), Box<dyn Error>> {
    let mut bytes = Vec::new();
    std::io::stdin().read_to_end(&mut bytes)?;
    let record = Record::open(&bytes)?;
    let net = record.first_net();
    if net.kind() != Kind::Curve {
        return Err("not a curve".into());
    }
    let (first, second) = (half(net, Vertex::S)?, half(net, Vertex::R)?);
    print_net("first half", &first);
    print_net("second half", &second);
    if first.entries().last() != second.entries().next() {
        return Err("the halves do not meet".into());
    }
    println!("the shared end entry is equal");
    print_own_point(&record)?;
    Ok(())
}

fn main() -> ExitCode {
    match split() {
        Ok(()) => ExitCode::SUCCESS,
        Err(error) => {
            eprintln!("{error}");
            ExitCode::FAILURE
        }
    }
}

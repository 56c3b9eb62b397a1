//! Records damaged in every way.

use super::records::{encode, field, fields};
use crate::random::Random;
use crate::record::Record;

/// Every byte changed, in four ways each, and a cut at every length.
pub fn everywhere(bytes: &[u8]) -> Vec<Vec<u8>> {
    let mut list: Vec<Vec<u8>> = (0..bytes.len()).map(|length| bytes[..length].to_vec()).collect();
    for place in 0..bytes.len() {
        for change in [1, 0x80, 0xff, 4] {
            let mut copy = bytes.to_vec();
            copy[place] ^= change;
            list.push(copy);
        }
    }
    list
}

/// One damage out of all.
pub fn damaged(random: &mut Random, record: &Record) -> Vec<u8> {
    let mut bytes = encode(record);
    match random.below(15) {
        0 => change_a_byte(random, &mut bytes),
        1 => bytes.truncate(random.below(bytes.len() + 1)),
        2 => return rearranged(random, fields(record)),
        3 => return length_off(random, fields(record)),
        4 => return value_outside(random, fields(record)),
        5 => return frame_outside(random, record),
        6 => bytes.extend((0..1 + random.below(6)).map(|_| random.next() as u8)),
        7 => bytes = (0..random.below(80)).map(|_| random.next() as u8 % 6).collect(),
        8 => bytes.extend(vec![random.next() as u8; 2100]),
        9 => return with_empty_moves(record),
        10 => return many_moves(random, record),
        11 => return head_of_another_length(random, record),
        12 => return point_of_another_length(random, record),
        13 => return high_bits(random, fields(record)),
        _ => (0..1 + random.below(4)).for_each(|_| change_a_byte(random, &mut bytes)),
    }
    bytes
}

fn change_a_byte(random: &mut Random, bytes: &mut [u8]) {
    let place = random.below(bytes.len());
    let other = random.next() as u8;
    bytes[place] = random.pick(&[bytes[place] ^ 1, bytes[place].wrapping_add(1), bytes[place].wrapping_sub(1), 0, 255, other]);
}

/// Fields swapped, repeated, removed, or one of any tag put in between.
fn rearranged(random: &mut Random, mut list: Vec<Vec<u8>>) -> Vec<u8> {
    let (a, b) = (random.below(list.len()), random.below(list.len()));
    match random.below(4) {
        0 => list.swap(a, b),
        1 => list.insert(b, list[a].clone()),
        2 => drop(list.remove(a)),
        _ => {
            let tag = random.pick(&[0, 1, 2, 3, 4, 5, 6, 7, 128, 255]);
            let value = vec![0; random.pick(&[0, 0, 2, 4, 6, 8])];
            list.insert(random.below(list.len() + 1), field(tag, &value));
        }
    }
    list.concat()
}

/// A tag with bits that no tag has, or a length with bits that no length has; the value stays.
fn high_bits(random: &mut Random, mut list: Vec<Vec<u8>>) -> Vec<u8> {
    let place = random.below(list.len());
    let bits = 1 + random.next() as u8 % 31;
    if random.once_in(2) {
        list[place][0] |= random.pick(&[0x08, 0x10, 0x20, 0x40, 0x80, bits << 3]);
    } else {
        list[place][1] |= random.pick(&[0x04, 0x08, 0x10, 0x20, 0x40, 0x80, bits << 3]);
    }
    list.concat()
}

/// A length off by one or more; the value follows it or stays.
fn length_off(random: &mut Random, mut list: Vec<Vec<u8>>) -> Vec<u8> {
    let place = random.below(list.len());
    let old = list[place].len() - 3;
    let by = random.pick(&[-16, -8, -1, 1, 2, 8, 16, 256, 4096]);
    let new = (old as i64 + by).max(0) as usize;
    list[place][1..3].copy_from_slice(&(new as u16).to_be_bytes());
    if random.once_in(2) {
        list[place].resize(3 + new, 0);
    }
    list.concat()
}

/// A kind, degree, frame number or coefficient past its limits, just or by far.
fn value_outside(random: &mut Random, mut list: Vec<Vec<u8>>) -> Vec<u8> {
    match random.below(3) {
        0 => {
            let two = random.pick(&[[0, 2], [3, 2], [1, 0], [1, 11], [2, 0], [2, 9], [255, 1], [1, 255], [4, 1]]);
            let three = random.pick(&[[3, 0, 1], [3, 1, 0], [3, 6, 5], [3, 5, 6], [3, 255, 1], [4, 1, 1], [1, 2, 0], [2, 1, 2]]);
            list[0] = if random.once_in(2) { field(1, &two) } else { field(1, &three) };
        }
        1 => {
            let place = 3 + 2 * random.below((list[1].len() - 3) / 2);
            let number: i16 = random.pick(&[5, -5, 256, i16::MAX, i16::MIN, 4, -4]);
            list[1][place..place + 2].copy_from_slice(&number.to_be_bytes());
        }
        _ => {
            let place = 3 + 4 * random.below((list[2].len() - 3) / 4);
            let number: i32 = random.pick(&[1_048_577, -1_048_577, i32::MAX, i32::MIN, 1_048_576, -1_048_576]);
            list[2][place..place + 4].copy_from_slice(&number.to_be_bytes());
        }
    }
    list.concat()
}

/// Field 1 with a byte more or a byte less, so that its kind disagrees with its length, and
/// with other lengths. What follows is read by nobody.
fn head_of_another_length(random: &mut Random, record: &Record) -> Vec<u8> {
    let mut list = fields(record);
    let mut value = list[0][3..].to_vec();
    match random.below(4) {
        0 => value.truncate(random.below(3)),
        1 => value = vec![random.pick(&[1, 2, 3]); 4],
        _ if value.len() == 3 => drop(value.pop()),
        _ => value.push(random.pick(&[0, 0, 1, 5])),
    }
    list[0] = field(1, &value);
    list.concat()
}

/// A point with the weights of another kind, in 4, 6 or 8 bytes, or with none.
fn point_of_another_length(random: &mut Random, record: &Record) -> Vec<u8> {
    let mut bare = record.clone();
    bare.point = None;
    let mut list = fields(&bare);
    let value: Vec<u8> = (0..random.pick(&[0, 2, 4, 6, 8, 8, 10])).map(|place| place % 2).collect();
    list.push(field(5, &value));
    list.concat()
}

/// Determinant 0 in one group: a vertex that is a multiple of another, or the sum of the
/// others.
fn frame_outside(random: &mut Random, record: &Record) -> Vec<u8> {
    let mut flat = record.clone();
    let groups = record.shape.groups();
    let span = random.pick(&groups).span();
    let vertices = &mut flat.frame[span];
    let (first, last) = (vertices[0], vertices.len() - 1);
    let sign = random.sign();
    vertices[last] = if last == 2 && random.once_in(2) {
        let second = vertices[1];
        [0, 1, 2].map(|c| (first[c] + second[c]).clamp(-4, 4))
    } else {
        first.map(|number| sign * number)
    };
    encode(&flat)
}

/// Tag 4 present with no move in it, which is allowed.
fn with_empty_moves(record: &Record) -> Vec<u8> {
    let mut bare = record.clone();
    bare.moves.clear();
    let mut list = fields(&bare);
    list.insert(3, field(4, &[]));
    list.concat()
}

/// 32 moves of any bytes, or one too many.
fn many_moves(random: &mut Random, record: &Record) -> Vec<u8> {
    let mut bare = record.clone();
    bare.moves.clear();
    let many = random.pick(&[31, 32, 33]);
    let value: Vec<u8> = (0..8 * many).map(|_| random.next() as u8 % 4).collect();
    let mut list = fields(&bare);
    list.insert(3, field(4, &value));
    list.concat()
}

//! The package as a caller sees it. What the library itself answers is compared elsewhere
//! (`tests/compare`); here are the things that this package adds.

use gadwemosh::{
    project, raw, text, write_text, Components, Degrees, Field, Kind, Move, Net, Projection,
};
use gadwemosh::{Record, RecordRefused, Refused, Vertex, Weights};
use std::error::Error;

/// The circle of document 01, and its net.
const CIRCLE: [Components; 3] = [[1, 0, 0, 1], [0, 2, 0, 0], [-1, 0, 0, 1]];
const CIRCLE_NET: [Components; 3] = [[2, 0, 0, 2], [2, 2, 0, 2], [0, 4, 0, 4]];
const CIRCLE_FRAME: [i64; 4] = [0, 1, 1, 1];

/// The triangular patch of sample B8, Z², VZ, V², UZ, UV, U², and its net.
const PATCH: [Components; 6] = [
    [0, 0, 0, 1],
    [0, 1, 0, 0],
    [0, 0, 0, 0],
    [1, 0, 0, 0],
    [0, 0, 1, 0],
    [0, 0, 0, 0],
];
const PATCH_NET: [Components; 6] = [
    [2, 0, 0, 2],
    [1, 1, 1, 2],
    [1, 0, 0, 2],
    [0, 2, 0, 2],
    [0, 1, 0, 2],
    [0, 0, 0, 2],
];
const PATCH_FRAME: [i64; 9] = [1, 0, 1, 0, 1, 1, 0, 0, 1];

/// The rectangular patch x = T₁²Z₂, y = T₁Z₁T₂, z = Z₁²T₂, w = Z₁²Z₂, and its net. The monomials of its
/// degrees, 2 and 1, are Z₁²Z₂, Z₁²T₂, T₁Z₁Z₂, T₁Z₁T₂, T₁²Z₂, T₁²T₂.
const RECT: [Components; 6] = [
    [0, 0, 0, 1],
    [0, 0, 1, 0],
    [0, 0, 0, 0],
    [0, 1, 0, 0],
    [1, 0, 0, 0],
    [0, 0, 0, 0],
];
const RECT_NET: [Components; 6] = [
    [0, 0, 2, 2],
    [0, 0, -2, 4],
    [0, 1, 2, 2],
    [0, -1, -2, 4],
    [2, 2, 2, 2],
    [4, -2, -2, 4],
];
const RECT_FRAME: [i64; 8] = [0, 1, 1, 1, 1, 1, -1, 2];

/// The largest number of a net, of its frame or of a point.
const LARGEST: i64 = 1 << 48;

fn circle() -> Net {
    Net::first(Kind::Curve, 2, &CIRCLE_FRAME, &CIRCLE).unwrap()
}

fn patch() -> Net {
    Net::first(Kind::Triangular, 2, &PATCH_FRAME, &PATCH).unwrap()
}

fn rect() -> Net {
    Net::first(Kind::Rectangular, [2, 1], &RECT_FRAME, &RECT).unwrap()
}

/// The components of the point at the weights.
fn components(net: &Net, weights: Weights) -> Result<Components, Refused> {
    net.point(weights).map(|found| found.components())
}

/// The numbers projected at the weights, where the components are four zeros.
fn left(net: &Net, weights: Weights) -> Components {
    let found = net.point(weights).unwrap();
    assert_eq!(found.components(), [0; 4]);
    found.projected()
}

/// A record: the fields of kind and frame, that of the coefficients, and further ones.
fn record_of(kind_and_frame: &[u8], coefficients: &[Components], further: &[u8]) -> Vec<u8> {
    let mut record = kind_and_frame.to_vec();
    record.extend([3, 0, 16 * coefficients.len() as u8]);
    for number in coefficients.as_flattened() {
        record.extend((*number as i32).to_be_bytes());
    }
    record.extend(further);
    record
}

/// The circle's record with further fields.
fn circle_record(further: &[u8]) -> Vec<u8> {
    let kind_and_frame = [1, 0, 2, 1, 2, 2, 0, 8, 0, 0, 0, 1, 0, 1, 0, 1];
    record_of(&kind_and_frame, &CIRCLE, further)
}

/// The rectangular patch's record with further fields.
fn rect_record(further: &[u8]) -> Vec<u8> {
    let mut kind_and_frame = vec![1, 0, 3, 3, 2, 1, 2, 0, 16];
    for number in RECT_FRAME {
        kind_and_frame.extend((number as i16).to_be_bytes());
    }
    record_of(&kind_and_frame, &RECT, further)
}

#[test]
fn both_halves_of_the_circle() {
    let net = Net::open(&circle_record(&[])).unwrap();
    assert_eq!(net, circle());
    let (mut first, mut second) = (net.clone(), net);
    first.replace(Vertex::S, [1, 1, 0, 0]).unwrap();
    second.replace(Vertex::R, [1, 1, 0, 0]).unwrap();
    let halves = [
        [[2, 0, 0, 2], [4, 2, 0, 4], [6, 8, 0, 10]],
        [[6, 8, 0, 10], [2, 6, 0, 6], [0, 4, 0, 4]],
    ];
    assert!(first.entries().eq(halves[0]) && second.entries().eq(halves[1]));
    assert_eq!(first.entries().next_back(), second.entries().next());
    // they meet at r + s = (1, 2)
    assert_eq!(first.frame(), [0, 1, 1, 2]);
    assert_eq!(second.frame(), [1, 2, 1, 1]);
    first.flip(Vertex::R).unwrap();
    assert_eq!(first.entries().nth(1), Some([-4, -2, 0, -4]));
    assert_eq!(first.frame(), [0, -1, 1, 2]);
}

#[test]
fn a_net_from_numbers() {
    let patch = patch();
    assert_eq!(
        (patch.kind(), patch.degrees()),
        (Kind::Triangular, 2.into())
    );
    assert_eq!(patch.frame(), PATCH_FRAME);
    assert!(patch.entries().eq(PATCH_NET));
    assert_eq!(components(&patch, [1, 1, 1, 0]), Ok([6, 6, 2, 18]));
    assert_eq!(
        patch.places()[..16],
        [2, 2, 0, 1, 0, 1, 0, 1, 1, 0, 0, 1, 2, 0, 0, 2]
    );

    // fewer numbers than are in use are refused, and further ones are not looked at
    let short = Err(Refused::SHORT);
    assert_eq!(
        Net::first(Kind::Triangular, 2, &PATCH_FRAME[..8], &PATCH),
        short
    );
    assert_eq!(
        Net::first(Kind::Triangular, 2, &PATCH_FRAME, &PATCH[..5]),
        short
    );
    let (frame, mut further) = ([0, 1, 1, 1, i64::MAX], CIRCLE.to_vec());
    further.push([i64::MIN; 4]);
    let circle = Net::first(Kind::Curve, 2, &frame, &further).unwrap();
    assert_eq!(circle.frame(), CIRCLE_FRAME);
    assert!(circle.entries().eq(CIRCLE_NET));
    // what the kind does not use of the frame's places is 0
    assert_eq!(circle.places()[..12], [1, 2, 0, 0, 1, 1, 1, 0, 0, 0, 0, 0]);

    let ones = [[1; 4]; 45];
    for (kind, frame) in [
        (Kind::Curve, &CIRCLE_FRAME[..]),
        (Kind::Triangular, &PATCH_FRAME),
    ] {
        for degree in 1..=kind.largest_degree() {
            let net = Net::first(kind, degree, frame, &ones).unwrap();
            assert_eq!(Some(net.entries().len()), kind.entries(degree));
            assert_eq!(net.frame(), frame);
        }
        for degree in [0, kind.largest_degree() + 1, 255] {
            assert_eq!(Net::first(kind, degree, frame, &ones), Err(Refused::KIND));
        }
    }
}

#[test]
fn a_rectangular_patch_from_numbers() {
    let net = rect();
    assert_eq!(net.kind(), Kind::Rectangular);
    assert_eq!(net.degrees(), Degrees::from([2, 1]));
    assert_eq!(net.frame(), RECT_FRAME);
    assert!(net.entries().eq(RECT_NET));
    assert_eq!(net.places()[..12], [3, 2, 1, 0, 1, 1, 1, 1, 1, -1, 2, 0]);
    assert_eq!(components(&net, [1, 2, 3, -1]), Ok([8, 48, 72, 18]));

    let make = |degrees: [u8; 2], frame: &[i64], coefficients: &[Components]| {
        Net::first(Kind::Rectangular, degrees, frame, coefficients)
    };
    let further = [&RECT_FRAME[..], &[i64::MIN]].concat();
    assert_eq!(make([2, 1], &further, &RECT), Ok(net));
    assert_eq!(make([2, 1], &RECT_FRAME[..7], &RECT), Err(Refused::SHORT));
    assert_eq!(make([2, 1], &RECT_FRAME, &RECT[..5]), Err(Refused::SHORT));
    // determinant 0 in the first pair, and in the second
    for flat in [[1, 2, 2, 4, 0, 1, 1, 1], [0, 1, 1, 1, 1, 2, 2, 4]] {
        assert_eq!(make([2, 1], &flat, &RECT), Err(Refused::FRAME));
    }
    let far = make([5, 5], &[4, 3, 4, 4, 4, 3, 4, 4], &[[1 << 20; 4]; 36]);
    assert_eq!(far, Err(Refused::FIRST_NET));
}

#[test]
fn two_degrees() {
    let ones = [[1; 4]; 49];
    for p in 0..=6 {
        for q in 0..=6 {
            let made = Net::first(Kind::Rectangular, [p, q], &RECT_FRAME, &ones);
            let of_entries = Net::of_entries(Kind::Rectangular, [p, q], &RECT_FRAME, &ones);
            if (1..=5).contains(&p) && (1..=5).contains(&q) {
                let count = usize::from(p + 1) * usize::from(q + 1);
                assert_eq!(made.unwrap().entries().len(), count);
                assert_eq!(of_entries.unwrap().entries().len(), count);
            } else {
                assert_eq!(made, Err(Refused::KIND));
                assert_eq!(of_entries, Err(Refused::KIND));
            }
        }
    }
    // the other kinds have one degree
    let curve = Net::first(Kind::Curve, [2, 1], &CIRCLE_FRAME, &CIRCLE);
    assert_eq!(curve, Err(Refused::KIND));
    let patch = Net::of_entries(Kind::Triangular, [2, 1], &PATCH_FRAME, &PATCH_NET);
    assert_eq!(patch, Err(Refused::KIND));
}

#[test]
fn moves_in_each_pair() {
    let moved = |make: fn(&mut Net) -> Result<(), Refused>, frame: [i64; 8]| {
        let mut net = rect();
        make(&mut net).unwrap();
        assert_eq!(net.frame(), frame);
        net.entries().collect::<Vec<_>>()
    };
    // s1 becomes r1 + s1, and r2 becomes 2 r2 - s2
    assert_eq!(
        moved(
            |net| net.replace(Vertex::S1, [1, 1, 0, 0]),
            [0, 1, 1, 2, 1, 1, -1, 2]
        ),
        [
            [0, 0, 2, 2],
            [0, 0, -2, 4],
            [0, 1, 4, 4],
            [0, -1, -4, 8],
            [2, 4, 8, 8],
            [4, -4, -8, 16],
        ]
    );
    assert_eq!(
        moved(
            |net| net.replace(Vertex::R2, [2, -1, 0, 0]),
            [0, 1, 1, 1, 3, 0, -1, 2]
        ),
        [
            [0, 0, 6, 0],
            [0, 0, -2, 4],
            [0, 3, 6, 0],
            [0, -1, -2, 4],
            [0, 6, 6, 0],
            [4, -2, -2, 4],
        ]
    );
    // a flip changes the sign of the vertex, and of the entries that have an odd number of copies of it
    let signs_changed = |odd: &[usize]| {
        let mut net = RECT_NET;
        for &entry in odd {
            net[entry] = net[entry].map(|number| -number);
        }
        net
    };
    assert_eq!(
        moved(|net| net.flip(Vertex::R1), [0, -1, 1, 1, 1, 1, -1, 2]),
        signs_changed(&[2, 3])
    );
    assert_eq!(
        moved(|net| net.flip(Vertex::S1), [0, 1, -1, -1, 1, 1, -1, 2]),
        signs_changed(&[2, 3])
    );
    assert_eq!(
        moved(|net| net.flip(Vertex::R2), [0, 1, 1, 1, -1, -1, -1, 2]),
        signs_changed(&[0, 2, 4])
    );
    assert_eq!(
        moved(|net| net.flip(Vertex::S2), [0, 1, 1, 1, 1, 1, 1, -2]),
        signs_changed(&[1, 3, 5])
    );
}

/// A triangular patch's frame along a list of calls: moves that are taken, refused ones and a point.
#[test]
fn the_frame_along_a_list() {
    let mut net = patch();
    net.replace(Vertex::T, [1, 2, 3, 0]).unwrap();
    // r + 2s + 3t = (1, 0, 1) + (0, 2, 2) + (0, 0, 3)
    assert_eq!(net.frame(), [1, 0, 1, 0, 1, 1, 1, 2, 6]);
    net.flip(Vertex::S).unwrap();
    assert_eq!(net.frame(), [1, 0, 1, 0, -1, -1, 1, 2, 6]);
    assert_eq!(
        net.replace(Vertex::T, [1, 1, 0, 0]),
        Err(Refused::NO_WEIGHT)
    );
    assert_eq!(net.flip(Vertex::R1), Err(Refused::ARGUMENT));
    assert!(net.point([1, 1, 1, 0]).is_ok());
    assert_eq!(net.frame(), [1, 0, 1, 0, -1, -1, 1, 2, 6]);
    // the weights are those of the frame reached: (1, 0, 1) - (0, -1, -1) + (1, 2, 6)
    net.replace(Vertex::R, [1, -1, 1, 0]).unwrap();
    assert_eq!(net.frame(), [2, 3, 8, 0, -1, -1, 1, 2, 6]);

    // another way to the same frame, and to the same net
    let mut other = patch();
    other.flip(Vertex::S).unwrap();
    other.replace(Vertex::T, [1, -2, 3, 0]).unwrap();
    other.flip(Vertex::R).unwrap();
    other.replace(Vertex::R, [-1, -1, 1, 0]).unwrap();
    assert_eq!(other, net);
}

#[test]
fn refused_calls_on_a_rectangular_patch() {
    let mut net = rect();
    for vertex in [Vertex::R, Vertex::S, Vertex::T] {
        assert_eq!(net.flip(vertex), Err(Refused::ARGUMENT));
        assert_eq!(net.replace(vertex, [1, 1, 0, 0]), Err(Refused::ARGUMENT));
    }
    for vertex in [Vertex::S1, Vertex::S2] {
        for weights in [[1, 1, 1, 0], [1, 1, 0, 1], [4097, 1, 0, 0]] {
            assert_eq!(net.replace(vertex, weights), Err(Refused::ARGUMENT));
        }
        assert_eq!(net.replace(vertex, [1, 0, 0, 0]), Err(Refused::NO_WEIGHT));
    }
    // a weight outside is judged before a pair without weight
    assert_eq!(net.point([0, 0, 1, 4097]), Err(Refused::ARGUMENT));
    for weights in [[0, 0, 1, 1], [1, 1, 0, 0], [0; 4]] {
        assert_eq!(net.point(weights), Err(Refused::NO_WEIGHT));
    }
    assert_eq!(net, rect());

    let mut entries = [[0; 4]; 6];
    entries[5][3] = LARGEST;
    let large = Net::of_entries(Kind::Rectangular, [2, 1], &RECT_FRAME, &entries).unwrap();
    let mut moved = large.clone();
    assert_eq!(moved.replace(Vertex::S2, [0, 2, 0, 0]), Err(Refused::RANGE));
    assert_eq!(moved, large);
    entries[5][3] += 1;
    let beyond = Net::of_entries(Kind::Rectangular, [2, 1], &RECT_FRAME, &entries);
    assert_eq!(beyond, Err(Refused::RANGE));
}

/// A vertex of another kind is refused, though its number may be that of a vertex here.
#[test]
fn vertices_of_other_kinds() {
    for mut net in [circle(), patch()] {
        for vertex in [Vertex::R1, Vertex::S1, Vertex::R2, Vertex::S2] {
            assert_eq!(net.flip(vertex), Err(Refused::ARGUMENT));
        }
        assert_eq!(net.replace(Vertex::S, [1, 1, 0, 1]), Err(Refused::ARGUMENT));
        assert_eq!(net.point([1, 1, 0, 1]), Err(Refused::ARGUMENT));
    }
    for kind in [Kind::Curve, Kind::Triangular, Kind::Rectangular] {
        let numbers: Vec<_> = kind.vertices().iter().map(|v| v.number()).collect();
        assert_eq!(numbers, [1, 2, 3, 4][..numbers.len()]);
        assert_eq!(kind.frame_numbers(), numbers.len() * kind.coordinates());
    }
}

#[test]
fn a_net_from_its_frame_and_entries() {
    let rectangular = Net::of_entries(Kind::Rectangular, [2, 1], &RECT_FRAME, &RECT_NET);
    assert_eq!(rectangular, Ok(rect()));
    let curve = |frame: &[i64], entries: &[Components]| {
        let degree = entries.len() as u8 - 1;
        Net::of_entries(Kind::Curve, degree, frame, entries)
    };
    assert_eq!(curve(&CIRCLE_FRAME, &CIRCLE_NET), Ok(circle()));
    assert_eq!(
        Net::of_entries(Kind::Triangular, 2, &PATCH_FRAME, &PATCH_NET),
        Ok(patch())
    );
    assert!(curve(&CIRCLE_FRAME, &[[LARGEST; 4], [-LARGEST; 4]]).is_ok());
    for outside in [LARGEST + 1, -LARGEST - 1, i64::MIN] {
        let entries = [[0; 4], [0, 0, 0, outside]];
        assert_eq!(curve(&CIRCLE_FRAME, &entries), Err(Refused::RANGE));
    }
    let of =
        |kind, degree, entries: &[Components]| Net::of_entries(kind, degree, &PATCH_FRAME, entries);
    assert_eq!(of(Kind::Curve, 3, &CIRCLE_NET), Err(Refused::SHORT));
    assert_eq!(of(Kind::Curve, 0, &CIRCLE_NET), Err(Refused::KIND));
    assert_eq!(of(Kind::Triangular, 9, &[[0; 4]; 55]), Err(Refused::KIND));

    // fewer numbers of a frame than the kind has are refused, and further ones are not looked at
    assert_eq!(curve(&CIRCLE_FRAME[..3], &CIRCLE_NET), Err(Refused::SHORT));
    assert_eq!(curve(&[], &CIRCLE_NET), Err(Refused::SHORT));
    let further = [0, 1, 1, 1, i64::MIN];
    assert_eq!(curve(&further, &CIRCLE_NET), Ok(circle()));
}

/// A frame that is handed over is taken as it is: no determinant is asked for, and no number is too large but
/// one beyond 2 to the 48th.
#[test]
fn a_handed_frame_is_taken_as_it_is() {
    for frame in [[0; 4], [1, 2, 2, 4], [LARGEST, -LARGEST, 5, -7]] {
        let mut net = Net::of_entries(Kind::Curve, 2, &frame, &CIRCLE_NET).unwrap();
        assert_eq!(net.frame(), frame);
        net.flip(Vertex::R).unwrap();
        assert_eq!(net.frame(), [-frame[0], -frame[1], frame[2], frame[3]]);
        assert!(net
            .entries()
            .eq([[2, 0, 0, 2], [-2, -2, 0, -2], [0, 4, 0, 4]]));
    }
    let entries = [[0; 4]; 6];
    let of =
        |kind, degrees: Degrees, frame: &[i64]| Net::of_entries(kind, degrees, frame, &entries);
    for (kind, degrees) in [
        (Kind::Curve, 2.into()),
        (Kind::Triangular, 2.into()),
        (Kind::Rectangular, [2, 1].into()),
    ] {
        for place in 0..kind.frame_numbers() {
            let mut frame = [0; 9];
            for inside in [LARGEST, -LARGEST] {
                frame[place] = inside;
                assert!(of(kind, degrees, &frame).is_ok());
            }
            for outside in [LARGEST + 1, -LARGEST - 1, i64::MAX, i64::MIN] {
                frame[place] = outside;
                assert_eq!(of(kind, degrees, &frame), Err(Refused::FRAME_RANGE));
            }
        }
    }
    // an entry is judged before the frame
    let entries = [[0; 4], [0, 0, LARGEST + 1, 0]];
    let both = Net::of_entries(Kind::Curve, 1, &[i64::MIN; 4], &entries);
    assert_eq!(both, Err(Refused::RANGE));
}

/// The zero curve's frame grows until it is refused, 12, while no polar value does.
#[test]
fn a_new_vertex_beyond_the_limit() {
    let mut net = Net::first(Kind::Curve, 2, &CIRCLE_FRAME, &[[0; 4]; 3]).unwrap();
    for _ in 0..4 {
        net.replace(Vertex::S, [0, -4096, 0, 0]).unwrap();
    }
    assert_eq!(net.frame(), [0, 1, LARGEST, LARGEST]);
    let before = net.clone();
    // s + r has 1 more in its second number only
    for weights in [[1, 1, 0, 0], [-1, -1, 0, 0], [0, 2, 0, 0]] {
        assert_eq!(net.replace(Vertex::S, weights), Err(Refused::FRAME_RANGE));
    }
    assert_eq!(
        net.replace(Vertex::R, [1, 1, 0, 0]),
        Err(Refused::FRAME_RANGE)
    );
    // a weight outside, and a vertex without weight, are judged before
    assert_eq!(
        net.replace(Vertex::S, [0, 4097, 0, 0]),
        Err(Refused::ARGUMENT)
    );
    assert_eq!(
        net.replace(Vertex::R, [0, 2, 0, 0]),
        Err(Refused::NO_WEIGHT)
    );
    assert_eq!(net, before);
    // the parameter point of a point is not judged
    assert_eq!(components(&net, [0, 4096, 0, 0]), Ok([0; 4]));
    // 2 to the 48th itself passes, of either sign
    net.replace(Vertex::S, [0, -1, 0, 0]).unwrap();
    net.flip(Vertex::S).unwrap();
    assert_eq!(net, before);
    // only the sum is judged, and not its parts: 4096 r is far beyond, 4096 r + 4096 s is (0, 4096)
    net.replace(Vertex::S, [-4096, 1, 0, 0]).unwrap();
    net.replace(Vertex::R, [1, -1, 0, 0]).unwrap();
    assert_eq!(
        net.frame(),
        [-LARGEST, 4097 - LARGEST, LARGEST, LARGEST - 4096]
    );
    net.replace(Vertex::R, [4096, 4096, 0, 0]).unwrap();
    assert_eq!(net.frame(), [0, 4096, LARGEST, LARGEST - 4096]);

    // 12 comes before the size
    let large = [[LARGEST; 4], [0; 4]];
    let of = |first: i64| Net::of_entries(Kind::Curve, 1, &[first, 0, 0, 1], &large).unwrap();
    let twice = |mut net: Net| net.replace(Vertex::R, [2, 0, 0, 0]);
    assert_eq!(twice(of(LARGEST / 2)), Err(Refused::RANGE));
    assert_eq!(twice(of(LARGEST / 2 + 1)), Err(Refused::FRAME_RANGE));
}

/// A lent net may have any frame: every call on one with a number beyond 2 to the 48th is 12.
#[test]
fn a_lent_frame_beyond_the_limit() {
    let mut lent = rect().places().to_vec();
    lent[raw::FRAME_PLACE + 7] = i64::MIN;
    let before = lent.clone();
    let mut found = [5; raw::FOUND];
    let number = Refused::FRAME_RANGE.number();
    assert_eq!(raw::make_move(&mut lent, raw::REPLACE, 1, [1; 4]), 8);
    assert_eq!(raw::make_move(&mut lent, raw::REPLACE, 1, [0, 1, 0, 0]), 9);
    assert_eq!(
        raw::make_move(&mut lent, raw::REPLACE, 1, [1, 1, 0, 0]),
        number
    );
    for vertex in 1..=4 {
        assert_eq!(raw::make_move(&mut lent, raw::FLIP, vertex, [0; 4]), number);
    }
    assert_eq!(raw::point(&lent, [1, 1, 0, 0], &mut found), 9);
    assert_eq!(raw::point(&lent, [1, 1, 1, 1], &mut found), number);
    assert_eq!((lent, found), (before, [5; raw::FOUND]));
}

/// The frame is part of a net: it tells nets apart, and is shown with them.
#[test]
fn frames_are_compared_and_shown() {
    let other = Net::of_entries(Kind::Curve, 2, &[0, 1, 1, -1], &CIRCLE_NET).unwrap();
    assert_ne!(other, circle());
    assert!(other.entries().eq(circle().entries()));
    assert_eq!(
        format!("{other:?}"),
        "Net { kind: Curve, degrees: Degrees { first: 2, second: 0 }, frame: [0, 1, 1, -1], \
         entries: [[2, 0, 0, 2], [2, 2, 0, 2], [0, 4, 0, 4]], largest: 4 }"
    );
}

/// The largest absolute number of a net's entries.
fn largest_of(net: &Net) -> i64 {
    let numbers = net.entries().flatten().collect::<Vec<_>>();
    numbers.into_iter().map(i64::abs).max().unwrap()
}

/// Every net of this package has its largest component, however it was made and moved.
#[test]
fn the_largest_component_along_a_list() {
    let record = Net::open(&rect_record(&[])).unwrap();
    for (mut net, largest) in [(circle(), 4), (patch(), 2), (rect(), 4), (record, 4)] {
        assert_eq!(net.largest(), largest);
        assert_eq!(net.places()[raw::LARGEST_PLACE], largest);
        for (n, &vertex) in net.kind().vertices().iter().cycle().take(12).enumerate() {
            let before = net.largest();
            net.flip(vertex).unwrap();
            assert_eq!(net.largest(), before);
            // a pair has two weights, and so has a curve
            let seats = if net.kind() == Kind::Triangular { 3 } else { 2 };
            let own = (usize::from(vertex.number()) - 1) % seats;
            let mut weights = [0; 4];
            weights[(own + 1) % seats] = n as i64 % 5 - 2;
            assert_eq!(net.replace(vertex, weights), Err(Refused::NO_WEIGHT));
            assert_eq!(net.largest(), before);
            weights[own] = 2;
            net.replace(vertex, weights).unwrap();
            assert_eq!(net.largest(), largest_of(&net));
        }
    }
    // it falls, too: r + s has -1 in the place of -8
    let entries = [[-8, 0, 0, 1], [7, -2, 0, 1]];
    let mut net = Net::of_entries(Kind::Curve, 1, &CIRCLE_FRAME, &entries).unwrap();
    assert_eq!(net.largest(), 8);
    net.replace(Vertex::R, [1, 1, 0, 0]).unwrap();
    assert!(net.entries().eq([[-1, -2, 0, 2], [7, -2, 0, 1]]));
    assert_eq!(net.largest(), 7);
}

/// A net made from entries has it too, at both ends of the range and with a number of either sign.
#[test]
fn the_largest_component_of_a_net_from_entries() {
    let of = |entries: &[Components]| {
        let degree = entries.len() as u8 - 1;
        Net::of_entries(Kind::Curve, degree, &CIRCLE_FRAME, entries)
    };
    assert_eq!(of(&[[0; 4]; 11]).unwrap().largest(), 0);
    assert_eq!(of(&CIRCLE_NET).unwrap().largest(), 4);
    for large in [5, -5, LARGEST, -LARGEST] {
        for place in 0..8 {
            let mut entries = [[3, -3, 0, 1]; 2];
            entries[place / 4][place % 4] = large;
            let net = of(&entries).unwrap();
            assert_eq!(net.largest(), large.abs());
            assert_eq!(net.largest(), largest_of(&net));
        }
    }
    // further entries are not looked at
    let further = [[1; 4], [2; 4], [i64::MIN; 4]];
    let net = Net::of_entries(Kind::Curve, 1, &CIRCLE_FRAME, &further);
    assert_eq!(net.unwrap().largest(), 2);
}

/// A lent net may claim any number: a replace puts the right one there, a flip hands it on, and the rest leaves it.
#[test]
fn a_lent_net_claims_any_number() {
    for claim in [0, 3, 4, 5, -4, LARGEST + 1, i64::MAX, i64::MIN] {
        let mut lent = circle().places().to_vec();
        lent[raw::LARGEST_PLACE] = claim;
        let before = lent.clone();
        let mut found = [5; raw::FOUND];
        assert_eq!(raw::make_move(&mut lent, raw::REPLACE, 1, [0, 1, 0, 0]), 9);
        assert_eq!(raw::make_move(&mut lent, raw::FLIP, 1, [0, 1, 0, 0]), 8);
        assert_eq!(raw::point(&lent, [1, 1, 0, 0], &mut found), 0);
        assert_eq!((&lent, found), (&before, [6, 8, 0, 10, 6, 8, 0, 10]));
        assert_eq!(raw::make_move(&mut lent, raw::FLIP, 1, [0; 4]), 0);
        assert_eq!(lent[raw::LARGEST_PLACE], claim);
        assert_eq!(raw::make_move(&mut lent, raw::FLIP, 1, [0; 4]), 0);
        assert_eq!(lent, before);
        assert_eq!(raw::make_move(&mut lent, raw::REPLACE, 1, [1, 0, 0, 0]), 0);
        assert_eq!(lent, circle().places());
        lent[raw::LARGEST_PLACE] = claim;
        let (frame, mut coefficients) = ([0, 1, 1, 1, 0, 0, 0, 0, 0], [0; raw::COEFFICIENTS]);
        coefficients[..12].copy_from_slice(CIRCLE.as_flattened());
        assert_eq!(raw::first(1, 2, 1, &frame, &coefficients, &mut lent), 4);
        assert_eq!(lent, before);
        assert_eq!(raw::first(1, 2, 0, &frame, &coefficients, &mut lent), 0);
        assert_eq!(lent, circle().places());
    }
}

#[test]
fn refused_calls_change_nothing() {
    let mut net = circle();
    let unknown = Move {
        operation: 3,
        vertex: 1,
        weights: [1, 1, 0, 0],
    };
    assert_eq!(net.take(unknown), Err(Refused::ARGUMENT));
    assert_eq!(net.replace(Vertex::T, [1, 1, 0, 0]), Err(Refused::ARGUMENT));
    assert_eq!(
        net.replace(Vertex::S, [1, 4097, 0, 0]),
        Err(Refused::ARGUMENT)
    );
    assert_eq!(
        net.replace(Vertex::S, [1, 0, 0, 0]),
        Err(Refused::NO_WEIGHT)
    );
    assert_eq!(net.point([0; 4]), Err(Refused::NO_WEIGHT));
    assert_eq!(net, circle());
    let large = [[LARGEST; 4], [0; 4]];
    let mut large = Net::of_entries(Kind::Curve, 1, &CIRCLE_FRAME, &large).unwrap();
    let before = large.clone();
    assert_eq!(large.replace(Vertex::R, [2, 0, 0, 0]), Err(Refused::RANGE));
    assert_eq!(large, before);

    let at = |refused, offset| Err(RecordRefused { refused, offset });
    assert_eq!(Net::open(&[]), at(Refused::TAG, 0));
    assert_eq!(Net::open(&circle_record(&[5])), at(Refused::CUT_SHORT, 67));
    assert_eq!(
        Net::open(&circle_record(&[4, 0, 7])),
        at(Refused::LENGTH, 67)
    );
    let mut record = circle_record(&[]);
    record[4] = 11;
    assert_eq!(Net::open(&record), at(Refused::KIND, 0));
    record[4] = 2;
    record[11] = 5;
    assert_eq!(Net::open(&record), at(Refused::FRAME, 5));
    record[11] = 1;
    record[19] = 1;
    assert_eq!(Net::open(&record), at(Refused::COEFFICIENT, 16));
    let coefficients = [[1 << 20; 4]; 11];
    let far = Net::first(Kind::Curve, 10, &[4, 3, 4, 4], &coefficients);
    assert_eq!(far, Err(Refused::FIRST_NET));
}

/// The second example of docs/RECORDS.md: a move taken, a move refused, a point.
#[test]
fn a_record_with_moves_of_its_own() {
    let moves = [1, 2, 0, 1, 0, 1, 0, 0, 1, 1, 0, 0, 0, 1, 0, 0];
    let further = [&[4, 0, 16][..], &moves, &[5, 0, 4, 0, 1, 0xff, 0xff]].concat();
    let bytes = circle_record(&further);
    let record = Record::open(&bytes).unwrap();
    assert_eq!(record.first_net(), &circle());
    assert_eq!(record.field(Field::Kind), [1, 2]);
    assert_eq!(record.field(Field::Frame), [0, 0, 0, 1, 0, 1, 0, 1]);
    assert_eq!(record.field(Field::Coefficients), &bytes[19..67]);
    assert_eq!(
        record.field(Field::Moves).as_ptr_range(),
        bytes[70..86].as_ptr_range()
    );

    let mut net = record.first_net().clone();
    let taken: Vec<_> = record
        .moves()
        .into_iter()
        .map(|own| net.take(own))
        .collect();
    assert_eq!(taken, [Ok(()), Err(Refused::NO_WEIGHT)]);
    assert!(net
        .entries()
        .eq([[2, 0, 0, 2], [4, 2, 0, 4], [6, 8, 0, 10]]));
    assert_eq!(net.frame(), [0, 1, 1, 2]);
    assert_eq!(record.point(), Some([1, -1, 0, 0]));
    let found = net.point([1, -1, 0, 0]).unwrap();
    assert_eq!(found.project(), Projection::Finite([0.0, 1.0, 0.0]));
    assert_eq!(found.projected(), found.components());
    let lines = "curve 2 2\nmove 2 refused 9\nframe 0 1 1 2\n0 2 0 0 2\n1 4 2 0 4\n2 6 8 0 10\n\
                 at 0000000000000000 3ff0000000000000 0000000000000000\n";
    assert_eq!(text(&bytes), lines);
    let mut out = [b'-'; 200];
    assert_eq!(write_text(&bytes, &mut out), Ok(lines.len()));
    assert_eq!(out[lines.len()], b'-');
    out.fill(b'-');
    let short = &mut out[..lines.len() - 1];
    assert_eq!(write_text(&bytes, short), Err(Refused::SHORT));
    assert_eq!(out, [b'-'; 200]);

    let bare = circle_record(&[]);
    let record = Record::open(&bare).unwrap();
    assert_eq!((record.moves(), record.point()), (Vec::new(), None));
    assert_eq!(
        record.field(Field::Point).as_ptr_range().end,
        bare.as_ptr_range().end
    );
    assert_eq!(text(&bare[..40]), "refused 1 at 16\n");
}

/// A rectangular patch with a move in each pair, of which the second is refused, and a point.
#[test]
fn the_record_of_a_rectangular_patch() {
    let moves = [1, 2, 0, 1, 0, 1, 0, 0, 1, 3, 0, 0, 0, 1, 0, 0];
    let point = [5, 0, 8, 0, 1, 0xff, 0xff, 0, 2, 0, 1];
    let bytes = rect_record(&[&[4, 0, 16][..], &moves, &point].concat());
    let record = Record::open(&bytes).unwrap();
    assert_eq!(record.first_net(), &rect());
    assert_eq!(record.field(Field::Kind), [3, 2, 1]);
    assert_eq!(record.field(Field::Frame), &bytes[9..25]);
    let own: Vec<_> = record
        .moves()
        .iter()
        .map(|own| (own.vertex, own.weights))
        .collect();
    assert_eq!(own, [(2, [1, 1, 0, 0]), (3, [0, 1, 0, 0])]);
    assert_eq!(record.point(), Some([1, -1, 2, 1]));

    let mut net = record.first_net().clone();
    let taken: Vec<_> = record
        .moves()
        .into_iter()
        .map(|own| net.take(own))
        .collect();
    assert_eq!(taken, [Ok(()), Err(Refused::NO_WEIGHT)]);
    assert_eq!(components(&net, [1, -1, 2, 1]), Ok([8, 2, 2, 8]));
    assert_eq!(net.frame(), [0, 1, 1, 2, 1, 1, -1, 2]);
    let lines = "rect 2 1 2\nmove 2 refused 9\nframe 0 1 1 2 1 1 -1 2\n\
                 0 0 0 0 2 2\n0 1 0 0 -2 4\n1 0 0 1 4 4\n1 1 0 -1 -4 8\n2 0 2 4 8 8\n2 1 4 -4 -8 16\n\
                 at 3ff0000000000000 3fd0000000000000 3fd0000000000000\n";
    assert_eq!(text(&bytes), lines);

    // a kind that disagrees with the length of its field
    let at = |refused, offset| Err(RecordRefused { refused, offset });
    let mut record = rect_record(&[]);
    record[3] = 1;
    assert_eq!(Net::open(&record), at(Refused::KIND, 0));
    let mut record = circle_record(&[]);
    record[3] = 3;
    assert_eq!(Net::open(&record), at(Refused::KIND, 0));
    // the first pair has determinant 0
    let mut record = rect_record(&[]);
    record[14] = 0;
    assert_eq!(Net::open(&record), at(Refused::FRAME, 6));
}

#[test]
fn the_three_projections() {
    assert_eq!(
        project([6, 8, 0, 10]),
        Ok(Projection::Finite([0.6, 0.8, 0.0]))
    );
    assert_eq!(
        project([-9, 9, 0, 0]),
        Ok(Projection::Direction {
            vector: [1, -1, 0],
            length: 9
        })
    );
    assert_eq!(
        project([0, -LARGEST, LARGEST, 0]),
        Ok(Projection::Direction {
            vector: [0, 1, -1],
            length: LARGEST
        })
    );
    assert_eq!(project([0; 4]), Ok(Projection::Nowhere));
    assert_eq!(project([i64::MAX, 0, 0, 1]), Err(Refused::RANGE));
}

/// The bound of a coordinate n 2ᵉ, with n and e read off its bits: |n 2ᵉ w − x| 2⁵³ ≤ |x|, both sides
/// times 2⁻ᵉ. Zero is all bits 0. What is far off is answered before a number would have more than 128
/// bits.
fn is_within_bound(coordinate: f64, x: i64, w: i64) -> bool {
    let bits = coordinate.to_bits();
    if x == 0 {
        return bits == 0;
    }
    let e = (bits >> 52 & 2047) as i32 - 1075;
    if !(-100..=-4).contains(&e) {
        return false;
    }
    let size = i128::from((1 << 52) + bits % (1 << 52));
    let n = if bits >> 63 == 1 { -size } else { size };
    let exact = i128::from(x) << -e;
    let off = (n * i128::from(w) - exact).abs();
    exact >> -e == i128::from(x) && off < 1 << 70 && off << 53 <= exact.abs()
}

/// The coordinates of a finite point.
fn finite(projection: Projection) -> [f64; 3] {
    match projection {
        Projection::Finite(coordinates) => coordinates,
        other => panic!("{other:?} is not finite"),
    }
}

#[test]
fn coordinates_within_the_bound() {
    let near = 28059810762433;
    let quotients = [
        (1, 3, 0x3fd5555555555555),
        (6, 10, 0x3fe3333333333333),
        (-8, 10, 0xbfe999999999999a),
        (near + 1, near, 0x3ff00000000000a0),
        (0, -7, 0),
        (1, LARGEST, 0x3cf0000000000000),
        (-1, LARGEST - 1, 0xbcf0000000000010),
        (LARGEST, -1, 0xc2f0000000000000),
        (LARGEST - 2, -7, 0xc2c249249249246e),
    ];
    for (x, w, bits) in quotients {
        let [first, second, third] = finite(project([x, 0, x, w]).unwrap());
        assert_eq!([first, second, third].map(f64::to_bits), [bits, 0, bits]);
        assert!(is_within_bound(first, x, w) && is_within_bound(second, 0, w));
    }
}

/// The neighbours of a coordinate, and what is far off, are outside.
#[test]
fn others_outside_the_bound() {
    for bits in [0x3fe3333333333332, 0x3fe3333333333334, 0xbfe3333333333333] {
        assert!(!is_within_bound(f64::from_bits(bits), 6, 10));
    }
    for far in [0.0, f64::NAN, f64::INFINITY, 5e-324, 1e-13, 1e13] {
        assert!(!is_within_bound(far, 1, 3) && !is_within_bound(far, LARGEST, 3));
    }
    assert!(!is_within_bound(-0.0, 0, -7));
}

/// At a common zero the bound is about the numbers projected.
#[test]
fn a_common_zero_within_the_bound() {
    // the circle times 2T − Z, whose root is at the weights (1, 1)
    let coefficients = [[-1, 0, 0, -1], [2, -2, 0, 2], [1, 4, 0, -1], [-2, 0, 0, 2]];
    let net = Net::first(Kind::Curve, 3, &CIRCLE_FRAME, &coefficients).unwrap();
    let found = net.point([1, 1, 0, 0]).unwrap();
    assert_eq!(found.components(), [0; 4]);
    let [x, y, z, w] = found.projected();
    for (coordinate, v) in finite(found.project()).into_iter().zip([x, y, z]) {
        assert!(is_within_bound(coordinate, v, w));
    }
    assert_eq!((5 * x, 5 * y, z), (3 * w, 4 * w, 0));
}

/// The circle at degree 4, times (2T − Z)(3T − Z) = Z² − 5TZ + 6T²: every point lies where the circle's does.
#[test]
fn the_circle_at_degree_4() {
    let coefficients = [
        [1, 0, 0, 1],
        [-5, 2, 0, -5],
        [5, -10, 0, 7],
        [5, 12, 0, -5],
        [-6, 0, 0, 6],
    ];
    let net = Net::first(Kind::Curve, 4, &CIRCLE_FRAME, &coefficients).unwrap();
    let mut zeros = Vec::new();
    for (r, s) in (-6..=6).flat_map(|r| (-6..=6).map(move |s| (r, s))) {
        if (r, s) == (0, 0) {
            continue;
        }
        let found = net.point([r, s, 0, 0]).unwrap();
        let circle = circle().point([r, s, 0, 0]).unwrap();
        assert_eq!(found.project(), circle.project());
        if found.components() == [0; 4] {
            zeros.push((r, s));
        } else {
            assert_eq!(found.projected(), found.components());
        }
    }
    // (T, Z) = (s, r + s): 2T − Z vanishes where r = s and 3T − Z where r = 2s
    let at_zero = |&(r, s): &(i64, i64)| r == s || r == 2 * s;
    assert!(zeros.iter().all(at_zero));
    assert_eq!(zeros.len(), 12 + 6);

    // at (1, 2) the values of 3T − Z times the circle are (3, 4, 0, 5); 2T − Z is −1 at r, and the scale over
    // the binomial is 12 / 4
    assert_eq!(left(&net, [1, 1, 0, 0]), [-9, -12, 0, -15]);
    // three copies of q are left in b₁: it is (−2)³ times as large at −2q
    assert_eq!(left(&net, [-2, -2, 0, 0]), [72, 96, 0, 120]);
    // at (1, 3) those of 2T − Z times the circle are −(8, 6, 0, 10), and 3T − Z is −1 at r
    assert_eq!(left(&net, [2, 1, 0, 0]), [24, 18, 0, 30]);
    // bare zeros are nowhere, whatever curve they come from
    assert_eq!(project([0; 4]), Ok(Projection::Nowhere));
}

/// The direction (3, 2, 0) at degrees 1 and 2, x = 6 and y = 4 times powers of 2T − Z: at the zero its length
/// is 1.
#[test]
fn a_direction_at_a_common_zero() {
    let direction = |length| Projection::Direction {
        vector: [3, 2, 0],
        length,
    };
    let line = [[-6, -4, 0, 0], [12, 8, 0, 0]];
    let once = Net::first(Kind::Curve, 1, &CIRCLE_FRAME, &line).unwrap();
    assert_eq!(left(&once, [1, 1, 0, 0]), [-6, -4, 0, 0]);
    assert_eq!(once.point([1, 1, 0, 0]).unwrap().project(), direction(1));
    assert_eq!(once.point([1, 0, 0, 0]).unwrap().project(), direction(2));
    // Z² − 4TZ + 4T², whose value at r is 1: b₂ is twice (6, 4, 0, 0), b₁ is four zeros
    let square = [[6, 4, 0, 0], [-24, -16, 0, 0], [24, 16, 0, 0]];
    let twice = Net::first(Kind::Curve, 2, &CIRCLE_FRAME, &square).unwrap();
    assert_eq!(left(&twice, [1, 1, 0, 0]), [12, 8, 0, 0]);
    assert_eq!(twice.point([1, 1, 0, 0]).unwrap().project(), direction(1));
    assert_eq!(twice.point([1, 0, 0, 0]).unwrap().project(), direction(4));
}

/// x = T² and w = TZ, which T divides: the zero is at r, and s is taken in its place.
#[test]
fn a_common_zero_at_a_vertex() {
    let coefficients = [[0; 4], [0, 0, 0, 1], [1, 0, 0, 0]];
    let net = Net::first(Kind::Curve, 2, &CIRCLE_FRAME, &coefficients).unwrap();
    assert_eq!(left(&net, [3, 0, 0, 0]), [0, 0, 0, 3]);
    let found = net.point([3, 0, 0, 0]).unwrap();
    assert_eq!(found.project(), Projection::Finite([0.0; 3]));
}

/// Only the zero curve is nowhere, and patches are where all four polynomials vanish.
#[test]
fn points_that_are_nowhere() {
    let zero = Net::first(Kind::Curve, 2, &CIRCLE_FRAME, &[[0; 4]; 3]).unwrap();
    // U times x = U, w = V, at t = (0, 0, 1), and T₁T₂ times 1, at r₁ = (0, 1)
    let triangular = [[0; 4], [0; 4], [0; 4], [0; 4], [0, 0, 0, 1], [1, 0, 0, 0]];
    let triangular = Net::first(Kind::Triangular, 2, &PATCH_FRAME, &triangular).unwrap();
    let rectangular = [[0; 4], [0; 4], [0; 4], [1; 4]];
    let rectangular = Net::first(Kind::Rectangular, [1, 1], &RECT_FRAME, &rectangular).unwrap();
    for (net, weights) in [
        (zero, [1, 1, 0, 0]),
        (triangular, [0, 0, 1, 0]),
        (rectangular, [1, 0, 1, 1]),
    ] {
        assert_eq!(left(&net, weights), [0; 4]);
        assert_eq!(net.point(weights).unwrap().project(), Projection::Nowhere);
    }
}

/// Lent places: seven are too few, and numbers that no net found may be out of range.
#[test]
fn lent_places_for_a_point() {
    let mut found = [5; 9];
    assert_eq!(
        raw::point(circle().places(), [1, 1, 0, 0], &mut found[..7]),
        11
    );
    assert_eq!(found, [5; 9]);
    assert_eq!(raw::point(circle().places(), [1, 1, 0, 0], &mut found), 0);
    assert_eq!(found, [6, 8, 0, 10, 6, 8, 0, 10, 5]);

    let tell = |found: &[i64]| {
        let (mut outcome, mut bits, mut direction) = (7, [0; 3], [0; 4]);
        let number = raw::project_found(found, &mut outcome, &mut bits, &mut direction);
        (number, outcome, direction)
    };
    assert_eq!(tell(&found), (0, raw::FINITE, [0; 4]));
    assert_eq!(tell(&found[..7]), (11, 0, [0; 4]));
    let far = [i64::MIN, 0, 0, 0, 6, 4, 0, 0];
    assert_eq!(tell(&far), (0, raw::DIRECTION, [3, 2, 0, 2]));
    assert_eq!(
        tell(&[0, 0, 0, 0, 6, 4, 0, 0]),
        (0, raw::DIRECTION, [3, 2, 0, 1])
    );
    assert_eq!(tell(&[0; 8]), (0, raw::NOWHERE, [0; 4]));
    assert_eq!(tell(&[0, 0, 0, 0, 0, 0, LARGEST + 1, 1]), (10, 0, [0; 4]));
}

#[test]
fn errors_say_why() {
    let record: Box<dyn Error> = Net::open(&[]).unwrap_err().into();
    let said = "refused 2 at byte 0: a field must not stand there, or one is missing";
    assert_eq!(record.to_string(), said);
    let call: Box<dyn Error + Send + Sync> = circle().point([0; 4]).unwrap_err().into();
    let said =
        "refused 9: weight 0 for the replaced vertex, or for every vertex of a point or of a pair";
    assert_eq!(call.to_string(), said);
    assert_eq!(
        call.downcast_ref::<Refused>()
            .map(|refused| refused.number()),
        Some(9)
    );
    let all = [
        Refused::CUT_SHORT,
        Refused::TAG,
        Refused::LENGTH,
        Refused::KIND,
        Refused::FRAME,
        Refused::COEFFICIENT,
        Refused::FIRST_NET,
        Refused::ARGUMENT,
        Refused::NO_WEIGHT,
        Refused::RANGE,
        Refused::SHORT,
        Refused::FRAME_RANGE,
    ];
    for (refused, number) in all.into_iter().zip(1..) {
        assert!(refused
            .to_string()
            .starts_with(&format!("refused {number}: ")));
        assert!(!refused.to_string().contains("does not know"));
    }
}

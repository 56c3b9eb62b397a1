//! The same work in plain Rust, by the same steps: a reader, first nets, replace, flip and point by blends
//! of 64-bit numbers with the same limits, the same tests and the same rooms, and the text. Nets stand in
//! lent places, laid out as `include/gadwemosh.h` says. It is the yardstick of the benchmark, not a
//! reference: nothing here is proved.

pub const LIMIT: i64 = 1 << 48;

/// How many places a net has at least, where its frame begins, which of them its entries have at most, and
/// where the largest absolute component of these stands.
pub const NET: usize = 193;
const FRAME: usize = 3;
const ENTRIES: std::ops::Range<usize> = 12..192;
const LARGEST: usize = 192;
pub const PLACES: usize = 180;

/// How many places a found point wants: its four numbers and the four projected.
pub const FOUND: usize = 8;

/// No text has more bytes.
pub const LONGEST_TEXT: usize = 4183;

const CURVE_SCALES: [i64; 10] = [1, 2, 3, 12, 10, 60, 105, 280, 252, 2520];
const PATCH_SCALES: [i64; 8] = [1, 2, 6, 12, 60, 180, 420, 1680];
const FACTORIALS: [i64; 11] = [1, 1, 2, 6, 24, 120, 720, 5040, 40320, 362880, 3628800];

/// Kind and degrees of a net; the second degree is 0 but for a rectangular patch.
#[derive(Clone, Copy, Default)]
pub struct Shape {
    pub kind: u8,
    pub degree: u8,
    pub second: u8,
}

impl Shape {
    pub fn known(self) -> bool {
        let Shape { kind, degree, second } = self;
        match kind {
            1 => (1..=10).contains(&degree) && second == 0,
            2 => (1..=8).contains(&degree) && second == 0,
            3 => (1..=5).contains(&degree) && (1..=5).contains(&second),
            _ => false,
        }
    }

    fn vertices(self) -> u8 {
        self.kind + 1
    }

    fn frame_numbers(self) -> usize {
        match self.kind {
            1 => 4,
            2 => 9,
            _ => 8,
        }
    }

    /// How many numbers a vertex has.
    fn vertex_numbers(self) -> usize {
        if self.kind == 2 { 3 } else { 2 }
    }

    /// How many numbers the entries have, four each.
    pub fn numbers(self) -> usize {
        self.first().numbers()
    }

    pub fn scale(self) -> i64 {
        let first = self.first().scale();
        if self.kind == 3 { first * self.second_pair().scale() } else { first }
    }

    /// The net as the first vertices see it: a patch, or one curve; a rectangular patch has rows for
    /// its entries.
    fn first(self) -> Group {
        let dimension = if self.kind == 2 { 2 } else { 1 };
        Group { dimension, degree: self.degree as usize, width: 4 * (self.second as usize + 1) }
    }

    /// As the second pair sees it: each row is a curve.
    fn second_pair(self) -> Group {
        Group { dimension: 1, degree: self.second as usize, width: 4 }
    }
}

/// A curve (dimension 1) or a triangular patch (2) whose entries have so many numbers.
#[derive(Clone, Copy)]
struct Group {
    dimension: usize,
    degree: usize,
    width: usize,
}

impl Group {
    fn count(self) -> usize {
        if self.dimension == 1 { self.degree + 1 } else { (self.degree + 1) * (self.degree + 2) / 2 }
    }

    fn numbers(self) -> usize {
        self.width * self.count()
    }

    fn scale(self) -> i64 {
        if self.dimension == 1 { CURVE_SCALES[self.degree - 1] } else { PATCH_SCALES[self.degree - 1] }
    }

    /// The same of another degree.
    fn of(self, degree: usize) -> Group {
        Group { degree, ..self }
    }

    /// Where entry k of row n stands; a curve has one entry in each row.
    fn place(self, n: usize, k: usize) -> usize {
        if self.dimension == 1 { n } else { n * (n + 1) / 2 + k }
    }

    /// The last entry of row n.
    fn last(self, n: usize) -> usize {
        if self.dimension == 1 { 0 } else { n }
    }
}

/// A place of the head; what is no byte counts as 255, which is no kind and no degree.
fn byte(v: i64) -> u8 {
    u8::try_from(v).unwrap_or(255)
}

fn entries(net: &[i64]) -> &[i64; PLACES] {
    net[ENTRIES].try_into().unwrap()
}

fn entries_mut(net: &mut [i64]) -> &mut [i64; PLACES] {
    (&mut net[ENTRIES]).try_into().unwrap()
}

/// Puts a net with its largest component into lent places; those that it does not use stay.
fn put(net: &mut [i64], shape: Shape, frame: &[i64; 9], made: &[i64; PLACES], largest: i64) {
    net[..3].copy_from_slice(&[shape.kind as i64, shape.degree as i64, shape.second as i64]);
    let n = shape.frame_numbers();
    net[FRAME..FRAME + n].copy_from_slice(&frame[..n]);
    let n = shape.numbers();
    entries_mut(net)[..n].copy_from_slice(&made[..n]);
    net[LARGEST] = largest;
}

fn in_range(v: i64) -> bool {
    (-LIMIT..=LIMIT).contains(&v)
}

/// One blend to the degree below, in place, from place `at` on. Says whether the blended numbers are in
/// range. Rows of four numbers, the most common, are blended by code of their own.
#[inline(always)]
fn blend(xs: &mut [i64; PLACES], at: usize, g: Group, w: [i64; 3]) -> bool {
    match (g.dimension, g.width) {
        (1, 4) => blend_curve(xs, at, g.degree, 4, w),
        (1, width) => blend_curve(xs, at, g.degree, width, w),
        _ => blend_patch(xs, g.degree, w),
    }
}

/// A curve takes entries j and j + 1.
#[inline(always)]
fn blend_curve(xs: &mut [i64; PLACES], at: usize, m: usize, width: usize, w: [i64; 3]) -> bool {
    let mut good = true;
    for i in at..at + width * m {
        let v = w[0] * xs[i] + w[1] * xs[i + width];
        xs[i] = v;
        good &= in_range(v);
    }
    good
}

/// A patch, which is alone in its net, takes the three corners of each small triangle.
fn blend_patch(xs: &mut [i64; PLACES], m: usize, w: [i64; 3]) -> bool {
    let mut good = true;
    let mut p = 0;
    for n in 0..m {
        let d = 4 * (n + 1);
        for _ in 0..4 * (n + 1) {
            let v = w[0] * xs[p] + w[1] * xs[p + d] + w[2] * xs[p + d + 4];
            xs[p] = v;
            good &= in_range(v);
            p += 1;
        }
    }
    good
}

/// All blends down to one entry, as far as they are in range.
#[inline(always)]
fn descend(xs: &mut [i64; PLACES], at: usize, g: Group, w: [i64; 3]) -> bool {
    for degree in (1..=g.degree).rev() {
        if !blend(xs, at, g.of(degree), w) {
            return false;
        }
    }
    true
}

fn all_in_range(xs: &[i64]) -> bool {
    xs.iter().all(|&v| in_range(v))
}

/// Kind and degrees of a handed net, or its refusal.
#[inline(always)]
fn handed(net: &[i64]) -> Result<Shape, u8> {
    if net.len() < NET {
        return Err(11);
    }
    let shape = Shape { kind: byte(net[0]), degree: byte(net[1]), second: byte(net[2]) };
    if !shape.known() {
        return Err(4);
    }
    if !all_in_range(&entries(net)[..shape.numbers()]) {
        return Err(10);
    }
    Ok(shape)
}

/// The frame that the net carries.
fn frame_of(net: &[i64], shape: Shape) -> &[i64] {
    &net[FRAME..FRAME + shape.frame_numbers()]
}

/// q: the vertices of a group, each with its weight. They begin at place `at`, have n numbers each, are n
/// and in range.
#[inline(always)]
fn mixed(net: &[i64], at: usize, n: usize, w: [i64; 4]) -> [i64; 3] {
    let mut q = [0; 3];
    for v in 0..n {
        for c in 0..n {
            q[c] += w[v] * net[at + n * v + c];
        }
    }
    q
}

/// Whether all weights are within their limits and those past the used ones are 0.
fn weights_in(w: [i64; 4], used: usize) -> bool {
    let unused = match used {
        2 => w[2] != 0 || w[3] != 0,
        3 => w[3] != 0,
        _ => false,
    };
    !unused && w.iter().all(|v| (-4096..=4096).contains(v))
}

/// Replaces vertex v in place, from place `at` on, level by level and as far as the blended numbers are in range: an
/// entry with more copies of the vertex than there were levels is blended with those that have one copy less.
#[inline(always)]
fn replaced(xs: &mut [i64; PLACES], at: usize, g: Group, v: usize, w: [i64; 3]) -> bool {
    if v == 0 {
        return descend(xs, at, g, w);
    }
    for h in 0..g.degree {
        let good = match (g.dimension, g.width, v) {
            (1, 4, _) => line_level(xs, at, g.degree, 4, h, w),
            (1, width, _) => line_level(xs, at, g.degree, width, h, w),
            (_, _, 1) => second_level(xs, g.degree, h, w),
            _ => third_level(xs, g.degree, h, w),
        };
        if !good {
            return false;
        }
    }
    true
}

/// The second vertex of a curve: each row with the one before, from the last number down.
#[inline(always)]
fn line_level(xs: &mut [i64; PLACES], at: usize, m: usize, width: usize, h: usize, w: [i64; 3]) -> bool {
    let mut good = true;
    for i in (at + width * (h + 1)..at + width * (m + 1)).rev() {
        let v = w[1] * xs[i] + w[0] * xs[i - width];
        xs[i] = v;
        good &= in_range(v);
    }
    good
}

/// The second vertex of a patch: the last row first, and a row from its first number on.
fn second_level(xs: &mut [i64; PLACES], m: usize, h: usize, w: [i64; 3]) -> bool {
    let mut good = true;
    for n in (h + 1..=m).rev() {
        let from = 2 * n * (n + 1);
        for p in from..from + 4 * (n - h) {
            let v = w[1] * xs[p] + w[0] * xs[p - 4 * n] + w[2] * xs[p + 4];
            xs[p] = v;
            good &= in_range(v);
        }
    }
    good
}

/// The third: the last row first, and a row from its last number down.
fn third_level(xs: &mut [i64; PLACES], m: usize, h: usize, w: [i64; 3]) -> bool {
    let mut good = true;
    for n in (h + 1..=m).rev() {
        let row = 2 * n * (n + 1);
        for p in (row + 4 * (h + 1)..row + 4 * (n + 1)).rev() {
            let v = w[2] * xs[p] + w[0] * xs[p - 4 * (n + 1)] + w[1] * xs[p - 4];
            xs[p] = v;
            good &= in_range(v);
        }
    }
    good
}

/// What a vertex belongs to: how the net looks from there, and which of its vertices it is.
fn seat(shape: Shape, vertex: u8) -> (Group, usize) {
    let v = vertex as usize - 1;
    if shape.kind == 3 && v >= 2 { (shape.second_pair(), v - 2) } else { (shape.first(), v) }
}

/// A replace: the number of the refusal, and the net is changed only where it is 0. The blends are made where the
/// entries stand, which are saved and put back after a refusal.
pub fn replace(net: &mut [i64], vertex: u8, w: [i64; 4]) -> u8 {
    let shape = match handed(net) {
        Ok(shape) => shape,
        Err(number) => return number,
    };
    if vertex < 1 || vertex > shape.vertices() {
        return 8;
    }
    let (g, v) = seat(shape, vertex);
    if !weights_in(w, g.dimension + 1) {
        return 8;
    }
    if w[v] == 0 {
        return 9;
    }
    if !all_in_range(frame_of(net, shape)) {
        return 12;
    }
    let size = shape.vertex_numbers();
    let place = FRAME + size * (vertex as usize - 1);
    let q = mixed(net, place - size * v, size, w);
    if !all_in_range(&q) {
        return 12;
    }
    let n = shape.numbers();
    let mut saved = [0; PLACES];
    saved[..n].copy_from_slice(&entries(net)[..n]);
    let mut at = 0;
    while at < n {
        if !replaced(entries_mut(net), at, g, v, [w[0], w[1], w[2]]) {
            entries_mut(net)[..n].copy_from_slice(&saved[..n]);
            return 10;
        }
        at += g.numbers();
    }
    net[place..place + size].copy_from_slice(&q[..size]);
    net[LARGEST] = entries(net)[..n].iter().map(|v| v.abs()).max().unwrap_or(0);
    0
}

/// A flip. The largest component stays as it was given.
pub fn flip(net: &mut [i64], vertex: u8) -> u8 {
    let shape = match handed(net) {
        Ok(shape) => shape,
        Err(number) => return number,
    };
    if vertex < 1 || vertex > shape.vertices() {
        return 8;
    }
    if !all_in_range(frame_of(net, shape)) {
        return 12;
    }
    let size = shape.vertex_numbers();
    let place = FRAME + size * (vertex as usize - 1);
    for number in &mut net[place..place + size] {
        *number = -*number;
    }
    let (g, v) = seat(shape, vertex);
    for xs in entries_mut(net)[..shape.numbers()].chunks_exact_mut(g.numbers()) {
        for n in 0..=g.degree {
            for k in 0..=g.last(n) {
                let copies = match v {
                    0 => g.degree - n,
                    1 => n - k,
                    _ => k,
                };
                if copies % 2 == 1 {
                    let p = g.width * g.place(n, k);
                    for x in &mut xs[p..p + g.width] {
                        *x = -*x;
                    }
                }
            }
        }
    }
    0
}

/// A point: all blends with the first vertices, and of a rectangular patch then those of the row that
/// is left at the front with the second pair. The numbers projected go behind it.
pub fn point(net: &[i64], w: [i64; 4], found: &mut [i64]) -> u8 {
    let Some(found) = found.first_chunk_mut::<FOUND>() else {
        return 11;
    };
    let shape = match handed(net) {
        Ok(shape) => shape,
        Err(number) => return number,
    };
    if !weights_in(w, shape.vertices() as usize) {
        return 8;
    }
    let second = [w[2], w[3], 0];
    let first = if shape.kind == 3 { [w[0], w[1], 0] } else { [w[0], w[1], w[2]] };
    if first == [0, 0, 0] || (shape.kind == 3 && second == [0, 0, 0]) {
        return 9;
    }
    if !all_in_range(frame_of(net, shape)) {
        return 12;
    }
    let n = shape.numbers();
    let mut room = [0; PLACES];
    room[..n].copy_from_slice(&entries(net)[..n]);
    if !descend(&mut room, 0, shape.first(), first) {
        return 10;
    }
    if shape.kind == 3 && !descend(&mut room, 0, shape.second_pair(), second) {
        return 10;
    }
    found[..4].copy_from_slice(&room[..4]);
    found[4..].copy_from_slice(&room[..4]);
    if shape.kind == 1 && room[..4].iter().all(|&v| v == 0) {
        left(net, shape.first(), first, &mut room, found);
    }
    0
}

/// What is left of a curve at a common zero, behind the point's four zeros: one vertex is replaced by q in
/// the room, and the entries are looked through from q on, with one copy more of the other vertex each.
#[cold]
fn left(net: &[i64], g: Group, w: [i64; 3], room: &mut [i64; PLACES], found: &mut [i64; FOUND]) {
    let n = g.numbers();
    room[..n].copy_from_slice(&entries(net)[..n]);
    let v = if w[1] == 0 { 0 } else { 1 };
    replaced(room, 0, g, v, w);
    for d in 1..=g.degree {
        let at = 4 * if v == 0 { d } else { g.degree - d };
        if room[at..at + 4] != [0; 4] {
            found[4..].copy_from_slice(&room[at..at + 4]);
            return;
        }
    }
}

/// The first net of judged polynomials over a judged frame: from coefficients to entries with the first
/// vertices, and of a rectangular patch then in each row with the second pair.
fn first(shape: Shape, frame: &[i64; 9], coefficients: &[i64; PLACES], net: &mut [i64]) -> u8 {
    let mut made = [0; PLACES];
    let (mut base, mut row, mut one) = ([0; PLACES], [0; PLACES], [0; PLACES]);
    let g = shape.first();
    scaled(&mut base, coefficients, 0, g);
    over_frame(&mut made, 0, g, frame, [&mut base, &mut row, &mut one]);
    let n = shape.numbers();
    if shape.kind == 3 {
        let g = shape.second_pair();
        let mut at = 0;
        while at < n {
            scaled(&mut base, &made, at, g);
            over_frame(&mut made, at, g, &frame[4..], [&mut base, &mut row, &mut one]);
            at += g.numbers();
        }
    }
    let largest = made[..n].iter().fold(0, |largest, v| largest.max(v.abs()));
    if largest > LIMIT {
        return 7;
    }
    put(net, shape, frame, &made, largest);
    0
}

/// From scaled coefficients, the base, to the entries from place `at` on, of one group of vertices: blends
/// with the vertices, the last row first, each shared by all entries that have its points.
fn over_frame(made: &mut [i64; PLACES], at: usize, g: Group, f: &[i64], [base, row, one]: [&mut [i64; PLACES]; 3]) {
    let (r, s, t) = if g.dimension == 1 {
        ([f[1], f[0], 0], [f[3], f[2], 0], [0; 3])
    } else {
        ([f[2], f[0], f[1]], [f[5], f[3], f[4]], [f[8], f[6], f[7]])
    };
    for n in (0..=g.degree).rev() {
        let used = g.of(n).numbers();
        row[..used].copy_from_slice(&base[..used]);
        let last = g.last(n);
        for k in 0..last {
            let used = g.of(n - k).numbers();
            one[..used].copy_from_slice(&row[..used]);
            blends(one, g.of(n - k), s);
            copy(made, at + g.width * g.place(n, k), one, g.width);
            blend(row, 0, g.of(n - k), t);
        }
        blends(row, g.of(n - last), s);
        copy(made, at + g.width * g.place(n, last), row, g.width);
        if n > 0 {
            blend(base, 0, g.of(n), r);
        }
    }
}

/// Puts the entry at the front into its place; one of four numbers without a call.
fn copy(made: &mut [i64; PLACES], to: usize, xs: &[i64; PLACES], width: usize) {
    if width == 4 {
        made[to..to + 4].copy_from_slice(&xs[..4]);
    } else {
        made[to..to + width].copy_from_slice(&xs[..width]);
    }
}

/// All blends down to one entry, in range or not.
fn blends(xs: &mut [i64; PLACES], g: Group, w: [i64; 3]) {
    for degree in (1..=g.degree).rev() {
        blend(xs, 0, g.of(degree), w);
    }
}

/// The coefficients from place `at` on, each times the scale over its multinomial, in the order of the
/// entries.
fn scaled(base: &mut [i64; PLACES], coefficients: &[i64; PLACES], at: usize, g: Group) {
    let m = g.degree;
    let all = g.scale();
    for n in 0..=m {
        for k in 0..=g.last(n) {
            let (h, l) = (n - k, k);
            let times = all / (FACTORIALS[m] / (FACTORIALS[h] * FACTORIALS[l] * FACTORIALS[m - h - l]));
            let from = at + g.width * if g.dimension == 1 { h } else { h * (2 * m + 3 - h) / 2 + l };
            let to = g.width * g.place(n, k);
            match g.width {
                4 => multiplied(base, to, coefficients, from, 4, times),
                width => multiplied(base, to, coefficients, from, width, times),
            }
        }
    }
}

#[inline(always)]
fn multiplied(base: &mut [i64; PLACES], to: usize, coefficients: &[i64; PLACES], from: usize, width: usize, times: i64) {
    for c in 0..width {
        base[to + c] = coefficients[from + c] * times;
    }
}

/// The same with its judgements, for polynomials that come from elsewhere.
pub fn first_of(shape: Shape, frame: &[i64], coefficients: &[i64], net: &mut [i64]) -> u8 {
    if frame.len() < 9 || coefficients.len() < PLACES || net.len() < NET {
        return 11;
    }
    let frame = frame[..9].try_into().unwrap();
    let coefficients: &[i64; PLACES] = coefficients[..PLACES].try_into().unwrap();
    if !shape.known() {
        return 4;
    }
    if frame_outside(shape, frame) {
        return 5;
    }
    if coefficients[..shape.numbers()].iter().any(|v| v.unsigned_abs() > 1 << 20) {
        return 6;
    }
    first(shape, frame, coefficients, net)
}

// ---- records

fn be16(b: &[u8]) -> i64 {
    i16::from_be_bytes([b[0], b[1]]) as i64
}

fn be32(b: &[u8]) -> i64 {
    i32::from_be_bytes([b[0], b[1], b[2], b[3]]) as i64
}

/// Where the values of the fields stand: start and length.
#[derive(Clone, Copy, Default)]
pub struct Layout {
    pub shape: Shape,
    pub fields: [(usize, usize); 5],
}

/// Of a pair of vertices.
fn determinant(f: &[i64]) -> i64 {
    f[0] * f[3] - f[1] * f[2]
}

/// Of three vertices.
fn determinant_of_three(f: &[i64]) -> i64 {
    f[0] * (f[4] * f[8] - f[5] * f[7]) - f[1] * (f[3] * f[8] - f[5] * f[6]) + f[2] * (f[3] * f[7] - f[4] * f[6])
}

/// Whether a number is outside, or a determinant is 0.
fn frame_outside(shape: Shape, frame: &[i64; 9]) -> bool {
    if frame[..shape.frame_numbers()].iter().any(|v| v.unsigned_abs() > 4) {
        return true;
    }
    match shape.kind {
        1 => determinant(frame) == 0,
        2 => determinant_of_three(frame) == 0,
        _ => determinant(frame) == 0 || determinant(&frame[4..]) == 0,
    }
}

/// The shape that field 1 names: a rectangular patch by three bytes, the others by two.
fn named(value: &[u8]) -> Option<Shape> {
    let shape = match *value {
        [kind @ (1 | 2), degree] => Shape { kind, degree, second: 0 },
        [3, degree, second] => Shape { kind: 3, degree, second },
        _ => return None,
    };
    shape.known().then_some(shape)
}

/// Reads a record: the refusal's number and offset, or 0 and the layout with frame and coefficients.
pub fn read(s: &[u8], frame: &mut [i64; 9], coefficients: &mut [i64; PLACES]) -> (u8, usize, Layout) {
    let mut l = Layout { fields: [(s.len(), 0); 5], ..Default::default() };
    let mut at = 0;
    let mut tag = 1;
    while tag <= 5 {
        let left = s.len() - at;
        if left < 3 || s[at] != tag {
            if tag <= 3 {
                return (if left == 1 || left == 2 { 1 } else { 2 }, at, l);
            }
            tag += 1;
            continue;
        }
        let n = u16::from_be_bytes([s[at + 1], s[at + 2]]) as usize;
        let right = match tag {
            1 => n == 2 || n == 3,
            2 => n == 2 * l.shape.frame_numbers(),
            3 => n == 4 * l.shape.numbers(),
            4 => n % 8 == 0 && n <= 256,
            _ => n == 2 * l.shape.vertices() as usize,
        };
        if !right {
            return (3, at, l);
        }
        if left - 3 < n {
            return (1, at, l);
        }
        let value = &s[at + 3..at + 3 + n];
        match tag {
            1 => {
                let Some(shape) = named(value) else {
                    return (4, at, l);
                };
                l.shape = shape;
            }
            2 => {
                for (k, b) in value.chunks_exact(2).enumerate() {
                    frame[k] = be16(b);
                }
                if frame_outside(l.shape, frame) {
                    return (5, at, l);
                }
            }
            3 => {
                for (k, b) in value.chunks_exact(4).enumerate() {
                    coefficients[k] = be32(b);
                    if coefficients[k].abs() > 1 << 20 {
                        return (6, at, l);
                    }
                }
            }
            _ => {}
        }
        l.fields[tag as usize - 1] = (at + 3, n);
        at += 3 + n;
        tag += 1;
    }
    let left = s.len() - at;
    if left != 0 {
        return (if left < 3 { 1 } else { 2 }, at, l);
    }
    (0, 0, l)
}

/// Reads a record into its first net.
pub fn open(s: &[u8], net: &mut [i64], layout: &mut Layout) -> (u8, usize) {
    if net.len() < NET {
        return (11, 0);
    }
    let mut frame = [0; 9];
    let mut coefficients = [0; PLACES];
    let (number, offset, l) = read(s, &mut frame, &mut coefficients);
    if number != 0 {
        return (number, offset);
    }
    let number = first(l.shape, &frame, &coefficients, net);
    if number != 0 {
        return (number, l.fields[2].0 - 3);
    }
    *layout = l;
    (0, 0)
}

// ---- text

struct Out<'a> {
    bytes: &'a mut [u8],
    at: usize,
}

impl Out<'_> {
    fn word(&mut self, w: &[u8]) {
        self.bytes[self.at..self.at + w.len()].copy_from_slice(w);
        self.at += w.len();
    }

    fn decimal(&mut self, mut n: u64) {
        let mut digits = [0u8; 20];
        let mut k = 20;
        loop {
            k -= 1;
            digits[k] = b'0' + (n % 10) as u8;
            n /= 10;
            if n == 0 {
                break;
            }
        }
        self.word(&digits[k..]);
    }

    fn indices(&mut self, list: &[usize]) {
        self.decimal(list[0] as u64);
        for &i in &list[1..] {
            self.word(b" ");
            self.decimal(i as u64);
        }
    }

    fn signed(&mut self, v: i64) {
        if v < 0 {
            self.word(b"-");
        }
        self.decimal(v.unsigned_abs());
    }

    fn hex(&mut self, n: u64) {
        for i in (0..16).rev() {
            let d = (n >> (4 * i)) as u8 & 15;
            self.word(&[if d < 10 { b'0' + d } else { b'a' + d - 10 }]);
        }
    }
}

fn gcd(mut a: u64, mut b: u64) -> u64 {
    while b != 0 {
        (a, b) = (b, a % b);
    }
    a
}

fn quotient(v: i64, w: i64) -> u64 {
    if v == 0 { 0 } else { (v as f64 / w as f64).to_bits() }
}

/// The text of a record: straight into the lent buffer where that has room for every text, or into a
/// buffer of its own and then into the lent one. The number of bytes, or nothing where it is too short.
pub fn text(s: &[u8], lent: &mut [u8]) -> Option<usize> {
    if lent.len() >= LONGEST_TEXT {
        return Some(make(s, lent));
    }
    let mut buffer = [0u8; LONGEST_TEXT];
    let n = make(s, &mut buffer);
    if lent.len() < n {
        return None;
    }
    lent[..n].copy_from_slice(&buffer[..n]);
    Some(n)
}

fn make(s: &[u8], bytes: &mut [u8]) -> usize {
    let mut out = Out { bytes, at: 0 };
    let mut net = [0; NET];
    let mut l = Layout::default();
    let (number, offset) = open(s, &mut net, &mut l);
    if number != 0 {
        out.word(b"refused ");
        out.decimal(number as u64);
        out.word(b" at ");
        out.decimal(offset as u64);
        out.word(b"\n");
    } else {
        accepted(s, &mut out, &mut net, &l);
    }
    out.at
}

/// A line for each entry, with its index: j, or i j k, or i j.
fn lines(out: &mut Out, shape: Shape, entries: &[i64; PLACES]) {
    let g = shape.first();
    let mut entry = entries.chunks_exact(4);
    for n in 0..=g.degree {
        for k in 0..=g.last(n) {
            for j in 0..=shape.second as usize {
                match shape.kind {
                    1 => out.indices(&[n]),
                    2 => out.indices(&[g.degree - n, n - k, k]),
                    _ => out.indices(&[n, j]),
                }
                for &v in entry.next().unwrap() {
                    out.word(b" ");
                    out.signed(v);
                }
                out.word(b"\n");
            }
        }
    }
}

fn accepted(s: &[u8], out: &mut Out, net: &mut [i64; NET], l: &Layout) {
    let shape = l.shape;
    let word: &[u8] = match shape.kind {
        1 => b"curve ",
        2 => b"patch ",
        _ => b"rect ",
    };
    out.word(word);
    out.decimal(shape.degree as u64);
    if shape.kind == 3 {
        out.word(b" ");
        out.decimal(shape.second as u64);
    }
    out.word(b" ");
    out.decimal(shape.scale() as u64);
    out.word(b"\n");
    let moves = &s[l.fields[3].0..l.fields[3].0 + l.fields[3].1];
    for (k, b) in moves.chunks_exact(8).enumerate() {
        let w = [be16(&b[2..]), be16(&b[4..]), be16(&b[6..]), 0];
        let number = match b[0] {
            1 => replace(net, b[1], w),
            2 if w == [0; 4] => flip(net, b[1]),
            _ => 8,
        };
        if number != 0 {
            out.word(b"move ");
            out.decimal(k as u64 + 1);
            out.word(b" refused ");
            out.decimal(number as u64);
            out.word(b"\n");
        }
    }
    out.word(b"frame");
    for &v in frame_of(net, shape) {
        out.word(b" ");
        out.signed(v);
    }
    out.word(b"\n");
    lines(out, shape, entries(net));
    if l.fields[4].1 != 0 {
        let mut w = [0; 4];
        let (start, length) = l.fields[4];
        for (weight, b) in w.iter_mut().zip(s[start..start + length].chunks_exact(2)) {
            *weight = be16(b);
        }
        let mut found = [0; FOUND];
        let number = point(net, w, &mut found);
        let f = &found[4..];
        if number != 0 {
            out.word(b"point refused ");
            out.decimal(number as u64);
        } else if f[3] != 0 {
            out.word(b"at");
            for c in 0..3 {
                out.word(b" ");
                out.hex(quotient(f[c], f[3]));
            }
        } else if f[..3] == [0, 0, 0] {
            out.word(b"nowhere");
        } else {
            let g = f[..3].iter().fold(0, |g, v| gcd(v.unsigned_abs(), g)) as i64;
            let length = if found[..4] == [0; 4] { 1 } else { g };
            let first = *f.iter().find(|v| **v != 0).unwrap();
            out.word(b"far");
            for c in 0..3 {
                out.word(b" ");
                out.signed(f[c] / g * first.signum());
            }
            out.word(b" ");
            out.signed(length);
        }
        out.word(b"\n");
    }
}

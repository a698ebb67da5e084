// Meshes to ask about, made from a seed. Nothing here knows of cells.
use crate::mesh::{rising3, spans, without, Mesh};
use std::collections::HashMap;

// A small generator of numbers that look random (splitmix64).
pub struct Dice(u64);

impl Dice {
    pub fn new(seed: u64) -> Dice {
        Dice(seed)
    }

    pub fn next(&mut self) -> u64 {
        self.0 = self.0.wrapping_add(0x9e37_79b9_7f4a_7c15);
        let mut z = self.0;
        z = (z ^ (z >> 30)).wrapping_mul(0xbf58_476d_1ce4_e5b9);
        z = (z ^ (z >> 27)).wrapping_mul(0x94d0_49bb_1331_11eb);
        z ^ (z >> 31)
    }

    pub fn below(&mut self, n: usize) -> usize {
        (self.next() % n as u64) as usize
    }

    pub fn between(&mut self, low: i32, high: i32) -> i32 {
        low + self.below((high - low + 1) as usize) as i32
    }

    pub fn one_in(&mut self, n: usize) -> bool {
        self.below(n) == 0
    }

    pub fn shuffle<T>(&mut self, v: &mut [T]) {
        for i in (1..v.len()).rev() {
            v.swap(i, self.below(i + 1));
        }
    }
}

#[derive(Clone, Default)]
pub struct Draft {
    pub points: Vec<[i32; 3]>,
    pub tets: Vec<[u16; 4]>,
    pub parts: Vec<u16>,
}

fn wide(p: &[i32; 3]) -> [i128; 3] {
    [p[0] as i128, p[1] as i128, p[2] as i128]
}

impl Draft {
    // The draft of a mesh that was read.
    pub fn of(mesh: &Mesh) -> Draft {
        Draft {
            points: mesh.points.iter().map(|p| p.map(|c| c as i32)).collect(),
            tets: mesh.tetrahedra.iter().map(|t| t.corners).collect(),
            parts: mesh.tetrahedra.iter().map(|t| t.part).collect(),
        }
    }

    pub fn volume(&self, t: [u16; 4]) -> i128 {
        let at = |v: u16| wide(&self.points[v as usize]);
        spans(&at(t[0]), &at(t[1]), &at(t[2]), &at(t[3]))
    }

    // Adds a tetrahedron, turned so that its box is above zero where it has one.
    pub fn add(&mut self, mut t: [u16; 4]) {
        if self.volume(t) < 0 {
            t.swap(2, 3);
        }
        self.tets.push(t);
        self.parts.push(0);
    }

    pub fn all_stand(&self) -> bool {
        self.tets.iter().all(|t| self.volume(*t) > 0)
    }

    pub fn bytes(&self) -> Vec<u8> {
        let (n, t) = (self.points.len() as u32, self.tets.len() as u32);
        let mut file = Vec::new();
        for word in [n, 24, t, 24 + 12 * n, 24 + 12 * n + 10 * t, 0] {
            file.extend(word.to_le_bytes());
        }
        for p in &self.points {
            for c in p {
                file.extend(c.to_le_bytes());
            }
        }
        for (t, part) in self.tets.iter().zip(&self.parts) {
            for v in t.iter().chain([part]) {
                file.extend(v.to_le_bytes());
            }
        }
        file
    }

    // Other numbers for the vertices, another order of the tetrahedra and of their corners.
    pub fn shuffled(&self, dice: &mut Dice) -> Draft {
        let n = self.points.len();
        let mut to: Vec<u16> = (0..n as u16).collect();
        dice.shuffle(&mut to);
        let mut points = vec![[0; 3]; n];
        for (v, p) in self.points.iter().enumerate() {
            points[to[v] as usize] = *p;
        }
        let mut order: Vec<usize> = (0..self.tets.len()).collect();
        dice.shuffle(&mut order);
        let mut tets = Vec::new();
        let mut parts = Vec::new();
        for i in order {
            let mut t = self.tets[i].map(|v| to[v as usize]);
            if dice.one_in(2) {
                t.rotate_left(2);
            }
            t[1..].rotate_left(dice.below(3));
            tets.push(t);
            parts.push(self.parts[i]);
        }
        Draft { points, tets, parts }
    }

    // Moves each vertex by at most `by` along each axis, as far as every tetrahedron keeps its side.
    pub fn jittered(&self, dice: &mut Dice, by: i32) -> Draft {
        let mut by = by;
        loop {
            let mut moved = self.clone();
            for p in &mut moved.points {
                for c in p.iter_mut() {
                    *c += dice.between(-by, by);
                }
            }
            if by == 0 || moved.all_stand() {
                return moved;
            }
            by = by * 3 / 4;
        }
    }

    pub fn with_parts(mut self, dice: &mut Dice, kinds: usize) -> Draft {
        let names: Vec<u16> = (0..kinds).map(|_| if dice.one_in(4) { 65_535 } else { dice.next() as u16 }).collect();
        // runs of one part, so that whole cells keep one often enough
        let mut now = names[0];
        for part in &mut self.parts {
            if dice.one_in(5) {
                now = names[dice.below(kinds)];
            }
            *part = now;
        }
        self
    }

    pub fn without_some(mut self, dice: &mut Dice, one_in: usize) -> Draft {
        let kept: Vec<bool> = self.tets.iter().map(|_| !dice.one_in(one_in)).collect();
        let mut i = 0;
        self.tets.retain(|_| {
            i += 1;
            kept[i - 1]
        });
        self.parts.truncate(self.tets.len());
        self
    }

    pub fn without_one(mut self, i: usize) -> Draft {
        self.tets.remove(i);
        self.parts.remove(i);
        self
    }

    // A new vertex on an edge, on a facet or inside a tetrahedron, by its two, three or four corners: of every
    // tetrahedron that has them all there is then one for each, with the new vertex in its place.
    pub fn split(&self, on: &[u16], at: [i32; 3]) -> Draft {
        let new = self.points.len() as u16;
        let mut d = Draft { points: self.points.clone(), ..Draft::default() };
        d.points.push(at);
        for (t, part) in self.tets.iter().zip(&self.parts) {
            let pieces: Vec<[u16; 4]> = if on.iter().all(|v| t.contains(v)) {
                on.iter().map(|v| t.map(|w| if w == *v { new } else { w })).collect()
            } else {
                vec![*t]
            };
            d.parts.extend(pieces.iter().map(|_| *part));
            d.tets.extend(pieces);
        }
        d
    }

    // A point about the middle of some vertices.
    pub fn middle(&self, dice: &mut Dice, of: &[u16], by: i32) -> [i32; 3] {
        let sum = |axis: usize| of.iter().map(|v| self.points[*v as usize][axis]).sum::<i32>();
        [0, 1, 2].map(|axis| sum(axis) / of.len() as i32 + dice.between(-by, by))
    }

    // Drops the vertices that no tetrahedron names.
    pub fn packed(self) -> Draft {
        let mut to: HashMap<u16, u16> = HashMap::new();
        let mut points = Vec::new();
        let mut used: Vec<u16> = self.tets.iter().flatten().copied().collect();
        used.sort_unstable();
        used.dedup();
        for v in used {
            to.insert(v, points.len() as u16);
            points.push(self.points[v as usize]);
        }
        let tets = self.tets.iter().map(|t| t.map(|v| to[&v])).collect();
        Draft { points, tets, parts: self.parts }
    }
}

// Tetrahedra that may be added one after the other as long as no facet gets a third and both of a
// facet lie on opposite sides. Nothing else is asked of a mesh, so tetrahedra far apart may overlap.
pub struct Growing {
    pub draft: Draft,
    facets: HashMap<[u16; 3], Vec<u16>>,
}

impl Growing {
    pub fn new(points: Vec<[i32; 3]>) -> Growing {
        Growing { draft: Draft { points, ..Draft::default() }, facets: HashMap::new() }
    }

    pub fn from(draft: Draft) -> Growing {
        let mut growing = Growing::new(draft.points.clone());
        for t in &draft.tets {
            growing.try_add(*t);
        }
        growing
    }

    pub fn try_add(&mut self, t: [u16; 4]) -> bool {
        let volume = self.draft.volume(t);
        if volume == 0 || self.draft.tets.len() >= 2_048 {
            return false;
        }
        for left_out in 0..4 {
            let f = rising3(without(&t, left_out));
            if let Some(tops) = self.facets.get(&f) {
                let side = |v: u16| self.draft.volume([f[0], f[1], f[2], v]) > 0;
                if tops.len() > 1 || side(tops[0]) == side(t[left_out]) {
                    return false;
                }
            }
        }
        for left_out in 0..4 {
            self.facets.entry(rising3(without(&t, left_out))).or_default().push(t[left_out]);
        }
        self.draft.add(t);
        true
    }

    pub fn a_free_facet(&self, dice: &mut Dice) -> Option<[u16; 3]> {
        let mut free: Vec<[u16; 3]> = self.facets.iter().filter(|(_, tops)| tops.len() == 1).map(|(f, _)| *f).collect();
        free.sort_unstable();
        if free.is_empty() {
            None
        } else {
            Some(free[dice.below(free.len())])
        }
    }
}

// Other tetrahedra in the same space: two on a facet become three round an edge, or the other way
// round, wherever that keeps every tetrahedron on its side.
pub fn flipped(dice: &mut Dice, draft: &Draft, times: usize) -> Draft {
    let mut d = draft.clone();
    for _ in 0..times {
        let next = if dice.one_in(2) { two_to_three(dice, &d) } else { three_to_two(dice, &d) };
        if let Some(next) = next {
            if crate::mesh::read(&next.bytes()).is_ok() {
                d = next;
            }
        }
    }
    d
}

fn replaced(d: &Draft, out: &[usize], new: &[[u16; 4]]) -> Option<Draft> {
    if new.iter().any(|t| d.volume(*t) == 0) || d.tets.len() + new.len() > 2_048 {
        return None;
    }
    let mut next = d.clone();
    let mut i = 0;
    next.tets.retain(|_| {
        i += 1;
        !out.contains(&(i - 1))
    });
    next.parts.truncate(next.tets.len());
    let before: i128 = out.iter().map(|i| d.volume(d.tets[*i])).sum();
    let after: i128 = new.iter().map(|t| d.volume(*t).abs()).sum();
    for t in new {
        next.add(*t);
    }
    if before == after {
        Some(next)
    } else {
        None
    }
}

fn two_to_three(dice: &mut Dice, d: &Draft) -> Option<Draft> {
    let first = dice.below(d.tets.len());
    let left_out = dice.below(4);
    let f = without(&d.tets[first], left_out);
    let shares = |i: &usize| *i != first && f.iter().all(|v| d.tets[*i].contains(v));
    let second = (0..d.tets.len()).find(shares)?;
    let s = d.tets[first][left_out];
    let t = *d.tets[second].iter().find(|v| !f.contains(v))?;
    replaced(d, &[first, second], &[[f[0], f[1], s, t], [f[1], f[2], s, t], [f[2], f[0], s, t]])
}

fn three_to_two(dice: &mut Dice, d: &Draft) -> Option<Draft> {
    let mut four = d.tets[dice.below(d.tets.len())];
    dice.shuffle(&mut four);
    let (s, t) = (four[0], four[1]);
    let round: Vec<usize> = (0..d.tets.len()).filter(|i| d.tets[*i].contains(&s) && d.tets[*i].contains(&t)).collect();
    let mut ring: Vec<u16> = round.iter().flat_map(|i| d.tets[*i]).filter(|v| *v != s && *v != t).collect();
    ring.sort_unstable();
    ring.dedup();
    if round.len() != 3 || ring.len() != 3 {
        return None;
    }
    replaced(d, &round, &[[ring[0], ring[1], ring[2], s], [ring[0], ring[1], ring[2], t]])
}

// Which tetrahedra fill each cube of a grid.
#[derive(Clone, Copy, PartialEq)]
pub enum Cubes {
    Kuhn,
    Five,
}

pub fn grid(cubes: Cubes, size: [usize; 3], step: i32) -> Draft {
    let mut d = Draft::default();
    let [nx, ny, nz] = size;
    let number = |x: usize, y: usize, z: usize| (x + (nx + 1) * (y + (ny + 1) * z)) as u16;
    for z in 0..=nz {
        for y in 0..=ny {
            for x in 0..=nx {
                d.points.push([x as i32 * step, y as i32 * step, z as i32 * step]);
            }
        }
    }
    for z in 0..nz {
        for y in 0..ny {
            for x in 0..nx {
                let odd = (x + y + z) % 2;
                let at = |bits: [usize; 3]| number(x + bits[0], y + bits[1], z + bits[2]);
                if cubes == Cubes::Kuhn {
                    for axes in [[0, 1, 2], [0, 2, 1], [1, 0, 2], [1, 2, 0], [2, 0, 1], [2, 1, 0]] {
                        let mut bits = [0; 3];
                        let mut path = vec![at(bits)];
                        for axis in axes {
                            bits[axis] = 1;
                            path.push(at(bits));
                        }
                        d.add([path[0], path[1], path[2], path[3]]);
                    }
                } else {
                    let even = |bits: [usize; 3]| at([bits[0] ^ odd, bits[1], bits[2]]);
                    let middle = [[0, 0, 0], [1, 1, 0], [1, 0, 1], [0, 1, 1]];
                    d.add(middle.map(even));
                    for tip in [[1, 0, 0], [0, 1, 0], [0, 0, 1], [1, 1, 1]] {
                        let near: Vec<_> =
                            middle.iter().filter(|m| (0..3).filter(|i| m[*i] != tip[*i]).count() == 1).collect();
                        d.add([even(tip), even(*near[0]), even(*near[1]), even(*near[2])]);
                    }
                }
            }
        }
    }
    d
}

// Points near the corners of a cube of side 2 * half, numbered anyhow.
pub fn bent_cube(dice: &mut Dice, half: i32, by: i32) -> Vec<[i32; 3]> {
    let mut points = Vec::new();
    for bits in 0..8 {
        let mut p = [0; 3];
        for (axis, c) in p.iter_mut().enumerate() {
            *c = if bits >> axis & 1 == 1 { half } else { -half } + dice.between(-by, by);
        }
        points.push(p);
    }
    dice.shuffle(&mut points);
    points
}

// Any tetrahedra on few points, as many as can be added.
pub fn crowded(dice: &mut Dice, points: Vec<[i32; 3]>) -> Draft {
    let n = points.len() as u16;
    let mut growing = Growing::new(points);
    let mut all = Vec::new();
    for p in 0..n {
        for q in p + 1..n {
            for r in q + 1..n {
                for s in r + 1..n {
                    all.push([p, q, r, s]);
                }
            }
        }
    }
    dice.shuffle(&mut all);
    for t in all {
        growing.try_add(t);
    }
    growing.draft
}

// Tetrahedra glued facet to facet: each takes a free facet and a new point or one that is there.
pub fn glued(dice: &mut Dice, tets: usize, most_points: usize, range: i32) -> Draft {
    let point = |dice: &mut Dice| [dice.between(-range, range), dice.between(-range, range), dice.between(-range, range)];
    let mut growing = Growing::new((0..4).map(|_| point(dice)).collect());
    while !growing.try_add([0, 1, 2, 3]) {
        growing.draft.points = (0..4).map(|_| point(dice)).collect();
    }
    for _ in 0..tets * 4 {
        if growing.draft.tets.len() >= tets {
            break;
        }
        if let Some(f) = growing.a_free_facet(dice) {
            let n = growing.draft.points.len();
            if n < most_points && dice.one_in(3) {
                let p = point(dice);
                growing.draft.points.push(p);
                if !growing.try_add([f[0], f[1], f[2], n as u16]) {
                    growing.draft.points.pop();
                }
            } else {
                let v = dice.below(n) as u16;
                if !f.contains(&v) {
                    growing.try_add([f[0], f[1], f[2], v]);
                }
            }
        }
    }
    growing.draft
}

// A centre joined to every triangle of a sphere of `rings` circles of `around` points and two poles.
pub fn hub(rings: usize, around: usize) -> Draft {
    let mut d = Draft::default();
    let radius = 40_000.0;
    d.points.push([0, 0, 0]);
    let turn = std::f64::consts::PI;
    for r in 0..rings {
        let down = turn * (r + 1) as f64 / (rings + 1) as f64;
        for k in 0..around {
            let side = 2.0 * turn * (k as f64 + 0.5 * (r % 2) as f64) / around as f64;
            let at = [down.sin() * side.cos(), down.sin() * side.sin(), down.cos()];
            d.points.push(at.map(|c| (c * radius) as i32));
        }
    }
    d.points.push([0, 0, radius as i32]);
    d.points.push([0, 0, -radius as i32]);
    let top = (1 + rings * around) as u16;
    let at = |r: usize, k: usize| (1 + r * around + k % around) as u16;
    for k in 0..around {
        d.add([0, top, at(0, k), at(0, k + 1)]);
        d.add([0, top + 1, at(rings - 1, k), at(rings - 1, k + 1)]);
        for r in 0..rings - 1 {
            let shift = r % 2;
            d.add([0, at(r, k), at(r, k + 1), at(r + 1, k + shift)]);
            d.add([0, at(r + 1, k), at(r + 1, k + 1), at(r, k + 1 - shift)]);
        }
    }
    d
}

// A hub with more points: each splits one triangle of the sphere into three.
pub fn hub_of(degree: usize, rings: usize, around: usize) -> Draft {
    let mut d = hub(rings, around);
    let mut next = 0;
    while d.points.len() <= degree {
        let [o, x, y, z] = {
            let mut t = d.tets[next];
            while t[0] != 0 {
                t.rotate_left(1);
            }
            t
        };
        let mut middle = [0.0; 3];
        for v in [x, y, z] {
            for (sum, c) in middle.iter_mut().zip(d.points[v as usize]) {
                *sum += f64::from(c);
            }
        }
        let length = middle.iter().map(|c| c * c).sum::<f64>().sqrt();
        let new = d.points.len() as u16;
        d.points.push(middle.map(|c| (c / length * 40_000.0) as i32));
        d.tets.remove(next);
        d.parts.remove(next);
        for (p, q) in [(x, y), (y, z), (z, x)] {
            d.add([o, p, q, new]);
        }
        next += 11;
    }
    d
}

// `ring` tetrahedra round one edge, the last joined to the first or not.
pub fn fan(ring: usize, closed: bool, radius: f64) -> Draft {
    let mut d = Draft { points: vec![[0, 0, -20_000], [0, 0, 20_000]], ..Draft::default() };
    for k in 0..ring {
        let side = 2.0 * std::f64::consts::PI * k as f64 / ring as f64;
        d.points.push([(side.cos() * radius) as i32, (side.sin() * radius) as i32, 0]);
    }
    for k in 0..if closed { ring } else { ring - 1 } {
        d.add([0, 1, 2 + k as u16, 2 + ((k + 1) % ring) as u16]);
    }
    d
}

// `count` points on an axis, and a tetrahedron for each two that follow each other and each edge of a ring of `ring` points round it.
pub fn poles(count: usize, ring: usize) -> Draft {
    let mut d = Draft::default();
    for i in 0..count {
        d.points.push([0, 0, -20_000 + (40_000 * i / (count - 1)) as i32]);
    }
    for k in 0..ring {
        let side = 2.0 * std::f64::consts::PI * k as f64 / ring as f64;
        d.points.push([(side.cos() * 45_000.0) as i32, (side.sin() * 45_000.0) as i32, 0]);
    }
    for i in 0..count - 1 {
        for k in 0..ring {
            let at = |k: usize| (count + k % ring) as u16;
            d.add([i as u16, i as u16 + 1, at(k), at(k + 1)]);
        }
    }
    d
}

// A cube of five tetrahedra, bent, with tetrahedra on the four corners of a face where that face
// bulges, so that the face has its other diagonal outside.
pub fn capped(dice: &mut Dice) -> Draft {
    let cube = grid(Cubes::Five, [1 + dice.below(2), 1, 1], 1_000).jittered(dice, 250);
    let mut growing = Growing::from(cube);
    let faces = [[0, 1, 3, 2], [4, 5, 7, 6], [0, 1, 5, 4], [2, 3, 7, 6], [0, 2, 6, 4], [1, 3, 7, 5]];
    if growing.draft.points.len() == 8 {
        for f in faces {
            if !dice.one_in(3) {
                growing.try_add(f);
            }
        }
    } else {
        let n = growing.draft.points.len();
        for _ in 0..40 {
            let mut four: Vec<u16> = (0..n as u16).collect();
            dice.shuffle(&mut four);
            growing.try_add([four[0], four[1], four[2], four[3]]);
        }
    }
    growing.draft
}

// Two cubes whose common face has a different diagonal on each side, a flat tetrahedron between.
pub fn slivered(dice: &mut Dice) -> Draft {
    let step = 1_000;
    let mut points = Vec::new();
    for z in 0..2 {
        for y in 0..2 {
            for x in 0..3 {
                points.push([x * step, y * step, z * step]);
            }
        }
    }
    let bend = dice.between(1, 200);
    for v in [1, 10] {
        points[v][0] -= bend;
    }
    for v in [4, 7] {
        points[v][0] += bend;
    }
    let mut growing = Growing::new(points);
    let cube = |x: u16, flip: bool| {
        let at = |bits: [u16; 3]| x + bits[0] + 3 * bits[1] + 6 * bits[2];
        let turn = |b: [u16; 3]| if flip { at([1 - b[0], b[1], b[2]]) } else { at(b) };
        let mut tets = vec![[[0, 0, 0], [1, 1, 0], [1, 0, 1], [0, 1, 1]].map(turn)];
        tets.push([[1, 0, 0], [0, 0, 0], [1, 1, 0], [1, 0, 1]].map(turn));
        tets.push([[0, 1, 0], [0, 0, 0], [1, 1, 0], [0, 1, 1]].map(turn));
        tets.push([[0, 0, 1], [0, 0, 0], [1, 0, 1], [0, 1, 1]].map(turn));
        tets.push([[1, 1, 1], [1, 1, 0], [1, 0, 1], [0, 1, 1]].map(turn));
        tets
    };
    let flip = dice.one_in(2);
    for t in cube(0, flip).into_iter().chain(cube(1, flip)) {
        growing.try_add(t);
    }
    growing.try_add([1, 4, 7, 10]);
    growing.draft
}

// Whether e lies strictly inside the sphere through a b c d, whose box is above zero.
fn in_sphere(a: &[i32; 3], b: &[i32; 3], c: &[i32; 3], d: &[i32; 3], e: &[i32; 3]) -> bool {
    let rows: Vec<[i128; 4]> = [a, b, c, d]
        .iter()
        .map(|p| {
            let v = [0, 1, 2].map(|i| (p[i] - e[i]) as i128);
            [v[0], v[1], v[2], v[0] * v[0] + v[1] * v[1] + v[2] * v[2]]
        })
        .collect();
    let three = |r: [usize; 3]| {
        let m = r.map(|i| rows[i]);
        m[0][0] * (m[1][1] * m[2][2] - m[1][2] * m[2][1]) - m[0][1] * (m[1][0] * m[2][2] - m[1][2] * m[2][0])
            + m[0][2] * (m[1][0] * m[2][1] - m[1][1] * m[2][0])
    };
    let det = -rows[0][3] * three([1, 2, 3]) + rows[1][3] * three([0, 2, 3]) - rows[2][3] * three([0, 1, 3])
        + rows[3][3] * three([0, 1, 2]);
    det < 0
}

// Random points inside a cube, each put in by emptying the spheres it lies in (Bowyer and Watson).
// A point that would leave a flat tetrahedron is passed over.
pub fn scattered(dice: &mut Dice, points: usize, range: i32) -> Draft {
    let far = range + range / 4 + 3;
    let mut d = grid(Cubes::Five, [1, 1, 1], 2 * far);
    for p in &mut d.points {
        for c in p.iter_mut() {
            *c -= far;
        }
    }
    let mut tries = 0;
    while d.points.len() < points + 8 && tries < points * 4 {
        tries += 1;
        let e = [dice.between(-range, range), dice.between(-range, range), dice.between(-range, range)];
        let at = |v: u16| d.points[v as usize];
        let (out, kept): (Vec<[u16; 4]>, Vec<[u16; 4]>) =
            d.tets.iter().partition(|t| in_sphere(&at(t[0]), &at(t[1]), &at(t[2]), &at(t[3]), &e));
        let mut rim: HashMap<[u16; 3], u32> = HashMap::new();
        for t in &out {
            for left_out in 0..4 {
                *rim.entry(rising3(without(t, left_out))).or_default() += 1;
            }
        }
        let mut rim: Vec<[u16; 3]> = rim.into_iter().filter(|(_, times)| *times == 1).map(|(f, _)| f).collect();
        rim.sort_unstable();
        let new = d.points.len() as u16;
        let mut grown = Growing::new(d.points.clone());
        grown.draft.points.push(e);
        let fits = kept.iter().all(|t| grown.try_add(*t)) && rim.iter().all(|f| grown.try_add([f[0], f[1], f[2], new]));
        if fits {
            d = grown.draft;
        }
    }
    // the cube's own corners go, where enough is left without them
    let inner: Vec<[u16; 4]> = d.tets.iter().filter(|t| t.iter().all(|v| *v >= 8)).copied().collect();
    if inner.len() > d.tets.len() / 3 {
        d.parts.truncate(inner.len());
        d.tets = inner;
    }
    d.packed()
}

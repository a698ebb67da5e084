// Cells of a mesh: what they are, condition by condition, and all of them.
//
// The shapes are not tables here. A hexahedron's corners are the points of {0,1}^3, a prism's are a
// triangle's corners at two heights, a pyramid's are a square's corners and an apex; faces, corner
// tests and turns follow from that. All cells are found face by face: two facets of the mesh that
// share an edge make a four-sided face, and a cell is put together from such faces.
use crate::mesh::{rising3, without, Mesh, Vertex};
use crate::slips::{is, Slip};
use std::collections::{BTreeMap, BTreeSet, HashMap, HashSet};

#[derive(Clone, Debug, PartialEq, Eq)]
pub struct Cell {
    pub kind: u16,
    pub corners: Vec<Vertex>,
    pub tetrahedra: Vec<u16>,
}

// Corners are counted in letter order, a first.
pub struct Shape {
    pub kind: u16,
    pub triangles: Vec<[usize; 3]>,
    pub squares: Vec<[usize; 4]>,
    // a corner and its three neighbours, in the order that makes the box positive
    pub corners: Vec<[usize; 4]>,
    // where each corner comes from, for each way to turn the shape
    pub turns: Vec<Vec<usize>>,
}

// Letters of the points of {0,1}^3, x counted first: 000 is a, 100 is b, 010 is d, 110 is c.
const ROUND: [usize; 4] = [0, 1, 3, 2];

fn cube_letter(at: [usize; 3]) -> usize {
    ROUND[at[0] + 2 * at[1]] + 4 * at[2]
}

fn cube_points() -> Vec<[usize; 3]> {
    let mut points = vec![[0; 3]; 8];
    for bits in 0..8 {
        let at = [bits & 1, bits >> 1 & 1, bits >> 2 & 1];
        points[cube_letter(at)] = at;
    }
    points
}

fn hexahedron() -> Shape {
    let points = cube_points();
    let step = |at: &[usize; 3], axis: usize| {
        let mut to = *at;
        to[axis] = 1 - to[axis];
        to
    };
    let mut squares = Vec::new();
    for axis in 0..3 {
        for side in 0..2 {
            let mut first = [0; 3];
            first[axis] = side;
            let second = step(&first, (axis + 1) % 3);
            let third = step(&second, (axis + 2) % 3);
            let fourth = step(&first, (axis + 2) % 3);
            squares.push([cube_letter(first), cube_letter(second), cube_letter(third), cube_letter(fourth)]);
        }
    }
    let mut corners = Vec::new();
    for at in &points {
        let mut towards = [0, 1, 2].map(|axis| cube_letter(step(at, axis)));
        if at.iter().sum::<usize>() % 2 == 1 {
            towards.swap(0, 1);
        }
        corners.push([cube_letter(*at), towards[0], towards[1], towards[2]]);
    }
    let mut turns = Vec::new();
    for (axes, odd) in [([0, 1, 2], 0), ([1, 2, 0], 0), ([2, 0, 1], 0), ([1, 0, 2], 1), ([0, 2, 1], 1), ([2, 1, 0], 1)] {
        for flips in cube_points() {
            if (flips.iter().sum::<usize>() + odd) % 2 == 0 {
                let from = |at: &[usize; 3]| cube_letter([0, 1, 2].map(|i| at[axes[i]] ^ flips[i]));
                turns.push(points.iter().map(from).collect());
            }
        }
    }
    Shape { kind: 8, triangles: vec![], squares, corners, turns }
}

fn prism() -> Shape {
    let letter = |round: usize, height: usize| round % 3 + 3 * height;
    let mut squares = Vec::new();
    let mut corners = Vec::new();
    let mut turns = Vec::new();
    for i in 0..3 {
        squares.push([letter(i, 0), letter(i + 1, 0), letter(i + 1, 1), letter(i, 1)]);
        corners.push([letter(i, 0), letter(i + 1, 0), letter(i + 2, 0), letter(i, 1)]);
        corners.push([letter(i, 1), letter(i + 2, 1), letter(i + 1, 1), letter(i, 0)]);
        turns.push((0..6).map(|k| letter(k % 3 + i, k / 3)).collect());
        turns.push((0..6).map(|k| letter(3 + i - k % 3, 1 - k / 3)).collect());
    }
    Shape { kind: 6, triangles: vec![[0, 1, 2], [3, 4, 5]], squares, corners, turns }
}

fn pyramid() -> Shape {
    let mut triangles = Vec::new();
    let mut corners = Vec::new();
    let mut turns = Vec::new();
    for i in 0..4 {
        triangles.push([i, (i + 1) % 4, 4]);
        corners.push([i, (i + 1) % 4, (i + 3) % 4, 4]);
        turns.push((0..5).map(|k| if k < 4 { (k + i) % 4 } else { 4 }).collect());
    }
    Shape { kind: 5, triangles, squares: vec![[0, 1, 2, 3]], corners, turns }
}

pub fn shape(kind: u16) -> Option<Shape> {
    match kind {
        8 => Some(hexahedron()),
        6 => Some(prism()),
        5 => Some(pyramid()),
        _ => None,
    }
}

// The turn of a tuple that stands for its cell.
pub fn is_least(kind: u16, t: &[Vertex]) -> bool {
    let least_of = |others: &[Vertex]| others.iter().all(|v| t[0] < *v);
    match kind {
        8 => least_of(&t[1..]) && t[1] < t[3] && (t[1] < t[4] || is(Slip::b_below_d_only)),
        6 => least_of(&t[1..]),
        _ => least_of(&t[1..4]),
    }
}

// The least form of a tuple with zeros behind it, or refusal 13.
pub fn least_form(kind: u16, corners: &[Vertex; 8]) -> Result<[Vertex; 8], u32> {
    let shape = match shape(kind) {
        Some(s) => s,
        None => return Err(13),
    };
    let used = &corners[..kind as usize];
    let distinct: BTreeSet<_> = used.iter().collect();
    if distinct.len() < used.len() && !is(Slip::least_twice) {
        return Err(13);
    }
    let mut least = if is(Slip::least_unused) { *corners } else { [0; 8] };
    for turn in &shape.turns {
        let turned: Vec<Vertex> = turn.iter().map(|i| used[*i]).collect();
        if is_least(kind, &turned) {
            least[..turned.len()].copy_from_slice(&turned);
        }
    }
    Ok(least)
}

// What the conditions ask of a mesh, gathered once.
pub struct Known<'a> {
    mesh: &'a Mesh,
    edges: HashSet<(Vertex, Vertex)>,
    facets: HashSet<[Vertex; 3]>,
    around: Vec<Vec<u16>>,
    // across[v][w]: the third corners of the facets on the edge vw
    across: Vec<BTreeMap<Vertex, BTreeSet<Vertex>>>,
    // faces on the side xy, by x and y: w and z, where x y z w goes round the face
    rings: HashMap<(Vertex, Vertex), Vec<(Vertex, Vertex)>>,
    shapes: Vec<Shape>,
}

impl<'a> Known<'a> {
    pub fn new(mesh: &'a Mesh) -> Known<'a> {
        let n = mesh.points.len();
        let mut known = Known {
            mesh,
            edges: HashSet::new(),
            facets: HashSet::new(),
            around: vec![Vec::new(); n],
            across: vec![BTreeMap::new(); n],
            rings: HashMap::new(),
            shapes: vec![hexahedron(), prism(), pyramid()],
        };
        for (number, t) in mesh.tetrahedra.iter().enumerate() {
            for v in t.corners {
                known.around[v as usize].push(number as u16);
                for w in t.corners {
                    if v != w {
                        known.edges.insert((v, w));
                    }
                }
            }
            for left_out in 0..4 {
                let f = rising3(without(&t.corners, left_out));
                if known.facets.insert(f) {
                    for (v, w, x) in [(0, 1, 2), (1, 0, 2), (0, 2, 1), (2, 0, 1), (1, 2, 0), (2, 1, 0)] {
                        known.across[f[v] as usize].entry(f[w]).or_default().insert(f[x]);
                    }
                }
            }
        }
        known.find_rings();
        known
    }

    // Two facets p q r and p q s make the face p r q s.
    fn find_rings(&mut self) {
        let mut rings: HashMap<(Vertex, Vertex), BTreeSet<(Vertex, Vertex)>> = HashMap::new();
        for (p, by_q) in self.across.iter().enumerate() {
            let p = p as Vertex;
            for (q, thirds) in by_q {
                for r in thirds {
                    for s in thirds {
                        if r != s {
                            rings.entry((p, *r)).or_default().insert((*s, *q));
                            rings.entry((*r, p)).or_default().insert((*q, *s));
                        }
                    }
                }
            }
        }
        self.rings = rings.into_iter().map(|(k, v)| (k, v.into_iter().collect())).collect();
    }

    // All (w, z) such that x y z w goes round a face.
    fn ring(&self, x: Vertex, y: Vertex) -> &[(Vertex, Vertex)] {
        self.rings.get(&(x, y)).map_or(&[], |v| v)
    }

    // All z such that x y z w goes round a face.
    fn fourth(&self, w: Vertex, x: Vertex, y: Vertex) -> &[(Vertex, Vertex)] {
        let all = self.ring(x, y);
        let from = all.partition_point(|e| e.0 < w);
        let len = all[from..].partition_point(|e| e.0 == w);
        &all[from..from + len]
    }

    fn is_facet(&self, x: Vertex, y: Vertex, z: Vertex) -> bool {
        self.facets.contains(&rising3([x, y, z]))
    }

    fn is_face(&self, x: Vertex, y: Vertex, z: Vertex, w: Vertex) -> bool {
        self.is_facet(x, y, z) && self.is_facet(x, z, w) || self.is_facet(x, y, w) && self.is_facet(y, z, w)
    }

    fn above_zero(&self, p: Vertex, q: Vertex, r: Vertex, s: Vertex) -> bool {
        let volume = self.mesh.volume(p, q, r, s);
        volume > 0 || volume == 0 && is(Slip::flat_corner)
    }

    fn sound(&self, shape: &Shape, t: &[Vertex]) -> bool {
        shape.corners.iter().all(|c| {
            if is(Slip::corner_g_free) && shape.kind == 8 && c[0] == 6 {
                return true;
            }
            if is(Slip::apex_turned) && shape.kind == 5 {
                return self.above_zero(t[c[0]], t[c[2]], t[c[1]], t[c[3]]);
            }
            self.above_zero(t[c[0]], t[c[1]], t[c[2]], t[c[3]])
        })
    }

    // The tetrahedra on the corners alone, boundary tetrahedra left out. Four of m corners always
    // hold one of any m - 3, so the corners with the most tetrahedra need no look.
    fn inside(&self, shape: &Shape, t: &[Vertex]) -> Vec<u16> {
        let mut by_size = t.to_vec();
        by_size.sort_by_key(|v| self.around[*v as usize].len());
        let mut found = BTreeSet::new();
        for v in &by_size[..t.len() - 3] {
            for number in &self.around[*v as usize] {
                let corners = &self.mesh.tetrahedra[*number as usize].corners;
                let flat = |s: &[usize; 4]| s.iter().all(|i| corners.contains(&t[*i]));
                let boundary = shape.squares.iter().any(flat) && !is(Slip::boundary_in);
                if corners.iter().all(|c| t.contains(c)) && !boundary {
                    found.insert(*number);
                }
            }
        }
        found.into_iter().collect()
    }

    // Condition 5 on the facets of a cell's tetrahedra.
    fn closed(&self, shape: &Shape, t: &[Vertex], inside: &[u16]) -> bool {
        let mut count: BTreeMap<[Vertex; 3], u32> = BTreeMap::new();
        for number in inside {
            for left_out in 0..4 {
                *count.entry(rising3(without(&self.mesh.tetrahedra[*number as usize].corners, left_out))).or_default() += 1;
            }
        }
        let times = |x: usize, y: usize, z: usize| count.get(&rising3([t[x], t[y], t[z]])).copied().unwrap_or(0);
        let mut outline = BTreeSet::new();
        for f in &shape.triangles {
            if times(f[0], f[1], f[2]) != 1 {
                return false;
            }
            outline.insert(rising3([t[f[0]], t[f[1]], t[f[2]]]));
        }
        for s in &shape.squares {
            let one = [[s[0], s[1], s[2]], [s[0], s[2], s[3]]];
            let other = [[s[0], s[1], s[3]], [s[1], s[2], s[3]]];
            let single = |pair: &[[usize; 3]; 2]| pair.iter().all(|f| times(f[0], f[1], f[2]) == 1);
            if single(&one) == single(&other) {
                return false;
            }
            for f in if single(&one) { one } else { other } {
                outline.insert(rising3([t[f[0]], t[f[1]], t[f[2]]]));
            }
        }
        count.iter().all(|(f, times)| *times == 2 || outline.contains(f) || *times == 1 && is(Slip::inside_free))
    }

    // The six conditions, one after the other.
    fn judge(&self, kind: u16, t: &[Vertex]) -> Option<Cell> {
        let shape = self.shapes.iter().find(|s| s.kind == kind)?;
        let n = self.mesh.points.len();
        let distinct: BTreeSet<_> = t.iter().collect();
        if distinct.len() < t.len() || t.iter().any(|v| *v as usize >= n) {
            return None;
        }
        let side = |x: usize, y: usize| self.edges.contains(&(t[x], t[y]));
        let sides_stand = shape.squares.iter().all(|s| (0..4).all(|i| side(s[i], s[(i + 1) % 4])))
            && shape.triangles.iter().all(|f| (0..3).all(|i| side(f[i], f[(i + 1) % 3])));
        if !sides_stand {
            return None;
        }
        let faces_stand = shape.triangles.iter().all(|f| self.is_facet(t[f[0]], t[f[1]], t[f[2]]))
            && shape.squares.iter().all(|s| self.is_face(t[s[0]], t[s[1]], t[s[2]], t[s[3]]));
        if !faces_stand || !self.sound(shape, t) {
            return None;
        }
        let inside = self.inside(shape, t);
        if !self.closed(shape, t, &inside) {
            return None;
        }
        let parts: BTreeSet<u16> = inside.iter().map(|i| self.mesh.tetrahedra[*i as usize].part).collect();
        if parts.len() > 1 && !is(Slip::parts_mixed) {
            return None;
        }
        Some(Cell { kind, corners: t.to_vec(), tetrahedra: inside })
    }

    fn consider(&self, kind: u16, t: &[Vertex], found: &mut Vec<Cell>) {
        if is_least(kind, t) {
            found.extend(self.judge(kind, t));
        }
    }

    // Faces a b c d and a b f e on one side, then a d h e and b c g f between them.
    fn hexahedra(&self, found: &mut Vec<Cell>) {
        for (&(a, b), ring) in &self.rings {
            let later: Vec<_> = ring.iter().filter(|(w, z)| a < b && a < *w && a < *z).collect();
            for &&(d, c) in later.iter().filter(|(d, _)| b < *d) {
                for &&(e, f) in later.iter().filter(|(e, _)| b < *e || is(Slip::b_below_d_only)) {
                    let apart = d != e && d != f && c != e && c != f;
                    if !apart || !self.above_zero(a, b, d, e) || !self.above_zero(b, c, a, f) {
                        continue;
                    }
                    for &(_, h) in self.fourth(e, a, d) {
                        let apart = h != b && h != c && h != f;
                        if !apart || !self.above_zero(d, a, c, h) || !self.above_zero(e, h, f, a) {
                            continue;
                        }
                        for &(_, g) in self.fourth(f, b, c) {
                            if self.is_face(d, c, g, h) && self.is_face(e, f, g, h) {
                                self.consider(8, &[a, b, c, d, e, f, g, h], found);
                            }
                        }
                    }
                }
            }
        }
    }

    // A facet a b c, the face a b e d on its side a b, then b c f e.
    fn prisms(&self, found: &mut Vec<Cell>) {
        for facet in &self.facets {
            let a = facet[0];
            for (b, c) in [(facet[1], facet[2]), (facet[2], facet[1])] {
                for &(d, e) in self.ring(a, b) {
                    for &(_, f) in self.fourth(e, b, c) {
                        if self.is_facet(d, e, f) && self.is_face(a, c, f, d) {
                            self.consider(6, &[a, b, c, d, e, f], found);
                        }
                    }
                }
            }
        }
    }

    // A face a b c d, and a facet on its side a b.
    fn pyramids(&self, found: &mut Vec<Cell>) {
        for (&(a, b), ring) in &self.rings {
            for &(d, c) in ring {
                if a < b && a < c && a < d {
                    for e in &self.across[a as usize][&b] {
                        self.consider(5, &[a, b, c, d, *e], found);
                    }
                }
            }
        }
    }

    pub fn all(&self) -> Vec<Cell> {
        let mut found = Vec::new();
        self.hexahedra(&mut found);
        self.prisms(&mut found);
        self.pyramids(&mut found);
        found.sort_by_key(rank);
        found.dedup();
        if is(Slip::by_tetrahedra) {
            let mut seen = HashSet::new();
            found.retain(|c| seen.insert((c.kind, c.tetrahedra.clone())));
        }
        found
    }
}

// The place of a tuple among its kind's: hexahedra are compared by a, b, d, e, c, f, h, g.
pub fn place(kind: u16, t: &[Vertex]) -> Vec<Vertex> {
    if kind == 8 && !is(Slip::letter_order) {
        [0, 1, 3, 4, 2, 5, 7, 6].iter().map(|i| t[*i]).collect()
    } else {
        t.to_vec()
    }
}

pub fn rank(c: &Cell) -> (u16, Vec<Vertex>) {
    (8 - c.kind, place(c.kind, &c.corners))
}

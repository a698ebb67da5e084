// Why a tuple of corners is no cell, or which cell it is.
//
// A reason is told by a row of the statement's tables, so they stand here, in its letters and in its order. Nothing is
// searched for: edges and facets are looked up among those of all tetrahedra, and condition 5 is read off from how often
// each triple of corners is a facet, wherever it lies.
use crate::cells::{least_form, shape, Shape};
use crate::mesh::{read, rising3, without, Mesh, Tetrahedron, Vertex};
use crate::portion::words;
use crate::slips::{is, Slip};
use std::collections::{BTreeMap, BTreeSet};

pub const ANSWER: usize = 10;
pub const OTHER_KIND: u32 = 16;
const LEAST: u16 = 0;
const TURNED: u16 = 7;

// The entries of an answer, and what was found where they point to.
#[derive(Clone, Debug, PartialEq, Eq)]
pub struct Reason {
    pub entries: [u16; ANSWER],
    pub found: Vec<i128>,
}

impl Reason {
    fn new(begin: &[u16], found: Vec<i128>) -> Reason {
        let mut entries = [0; ANSWER];
        entries[..begin.len()].copy_from_slice(begin);
        Reason { entries, found }
    }
}

// A kind's rows. A letter is counted from a, and a corner stands before its three neighbours.
pub struct Rows {
    pub edges: Vec<Vec<usize>>,
    pub triangles: Vec<Vec<usize>>,
    pub squares: Vec<Vec<usize>>,
    pub corners: Vec<Vec<usize>>,
}

fn letters(rows: &str) -> Vec<Vec<usize>> {
    rows.split_whitespace().map(|row| row.bytes().map(|b| usize::from(b - b'a')).collect()).collect()
}

pub fn rows(kind: u16) -> Option<Rows> {
    let (edges, triangles, squares, corners) = match kind {
        8 => (
            "ab bc cd ad ae bf cg dh ef fg gh eh",
            "",
            "abcd efgh abfe dcgh bcgf adhe",
            "abde bcaf cdbg dach ehfa fegb gfhc hged",
        ),
        6 => ("ab bc ca ad be cf de ef fd", "abc def", "abed efcb acfd", "abcd bcae cabf dfea edfb fedc"),
        5 => ("ab bc cd ad ae be ce de", "abe bce cde ade", "abcd", "abde bcae cdbe dace"),
        _ => return None,
    };
    Some(Rows { edges: letters(edges), triangles: letters(triangles), squares: letters(squares), corners: letters(corners) })
}

impl Rows {
    // All faces in one numbering.
    pub fn faces(&self) -> Vec<&Vec<usize>> {
        if is(Slip::squares_first) {
            return self.squares.iter().chain(&self.triangles).collect();
        }
        self.triangles.iter().chain(&self.squares).collect()
    }

    // The face on which three letters lie, and along which of its diagonals. A triangle is taken for its own first diagonal.
    // Of a quadrilateral three letters leave out one, which is no end of the diagonal that they lie along.
    pub fn place(&self, three: &[usize; 3]) -> Option<(usize, usize)> {
        let faces = self.faces();
        let row = faces.iter().position(|face| three.iter().all(|letter| face.contains(letter)))?;
        let left_out = faces[row].iter().position(|letter| !three.contains(letter));
        Some((row, left_out.map_or(0, |at| 1 - at % 2)))
    }
}

// A face's triangles: one, or of the corners in turn 0 1 2 and 0 2 3 along the one diagonal, 0 1 3 and 1 2 3 along the other.
fn triangles_of(face: &[usize]) -> Vec<[usize; 3]> {
    match face {
        [x, y, z] => vec![[*x, *y, *z]],
        [x, y, z, w] => vec![[*x, *y, *z], [*x, *z, *w], [*x, *y, *w], [*y, *z, *w]],
        _ => vec![],
    }
}

// How many of some tetrahedra have each facet, its corners rising.
fn tally<'a>(tetrahedra: impl Iterator<Item = &'a Tetrahedron>) -> BTreeMap<[Vertex; 3], i128> {
    let mut times = BTreeMap::new();
    for t in tetrahedra {
        for left_out in 0..4 {
            *times.entry(rising3(without(&t.corners, left_out))).or_default() += 1;
        }
    }
    times
}

fn times(tally: &BTreeMap<[Vertex; 3], i128>, t: &[Vertex], three: &[usize; 3]) -> i128 {
    tally.get(&rising3(three.map(|letter| t[letter]))).copied().unwrap_or(0)
}

// All threes of so many letters, in letter order.
fn threes(letters: usize) -> Vec<[usize; 3]> {
    let mut all = Vec::new();
    for x in 0..letters {
        for y in x + 1..letters {
            all.extend((y + 1..letters).map(|z| [x, y, z]));
        }
    }
    all
}

// What reasons are told from, gathered once for a mesh.
pub struct Sides<'a> {
    mesh: &'a Mesh,
    edges: BTreeSet<[Vertex; 2]>,
    facets: BTreeMap<[Vertex; 3], i128>,
}

impl<'a> Sides<'a> {
    pub fn new(mesh: &'a Mesh) -> Sides<'a> {
        let mut edges = BTreeSet::new();
        for t in &mesh.tetrahedra {
            for v in t.corners {
                edges.extend(t.corners.iter().filter(|w| **w != v).map(|w| [v, *w]));
            }
        }
        Sides { mesh, edges, facets: tally(mesh.tetrahedra.iter()) }
    }

    // The first condition that fails. Once the corners are vertices, the others can be asked one without the other.
    fn why(&self, kind: u16, corners: &[Vertex; 8]) -> Result<Reason, u32> {
        let rows = rows(kind).ok_or(OTHER_KIND)?;
        let t = &corners[..kind as usize];
        if let Some(reason) = self.strange_corner(if is(Slip::unused_corner) { corners } else { t }) {
            return Ok(reason);
        }
        let inside = self.inside(&rows, t);
        let mut told = [
            self.missing_edge(&rows, t),
            self.missing_face(&rows, t),
            self.unsound_corner(&rows, t),
            self.open(&rows, t, &inside),
            self.mixed(&inside),
        ];
        if is(Slip::box_before_face) {
            told.swap(1, 2);
        }
        if is(Slip::parts_before_facets) {
            told.swap(3, 4);
        }
        told.into_iter().flatten().next().map_or_else(|| cell(kind, corners, &inside), Ok)
    }

    fn strange_corner(&self, t: &[Vertex]) -> Option<Reason> {
        let n = self.mesh.points.len();
        let again = |place: usize| t[..place].contains(&t[place]) && !is(Slip::equal_corner);
        let place = (0..t.len()).find(|place| t[*place] as usize >= n || again(*place))?;
        Some(Reason::new(&[1, place as u16 + u16::from(is(Slip::place_from_one))], vec![n as i128]))
    }

    fn missing_edge(&self, rows: &Rows, t: &[Vertex]) -> Option<Reason> {
        let missing = |row: &usize| !self.edges.contains(&[t[rows.edges[*row][0]], t[rows.edges[*row][1]]]);
        let all: Vec<usize> = (0..rows.edges.len()).filter(missing).collect();
        let row = if is(Slip::later_edge) { all.last()? } else { all.first()? };
        Some(Reason::new(&[2, *row as u16], vec![]))
    }

    fn missing_face(&self, rows: &Rows, t: &[Vertex]) -> Option<Reason> {
        for (row, face) in rows.faces().iter().enumerate() {
            let found: Vec<i128> = triangles_of(face).iter().map(|three| times(&self.facets, t, three)).collect();
            // a triangle is a pair of one
            if !found.chunks(2).any(|pair| pair.iter().all(|times| *times > 0)) {
                return Some(Reason::new(&[3, row as u16], if found.len() == 1 { vec![] } else { found }));
            }
        }
        None
    }

    fn unsound_corner(&self, rows: &Rows, t: &[Vertex]) -> Option<Reason> {
        let volumes: Vec<i128> = rows.corners.iter().map(|c| self.mesh.volume(t[c[0]], t[c[1]], t[c[2]], t[c[3]])).collect();
        let row = volumes.iter().position(|volume| *volume < 0 || *volume == 0 && !is(Slip::zero_box))?;
        Some(Reason::new(&[4, row as u16], vec![volumes[row]]))
    }

    // The numbers of the tetrahedra on the corners that are not on one quadrilateral.
    pub fn inside(&self, rows: &Rows, t: &[Vertex]) -> Vec<usize> {
        let on_corners = |own: &[Vertex; 4]| own.iter().all(|v| t.contains(v));
        let on_square = |own: &[Vertex; 4]| rows.squares.iter().any(|s| s.iter().all(|letter| own.contains(&t[*letter])));
        let all = self.mesh.tetrahedra.iter().map(|t| &t.corners).enumerate();
        all.filter(|(_, own)| on_corners(own) && (!on_square(own) || is(Slip::on_square_in))).map(|(number, _)| number).collect()
    }

    // Condition 5, over all triples of corners: those on a face settle it or not, and those that settle none must pair.
    fn open(&self, rows: &Rows, t: &[Vertex], inside: &[usize]) -> Option<Reason> {
        let tally = tally(inside.iter().map(|number| &self.mesh.tetrahedra[*number]));
        let faces = rows.faces();
        let mut once = vec![[0; 2]; faces.len()];
        for three in threes(t.len()).iter().filter(|three| times(&tally, t, three) == 1) {
            if let Some((row, diagonal)) = rows.place(three) {
                once[row][diagonal] += 1;
            }
        }
        // a face of m corners has m - 2 triangles along a diagonal; the other diagonal of a triangle has none and is never whole
        let whole = |row: usize, diagonal: usize| once[row][diagonal] == faces[row].len() - 2;
        let open = (0..faces.len()).find(|row| whole(*row, 0) == whole(*row, 1));
        let passed = |row: usize, diagonal: usize| whole(row, diagonal) || is(Slip::faces_passed);
        let settles = |three: &[usize; 3]| rows.place(three).map_or(false, |(row, diagonal)| passed(row, diagonal));
        let triple = unpaired(t, &tally, settles);
        match open {
            Some(row) if triple.is_none() || !is(Slip::triple_first) => {
                let found = triangles_of(faces[row]).iter().map(|three| times(&tally, t, three)).collect();
                Some(Reason::new(&[5, 0, row as u16], found))
            }
            _ => triple,
        }
    }

    fn mixed(&self, inside: &[usize]) -> Option<Reason> {
        let part = |number: usize| self.mesh.tetrahedra[number].part;
        let first = *inside.first()?;
        let other = *inside.iter().find(|number| part(**number) != part(first))?;
        let found = [first, part(first) as usize, other, part(other) as usize];
        Some(Reason::new(&[6], found.iter().map(|x| *x as i128).collect()))
    }
}

// The least triple of vertices that is a facet neither of none nor of two, out of those that settle no face.
fn unpaired(t: &[Vertex], tally: &BTreeMap<[Vertex; 3], i128>, settles: impl Fn(&[usize; 3]) -> bool) -> Option<Reason> {
    let mut all = threes(t.len());
    all.retain(|three| !settles(three) && ![0, 2].contains(&times(tally, t, three)));
    let vertices = |three: &[usize; 3]| three.map(|letter| t[letter]);
    if !is(Slip::first_triple) {
        all.sort_by_key(|three| rising3(vertices(three)));
    }
    let three = all.first()?;
    let told = if is(Slip::triple_as_it_is) { vertices(three) } else { rising3(vertices(three)) };
    Some(Reason::new(&[5, 1, told[0], told[1], told[2]], vec![times(tally, t, three)]))
}

fn cell(kind: u16, corners: &[Vertex; 8], inside: &[usize]) -> Result<Reason, u32> {
    let least = least_form(kind, corners)?;
    let used = ..kind as usize;
    let form = if least[used] == corners[used] { LEAST } else { TURNED };
    let told = if is(Slip::left_unturned) { &corners[used] } else { &least[used] };
    let begin: Vec<u16> = [form].iter().chain(told).copied().collect();
    Ok(Reason::new(&begin, inside.iter().map(|number| *number as i128).collect()))
}

// The answer to a question about a file that was read: its refusals come before that of the kind.
pub fn answer(sides: &Result<Sides, u32>, kind: u16, corners: &[Vertex; 8]) -> Result<Reason, u32> {
    match sides {
        Err(9) if is(Slip::kind_before_nine) && rows(kind).is_none() => Err(OTHER_KIND),
        Err(number) => Err(*number),
        Ok(sides) => sides.why(kind, corners),
    }
}

// The ten entries on one line and what was found on the next, or the refusal.
pub fn text(answer: &Result<Reason, u32>) -> String {
    match answer {
        Err(number) => format!("refused {}\n", number),
        Ok(reason) => {
            let found: Vec<String> = reason.found.iter().map(|x| x.to_string()).collect();
            format!("{}\n{}\n", words(&reason.entries), found.join(" "))
        }
    }
}

pub fn tell(file: &Vec<u8>, kind: u16, corners: &[Vertex; 8]) -> String {
    let mesh = read(file);
    let sides = mesh.as_ref().map(Sides::new).map_err(|number| *number);
    text(&answer(&sides, kind, corners))
}

// Whether a kind's rows say the same shape as the lister has: its edges, faces and corners, each once.
pub fn rows_fit(kind: u16) -> bool {
    let (rows, shape) = match (rows(kind), shape(kind)) {
        (Some(rows), Some(shape)) => (rows, shape),
        _ => return false,
    };
    let edges = edges_of(&shape);
    let triangles: BTreeSet<Vec<usize>> = shape.triangles.iter().map(|f| sorted(f)).collect();
    let squares: BTreeSet<Vec<Vec<usize>>> = shape.squares.iter().map(|s| diagonals(s)).collect();
    let corners: BTreeSet<Vec<usize>> = shape.corners.iter().map(|c| from_least(c)).collect();
    same(&rows.edges, &edges, sorted)
        && same(&rows.triangles, &triangles, sorted)
        && same(&rows.squares, &squares, diagonals)
        && same(&rows.corners, &corners, from_least)
}

fn same<T: Ord>(rows: &[Vec<usize>], all: &BTreeSet<T>, form: impl Fn(&[usize]) -> T) -> bool {
    let rewritten: BTreeSet<T> = rows.iter().map(|row| form(row)).collect();
    rewritten.len() == rows.len() && rewritten == *all
}

fn sorted(letters: &[usize]) -> Vec<usize> {
    let mut rising = letters.to_vec();
    rising.sort_unstable();
    rising
}

// Two quadrilaterals with the same diagonals go round the same way or the other.
fn diagonals(s: &[usize]) -> Vec<Vec<usize>> {
    let mut pairs = vec![sorted(&[s[0], s[2]]), sorted(&[s[1], s[3]])];
    pairs.sort();
    pairs
}

// A corner's neighbours may be turned, not exchanged.
fn from_least(c: &[usize]) -> Vec<usize> {
    let mut turned = c.to_vec();
    while turned[1] > turned[2] || turned[1] > turned[3] {
        turned[1..].rotate_left(1);
    }
    turned
}

fn edges_of(shape: &Shape) -> BTreeSet<Vec<usize>> {
    let mut edges = BTreeSet::new();
    let mut round = |face: &[usize]| edges.extend((0..face.len()).map(|i| sorted(&[face[i], face[(i + 1) % face.len()]])));
    shape.triangles.iter().for_each(|f| round(f));
    shape.squares.iter().for_each(|s| round(s));
    edges
}

// The comparison of reasons: tuples to the library, and what they are told to be.
use crate::cells::{shape, Cell};
use crate::compare::{mesh_of, Comparison};
use crate::families::{cube, pyramid, with_faults, Family, FAMILIES};
use crate::make::{crowded, flipped, Dice, Draft, Growing};
use crate::mesh::{file_order, read, Mesh, Vertex, LONGEST};
use crate::portion::{list, words};
use crate::slips::{is, Slip};
use crate::why::{answer, rows, rows_fit, text, Reason, Sides, ANSWER, OTHER_KIND};
use std::collections::BTreeMap;

const KINDS: [u16; 3] = [8, 6, 5];
// entries on either side of an answer
const BESIDE: usize = 8;

// The forms that an answer may have, beside a refusal.
const FORMS: [&str; 13] = [
    "a cell in least form",
    "a cell turned",
    "condition 1 at a corner not below n",
    "condition 1 at a corner that equals an earlier one",
    "condition 2 at an edge",
    "condition 3 at a triangle",
    "condition 3 at a quadrilateral",
    "condition 4 at a corner triple",
    "condition 5 at a triangle",
    "condition 5 at a quadrilateral",
    "condition 5 at a triple along a quadrilateral",
    "condition 5 at a triple on no face",
    "condition 6",
];

// How often each form was met for each kind, by its row or place; and each refusal.
#[derive(Default)]
pub struct Met {
    forms: BTreeMap<(u16, usize), BTreeMap<u16, u64>>,
    refusals: BTreeMap<u32, u64>,
    // the most tetrahedra that a tuple had which fails condition 5
    most: usize,
}

// Which of the forms an answer has, and its row or place.
fn form_of(kind: u16, corners: &[Vertex; 8], entries: &[u16; ANSWER]) -> (usize, u16) {
    let rows = rows(kind).unwrap();
    let triangle = |row: u16| usize::from((row as usize) < rows.triangles.len());
    match entries[..] {
        [0, ..] => (0, 0),
        [1, place, ..] => (2 + usize::from(corners[..place as usize].contains(&corners[place as usize])), place),
        [2, row, ..] => (4, row),
        [3, row, ..] => (6 - triangle(row), row),
        [4, row, ..] => (7, row),
        [5, 0, row, ..] => (9 - triangle(row), row),
        [5, _, x, y, z, ..] => {
            let letter = |v: u16| corners.iter().position(|c| *c == v).unwrap();
            (if rows.place(&[letter(x), letter(y), letter(z)]).is_some() { 10 } else { 11 }, 0)
        }
        [6, ..] => (12, 0),
        _ => (1, 0),
    }
}

impl Met {
    fn meet(&mut self, kind: u16, corners: &[Vertex; 8], told: &Result<Reason, u32>) {
        match told {
            Err(number) => *self.refusals.entry(*number).or_default() += 1,
            Ok(reason) => {
                let (form, row) = form_of(kind, corners, &reason.entries);
                *self.forms.entry((kind, form)).or_default().entry(row).or_default() += 1;
            }
        }
    }

    pub fn add(&mut self, other: Met) {
        for (form, by_row) in other.forms {
            for (row, times) in by_row {
                *self.forms.entry(form).or_default().entry(row).or_default() += times;
            }
        }
        for (number, times) in other.refusals {
            *self.refusals.entry(number).or_default() += times;
        }
        self.most = self.most.max(other.most);
    }

    fn line(&self, kind: u16, form: usize) -> String {
        let by_row = self.forms.get(&(kind, form)).cloned().unwrap_or_default();
        let sum: u64 = by_row.values().sum();
        let all: Vec<u16> = by_row.keys().copied().collect();
        let by = match form {
            2 | 3 => format!(", places {}", words(&all)),
            4..=9 => format!(", rows {}", words(&all)),
            _ => String::new(),
        };
        format!("met kind {}, {}: {}{}", kind, FORMS[form], sum, if sum == 0 { "" } else { &by })
    }

    // A line for each form that a kind's template lets be, and for each refusal; none where nothing was asked.
    pub fn lines(&self) -> Vec<String> {
        let mut lines = Vec::new();
        if self.forms.is_empty() && self.refusals.is_empty() {
            return lines;
        }
        for kind in KINDS {
            let forms = (0..FORMS.len()).filter(|form| kind != 8 || ![5, 8].contains(form));
            lines.extend(forms.map(|form| self.line(kind, form)));
        }
        for number in file_order().iter().chain(&[OTHER_KIND]) {
            lines.push(format!("met refusal {}: {}", number, self.refusals.get(number).unwrap_or(&0)));
        }
        lines.push(format!("met most tetrahedra of a tuple that fails condition 5: {}", self.most));
        lines
    }
}

fn family(name: &str) -> &'static Family {
    FAMILIES.iter().find(|f| f.name == name).unwrap()
}

fn sides_of(mesh: &Result<Mesh, u32>) -> Result<Sides<'_>, u32> {
    mesh.as_ref().map(Sides::new).map_err(|number| *number)
}

// A tuple with anything in the places beyond its corners.
fn filled(dice: &mut Dice, t: &[Vertex]) -> [Vertex; 8] {
    let mut corners = [0; 8].map(|_| if dice.one_in(2) { dice.next() as u16 } else { dice.below(9) as u16 });
    corners[..t.len()].copy_from_slice(t);
    corners
}

fn turned(t: &[Vertex], turn: &[usize]) -> Vec<Vertex> {
    turn.iter().map(|from| t[*from]).collect()
}

// Top and bottom exchanged, and for a pyramid the way round its base: the same edges and faces with the other hand.
fn mirrored(t: &[Vertex]) -> Vec<Vertex> {
    let from: &[usize] = match t.len() {
        8 => &[4, 5, 6, 7, 0, 1, 2, 3],
        6 => &[3, 4, 5, 0, 1, 2],
        5 => &[0, 3, 2, 1, 4],
        _ => return t.to_vec(),
    };
    turned(t, from)
}

impl Comparison<'_> {
    // One call, and how the library's answer is apart from the one that is wanted.
    fn why_apart(&mut self, want: &Result<Reason, u32>, kind: u16, corners: &[Vertex; 8]) -> Option<String> {
        let before: Vec<u16> = (0..ANSWER + 2 * BESIDE).map(|_| self.dice.next() as u16).collect();
        self.send(&[6]);
        self.send_words(&[kind]);
        self.send_words(corners);
        self.send_words(&before);
        let (refused, kept) = (self.get_u32(), self.get_u32());
        let corners_now = self.get_words(8);
        let got = self.get_words(before.len());
        let own = BESIDE..BESIDE + ANSWER;
        let mut whole = before;
        match want {
            Ok(reason) => whole[own.clone()].copy_from_slice(&reason.entries),
            Err(_) if is(Slip::answer_cleared) => whole[own.clone()].fill(0),
            Err(_) => {}
        }
        let number = want.as_ref().err().copied().unwrap_or(0);
        if refused != number || got[own.clone()] != whole[own.clone()] {
            let (got, want) = (words(&got[own.clone()]), words(&whole[own]));
            return Some(format!("the library answers {} and {}, the second program {} and {}", refused, got, number, want));
        }
        if got != whole {
            return Some("entries beside the answer were written to".to_string());
        }
        if kept != 1 || corners_now != corners {
            return Some("the file or the corners were written to".to_string());
        }
        None
    }

    fn ask_why(&mut self, sides: &Result<Sides, u32>, kind: u16, corners: [Vertex; 8]) -> Result<Reason, u32> {
        self.asked(format!("why of kind {} corners {}", kind, words(&corners)));
        let want = answer(sides, kind, &corners);
        if let Some(what) = self.why_apart(&want, kind, &corners) {
            self.smallest(kind, &corners, what);
        }
        self.met.meet(kind, &corners, &want);
        if let (Ok(reason), Ok(sides), Some(rows)) = (&want, sides, rows(kind)) {
            if reason.entries[0] == 5 {
                self.met.most = self.met.most.max(sides.inside(&rows, &corners[..kind as usize]).len());
            }
        }
        want
    }

    // Leaves out one tetrahedron after the other as long as the answers are apart, and reports what is left.
    fn smallest(&mut self, kind: u16, corners: &[Vertex; 8], mut what: String) -> ! {
        let mut left = read(&self.now.file).map_or(Draft::default(), |mesh| Draft::of(&mesh));
        let mut file = self.now.file.clone();
        for i in (0..left.tets.len()).rev() {
            let fewer = left.clone().without_one(i);
            self.set_file(&fewer.bytes());
            let mesh = read(&self.now.file);
            let want = answer(&sides_of(&mesh), kind, corners);
            if let Some(apart) = self.why_apart(&want, kind, corners) {
                what = apart;
                file = fewer.bytes();
                left = fewer;
            }
        }
        self.now.file = file;
        self.differ(&format!("{} (seed {})", what, self.plan.seed))
    }

    // A tuple that is made to be told something.
    fn ask_made(&mut self, sides: &Result<Sides, u32>, kind: u16, corners: [Vertex; 8], made: &[u16]) {
        let told = self.ask_why(sides, kind, corners);
        if told.as_ref().map_or(true, |reason| reason.entries[..made.len()] != *made) {
            self.differ(&format!("the tuple is made to be told {}, and is told {}", words(made), text(&told).trim_end()));
        }
    }

    // A tuple in some of its turns, or in all: the condition that fails is the same.
    fn ask_turned(&mut self, sides: &Result<Sides, u32>, t: &[Vertex], some: usize) -> usize {
        let kind = t.len() as u16;
        let mut turns = shape(kind).map_or(vec![], |s| s.turns);
        self.dice.shuffle(&mut turns);
        let mut seen = Vec::new();
        for turn in turns.iter().take(some) {
            let corners = filled(&mut self.dice, &turned(t, turn));
            let told = self.ask_why(sides, kind, corners);
            seen.push(told.map_or(0, |reason| reason.entries[0] % 7));
        }
        if seen.iter().any(|condition| *condition != seen[0]) {
            self.differ("a tuple fails another condition once it is turned");
        }
        seen.len()
    }
}

fn drafted(points: &[[i32; 3]], tets: &[[u16; 4]]) -> Draft {
    let mut d = Draft { points: points.to_vec(), ..Draft::default() };
    tets.iter().for_each(|t| d.add(*t));
    d
}

fn scaled(mut d: Draft, by: i32) -> Draft {
    d.points.iter_mut().for_each(|p| *p = p.map(|c| c * by));
    d
}

// A prism of three tetrahedra, and one more that lies across two of its quadrilaterals.
fn prism_and_one() -> Draft {
    drafted(
        &[[6, 0, 6], [6, 0, 0], [0, 6, 0], [0, 0, 0], [0, 6, 6], [0, 0, 6]],
        &[[3, 1, 2, 4], [3, 1, 0, 4], [3, 5, 0, 4], [1, 2, 5, 0]],
    )
}

// A twisted prism of three tetrahedra, and one more behind the last of its quadrilaterals.
fn twisted_prism() -> Draft {
    drafted(
        &[[0, 0, 0], [2, 0, -2], [0, 2, 0], [0, 2, 2], [2, 0, 2], [1, 2, 2]],
        &[[0, 1, 2, 4], [0, 1, 3, 5], [0, 2, 4, 5], [0, 3, 4, 5]],
    )
}

// A pyramid over a bent base, with a tetrahedron of another part on the four corners of the base.
fn bent_pyramid() -> Draft {
    let points = [[0, 0, 1], [2, 0, 0], [2, 2, 1], [0, 2, 0], [1, 1, 3]];
    Draft { parts: vec![0, 0, 1], ..drafted(&points, &[[0, 1, 2, 4], [0, 2, 3, 4], [0, 1, 2, 3]]) }
}

// The most tetrahedra that were found to have place on the corners of one tuple: 23.
fn thronged() -> Draft {
    let points = [
        [-31, -36, -156], [33, -108, -27], [126, 240, -143], [117, -52, -128],
        [141, -95, 88], [97, 26, 4], [-102, 149, 115], [-216, 40, -391],
    ];
    let letters = "abce abde abcf bcdf adef cdef acdg bcdg abfg adfg befg cefg abdh acdh bceh acfh aefh befh abgh aegh degh cfgh dfgh";
    let mut d = Draft { points: points.to_vec(), ..Draft::default() };
    for word in letters.split(' ') {
        let t: Vec<u16> = word.bytes().map(|b| u16::from(b - b'a')).collect();
        d.add([t[0], t[1], t[2], t[3]]);
    }
    d
}

// A question, and what the second program must tell: the entries without the zeros behind them, and what was found.
struct Shown {
    draft: Draft,
    questions: Vec<(u16, &'static [Vertex], &'static str)>,
}

const IN_ORDER: &[Vertex] = &[0, 1, 2, 3, 4, 5, 6, 7];

fn shown_worked() -> Vec<Shown> {
    let cube_parts = Draft { parts: vec![0, 0, 0, 0, 1], ..cube() };
    let hole_parts = Draft { parts: vec![0, 0, 1, 0], ..cube().without_one(4) };
    vec![
        Shown {
            draft: pyramid(),
            questions: vec![
                (5, IN_ORDER, "0 0 1 2 3 4 : 0 1"),
                (5, &[1, 2, 3, 0, 4, 9, 9, 9], "7 0 1 2 3 4 : 0 1"),
                (5, &[0, 3, 2, 1, 4], "4 : -8"),
                (5, &[1, 4, 3, 2, 0], "4 3 : 0"),
                (6, IN_ORDER, "1 5 : 5"),
            ],
        },
        Shown {
            draft: cube(),
            questions: vec![
                (8, IN_ORDER, "0 0 1 2 3 4 5 6 7 : 0 1 2 3 4"),
                (8, &[1, 2, 3, 0, 5, 6, 7, 4], "7 0 1 2 3 4 5 6 7 : 0 1 2 3 4"),
                (6, &[0, 1, 2, 4, 5, 7, 8, 8], "0 0 1 2 4 5 7 : 0 2 4"),
                (5, &[1, 2, 7, 0, 5, 1, 1, 1], "7 0 1 2 7 5 : 0 4"),
                (8, &[0, 1, 2, 3, 4, 5, 6, 8], "1 7 : 8"),
                (8, &[0, 1, 2, 0, 4, 5, 6, 8], "1 3 : 8"),
                (8, &[65_535, 0, 0, 0, 0, 0, 0, 0], "1 : 8"),
                (8, &[0, 1, 2, 3, 4, 5, 7, 6], "2 7 : "),
                (7, IN_ORDER, "refused 16"),
            ],
        },
        Shown { draft: cube_parts, questions: vec![(8, IN_ORDER, "6 : 0 0 4 1")] },
        Shown {
            draft: cube().without_one(4),
            questions: vec![(8, IN_ORDER, "5 1 0 2 5 : 1"), (8, &[6, 7, 3, 2, 5, 4, 0, 1], "5 1 0 2 5 : 1")],
        },
        Shown { draft: hole_parts, questions: vec![(8, IN_ORDER, "5 1 0 2 5 : 1")] },
    ]
}

// A vertex on a face or behind it takes that face from a cell.
fn shown_split() -> Vec<Shown> {
    let (big_cube, big_pyramid) = (scaled(cube(), 4), scaled(pyramid(), 4));
    vec![
        Shown { draft: big_cube.split(&[5, 6, 7], [3, 3, 4]), questions: vec![(8, IN_ORDER, "3 1 : 0 0 1 0")] },
        Shown { draft: big_cube.split(&[2, 5, 6, 7], [3, 3, 3]), questions: vec![(8, IN_ORDER, "5 0 1 : 0 0 1 0")] },
        Shown { draft: big_pyramid.split(&[0, 1, 4], [2, 0, 2]), questions: vec![(5, IN_ORDER, "3 : ")] },
        Shown { draft: big_pyramid.split(&[0, 2], [4, 4, 0]), questions: vec![(5, IN_ORDER, "3 4 : 0 0 0 0")] },
        Shown { draft: big_pyramid.split(&[0, 2, 3, 4], [2, 4, 1]), questions: vec![(5, IN_ORDER, "5 0 2 : 0")] },
    ]
}

fn shown_laid_over() -> Vec<Shown> {
    vec![
        Shown { draft: prism_and_one(), questions: vec![(6, &[3, 1, 2, 5, 0, 4], "5 1 0 1 2 : 1")] },
        Shown { draft: prism_and_one().without_one(3), questions: vec![(6, &[3, 1, 2, 5, 0, 4], "7 0 5 4 1 3 2 : 0 1 2")] },
        Shown { draft: twisted_prism(), questions: vec![(6, IN_ORDER, "5 0 4 : 1 2 0 0")] },
        Shown { draft: bent_pyramid(), questions: vec![(5, IN_ORDER, "0 0 1 2 3 4 : 0 1")] },
        Shown { draft: thronged(), questions: vec![(8, IN_ORDER, "5 : 2 2 2 2")] },
    ]
}

// Worked questions, turned every way, and the order of the refusals.
impl Comparison<'_> {
    pub fn why_shown(&mut self) -> usize {
        self.now.family = "why-shown".to_string();
        if KINDS.iter().any(|kind| !rows_fit(*kind)) {
            self.differ("the rows of a kind are not the sides of its shape");
        }
        let mut count = 0;
        for shown in shown_worked().iter().chain(&shown_split()).chain(&shown_laid_over()) {
            self.meshes += 1;
            self.set_file(&shown.draft.bytes());
            let mesh = read(&self.now.file);
            let sides = sides_of(&mesh);
            for (kind, tuple, told) in &shown.questions {
                let corners = filled(&mut self.dice, tuple);
                self.ask_shown(&sides, *kind, corners, told);
                let t = &corners[..*kind as usize];
                count += 1 + self.ask_turned(&sides, t, 24) + self.ask_turned(&sides, &mirrored(t), 24);
            }
        }
        count + self.why_in_order()
    }

    fn ask_shown(&mut self, sides: &Result<Sides, u32>, kind: u16, corners: [Vertex; 8], want: &str) {
        let told = self.ask_why(sides, kind, corners);
        let mut got = format!("refused {}", told.as_ref().err().unwrap_or(&0));
        if let Ok(reason) = told {
            let used = reason.entries.iter().rposition(|x| *x != 0).map_or(1, |last| last + 1);
            let found: Vec<String> = reason.found.iter().map(|x| x.to_string()).collect();
            got = format!("{} : {}", words(&reason.entries[..used]), found.join(" "));
        }
        if got != want {
            self.differ(&format!("the tuple is made to be told '{}', and is told '{}'", want, got));
        }
    }

    // Each refusal of a file with a kind that is none, and with one that is.
    fn why_in_order(&mut self) -> usize {
        for number in file_order() {
            self.meshes += 1;
            self.set_file(&with_faults(&[number]));
            let mesh = read(&self.now.file);
            for kind in [8, 7] {
                let told = self.ask_why(&sides_of(&mesh), kind, [0, 1, 2, 3, 4, 5, 6, 7]);
                if told.as_ref().err() != Some(&number) {
                    self.differ(&format!("the file is made to be refused with {}", number));
                }
            }
        }
        2 * file_order().len()
    }
}

// Cells of the list.
impl Comparison<'_> {
    // Cells turned every way and mirrored, with a corner changed and with two exchanged.
    pub fn why_turned(&mut self) -> usize {
        let mut count = 0;
        for family in FAMILIES {
            for i in 0..family.count.min(3 * self.plan.scale) {
                self.now.family = format!("why-turned, {} number {}", family.name, i);
                // of the large meshes, those at the bounds
                let most = if family.name == "bounds" { 2_048 } else { 80 };
                count += self.turn_some(&mesh_of(family, i, self.plan.seed + 5), most);
            }
        }
        count
    }

    // One cell of each kind of a mesh that has not too many tetrahedra.
    fn turn_some(&mut self, file: &Vec<u8>, most: usize) -> usize {
        let mesh = match read(file) {
            Ok(mesh) if mesh.tetrahedra.len() <= most => mesh,
            _ => return 0,
        };
        self.meshes += 1;
        self.set_file(file);
        let cells = list(mesh.clone()).cells;
        let mesh = Ok(mesh);
        let sides = sides_of(&mesh);
        let mut count = 0;
        for kind in KINDS {
            if let Some(cell) = self.some_cell(&cells, kind) {
                count += self.turn_cell(&sides, &cell) + self.change_cell(&sides, &cell.corners);
            }
        }
        count
    }

    fn some_cell(&mut self, cells: &[Cell], kind: u16) -> Option<Cell> {
        let all: Vec<&Cell> = cells.iter().filter(|c| c.kind == kind).collect();
        if all.is_empty() {
            return None;
        }
        Some(all[self.dice.below(all.len())].clone())
    }

    // The list has the cell in its least form; and no corner of its mirror image is sound, so the first is told.
    fn turn_cell(&mut self, sides: &Result<Sides, u32>, cell: &Cell) -> usize {
        let turns = shape(cell.kind).map_or(vec![], |s| s.turns);
        for turn in &turns {
            let t = turned(&cell.corners, turn);
            let form = if t == cell.corners { 0 } else { 7 };
            let made: Vec<u16> = [form].iter().chain(&cell.corners).copied().collect();
            let corners = filled(&mut self.dice, &t);
            self.ask_made(sides, cell.kind, corners, &made);
            let corners = filled(&mut self.dice, &mirrored(&t));
            self.ask_made(sides, cell.kind, corners, &[4, 0]);
        }
        2 * turns.len()
    }

    fn change_cell(&mut self, sides: &Result<Sides, u32>, t: &[Vertex]) -> usize {
        let kind = t.len() as u16;
        let mut count = 0;
        let most = t.iter().max().map_or(0, |v| *v as usize + 3);
        for i in 0..t.len() {
            let mut other = t.to_vec();
            other[i] = if self.dice.one_in(8) { self.dice.next() as u16 } else { self.dice.below(most) as u16 };
            let corners = filled(&mut self.dice, &other);
            let _ = self.ask_why(sides, kind, corners);
            for j in 0..i {
                let mut other = t.to_vec();
                other.swap(i, j);
                let corners = filled(&mut self.dice, &other);
                let _ = self.ask_why(sides, kind, corners);
            }
            count += 1 + i;
        }
        count
    }
}

// A mesh with one thing changed about a cell's corners.
fn changed(dice: &mut Dice, d: &Draft, t: &[Vertex], how: usize) -> Draft {
    let own: Vec<usize> = (0..d.tets.len()).filter(|i| d.tets[*i].iter().all(|v| t.contains(v))).collect();
    if own.is_empty() {
        return d.clone();
    }
    let one = own[dice.below(own.len())];
    let by = [0, 1, 50, 500, 5_000][dice.below(5)];
    match how {
        0 => d.clone().without_one(one),
        // a new vertex inside a tetrahedron, about a facet or about an edge
        1..=3 => {
            let mut on = d.tets[one];
            dice.shuffle(&mut on);
            let on = &on[..5 - how];
            let at = d.middle(dice, on, by);
            d.split(on, at)
        }
        4 => laid_over(dice, d, t),
        5 => {
            let mut d = d.clone();
            d.parts[one] ^= 1;
            d
        }
        6 => {
            let v = t[dice.below(t.len())];
            moved(dice, d, v)
        }
        7 => flipped(dice, d, 6),
        _ => {
            let one_in = 3 + dice.below(8);
            d.clone().without_some(dice, one_in)
        }
    }
}

// A vertex elsewhere, as far from where it was as the mesh still stands.
fn moved(dice: &mut Dice, d: &Draft, v: Vertex) -> Draft {
    let mut far = 30_000;
    loop {
        let mut other = d.clone();
        other.points[v as usize] = d.middle(dice, &[v], far);
        if far == 0 || read(&other.bytes()).is_ok() {
            return other;
        }
        far = far * 3 / 4;
    }
}

// Some tetrahedra more on a cell's corners, wherever they lie.
fn laid_over(dice: &mut Dice, d: &Draft, t: &[Vertex]) -> Draft {
    let mut growing = Growing::from(d.clone());
    let mut left = 1 + dice.below(3);
    for _ in 0..40 {
        let mut four = t.to_vec();
        dice.shuffle(&mut four);
        if left > 0 && growing.try_add([four[0], four[1], four[2], four[3]]) {
            left -= 1;
        }
    }
    growing.draft
}

// The corners of a cell of some kind, bent, in letter order.
fn bent(dice: &mut Dice, kind: u16, by: i32) -> Vec<[i32; 3]> {
    let plain: &[[i32; 3]] = match kind {
        8 => &[[0, 0, 0], [1, 0, 0], [1, 1, 0], [0, 1, 0], [0, 0, 1], [1, 0, 1], [1, 1, 1], [0, 1, 1]],
        6 => &[[0, 0, 0], [1, 0, 0], [0, 1, 0], [0, 0, 1], [1, 0, 1], [0, 1, 1]],
        _ => &[[0, 0, 0], [1, 0, 0], [1, 1, 0], [0, 1, 0], [0, 0, 1]],
    };
    plain.iter().map(|p| p.map(|c| 100 * c + dice.between(-by, by))).collect()
}

// Meshes that are changed, and any tuples.
impl Comparison<'_> {
    // Cells of meshes in which one thing or two are no longer as they were.
    pub fn why_cut(&mut self) -> usize {
        let names = ["worked", "five-jittered", "kuhn-jittered", "flipped-cube", "crowded-cube", "boundary", "flipped", "parts"];
        let mut count = 0;
        for i in 0..25 * names.len() * self.plan.scale {
            let family = family(names[i % names.len()]);
            let which = self.dice.below(family.count);
            let file = mesh_of(family, which, self.plan.seed + 6);
            let mesh = match read(&file) {
                Ok(mesh) if mesh.tetrahedra.len() <= 40 => mesh,
                _ => continue,
            };
            // small meshes are made larger, so that a vertex has place in them
            let largest = mesh.points.iter().flatten().map(|c| c.abs()).max().unwrap_or(0) as i32;
            let draft = scaled(Draft::of(&mesh), (20_000 / largest.max(1)).clamp(1, 1_000));
            let cells = list(mesh).cells;
            for kind in KINDS {
                if let Some(cell) = self.some_cell(&cells, kind) {
                    self.now.family = format!("why-cut, {} number {}, kind {}", family.name, which, kind);
                    count += self.cut_cell(&draft, &cell.corners);
                }
            }
        }
        count
    }

    fn cut_cell(&mut self, draft: &Draft, t: &[Vertex]) -> usize {
        let mut count = 0;
        for how in 0..9 {
            let mut other = changed(&mut self.dice, draft, t, how);
            if self.dice.one_in(3) {
                let again = self.dice.below(9);
                other = changed(&mut self.dice, &other, t, again);
            }
            let mesh = read(&other.bytes());
            if mesh.is_ok() {
                self.meshes += 1;
                self.set_file(&other.bytes());
                count += self.ask_turned(&sides_of(&mesh), t, 3);
            }
        }
        count
    }

    // Any tuples on small meshes, and tuples whose corners are sound with any tetrahedra on them.
    pub fn why_any(&mut self) -> usize {
        let names = ["worked", "crowded-cube", "crowded", "glued", "boundary", "flipped-cube", "small", "scattered"];
        let mut count = 0;
        for i in 0..20 * names.len() * self.plan.scale {
            let family = family(names[i % names.len()]);
            let which = self.dice.below(family.count);
            self.now.family = format!("why-any, {} number {}", family.name, which);
            let file = mesh_of(family, which, self.plan.seed + 7);
            let mesh = read(&file);
            if mesh.as_ref().map_or(false, |mesh| mesh.tetrahedra.len() <= 80) {
                self.meshes += 1;
                self.set_file(&file);
                count += self.any_tuples(&mesh);
            }
        }
        for i in 0..450 * self.plan.scale {
            self.now.family = format!("why-any, crowd {}", i);
            count += self.crowd(KINDS[i % 3], i);
        }
        count
    }

    fn any_tuples(&mut self, mesh: &Result<Mesh, u32>) -> usize {
        let n = mesh.as_ref().map_or(0, |mesh| mesh.points.len());
        let sides = sides_of(mesh);
        for i in 0..40 {
            let dice = &mut self.dice;
            let mut corners = [0; 8].map(|_| dice.below(n + 1) as u16);
            if i % 4 > 0 && n > 0 {
                let mut all: Vec<u16> = (0..n as u16).collect();
                dice.shuffle(&mut all);
                all.truncate(8);
                corners = filled(dice, &all);
            }
            let _ = self.ask_why(&sides, KINDS[i % 3], corners);
        }
        40
    }

    // Corners that are mostly sound, numbered anyhow, with as many tetrahedra as find place, or some fewer.
    fn crowd(&mut self, kind: u16, i: usize) -> usize {
        let dice = &mut self.dice;
        let by = [0, 10, 25, 40][i / 3 % 4];
        let corners = bent(dice, kind, by);
        let mut to: Vec<u16> = (0..corners.len() as u16 + 1).collect();
        dice.shuffle(&mut to);
        let mut points = vec![[50, 50, 50]; to.len()];
        corners.iter().zip(&to).for_each(|(p, v)| points[*v as usize] = *p);
        let mut draft = crowded(dice, points);
        if i % 2 == 0 {
            draft = draft.without_some(dice, 4);
        }
        let mesh = read(&draft.bytes());
        self.meshes += 1;
        self.set_file(&draft.bytes());
        self.ask_turned(&sides_of(&mesh), &to[..kind as usize], 3)
    }
}

// Refusals.
impl Comparison<'_> {
    // Kinds that are none, on good files and on damaged ones.
    pub fn why_refused(&mut self) -> usize {
        self.why_kinds() + self.why_faulty() + self.why_damaged()
    }

    fn why_kinds(&mut self) -> usize {
        let mut count = 0;
        for file in [Draft::default().bytes(), pyramid().bytes(), cube().bytes()] {
            self.meshes += 1;
            self.now.family = "why-refused, kinds".to_string();
            self.set_file(&file);
            let mesh = read(&file);
            for kind in (0..10).chain([255, 256, 261, 264, 32_776, 65_534, 65_535]) {
                for corners in [[0, 1, 2, 3, 4, 5, 6, 7], [0; 8], [8; 8], [65_535; 8]] {
                    let _ = self.ask_why(&sides_of(&mesh), kind, corners);
                    count += 1;
                }
            }
        }
        count
    }

    // Each refusal of a file alone and each pair of them.
    fn why_faulty(&mut self) -> usize {
        let order = file_order();
        let mut count = 0;
        for (i, first) in order.iter().enumerate() {
            for second in &order[i..] {
                self.now.family = format!("why-refused, refusals {} and {}", first, second);
                self.meshes += 1;
                let both = [*first, *second];
                let file = with_faults(if first == second { &both[..1] } else { &both });
                self.set_file(&file);
                count += self.why_each_kind(&file);
            }
        }
        count
    }

    // The cube's corners as each kind, and as one that is none.
    fn why_each_kind(&mut self, file: &Vec<u8>) -> usize {
        let mesh = read(file);
        for kind in [8, 6, 5, self.dice.below(5) as u16] {
            let _ = self.ask_why(&sides_of(&mesh), kind, [0, 1, 2, 3, 4, 5, 6, 7]);
        }
        4
    }

    // Bytes changed, a file cut short or drawn out, and bytes of any kind.
    fn why_damaged(&mut self) -> usize {
        let good = cube().bytes();
        let mut count = 0;
        for i in 0..400 * self.plan.scale {
            self.now.family = format!("why-refused, damaged {}", i);
            let mut file = match i % 4 {
                0 => mesh_of(family("bruised"), self.dice.below(300), self.plan.seed + 8),
                1 => mesh_of(family("noise"), self.dice.below(100), self.plan.seed + 8),
                _ => good.clone(),
            };
            if i % 4 == 2 {
                let at = self.dice.below(file.len());
                file[at] ^= 1 << self.dice.below(8);
            } else if i % 4 == 3 {
                let lengths = [0, 23, 24, LONGEST, LONGEST + 1, 70_000, self.dice.below(good.len() + 12)];
                file.resize(lengths[(i / 4).min(lengths.len() - 1)], 0);
            }
            self.meshes += 1;
            self.set_file(&file);
            count += self.why_each_kind(&file);
        }
        count
    }
}

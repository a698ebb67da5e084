// What a question about a mesh is answered: whole listings, and portions by filtering the whole list.
use crate::cells::{place, Cell, Known};
use crate::mesh::{file_order, Mesh, Vertex};
use crate::slips::{is, Slip};
use std::collections::BTreeSet;

// A mark is a kind and eight corners; a record has a cell's mark, the number of its tetrahedra and room for the most.
pub const MARK: usize = 9;
pub const MOST_TETS: usize = 25;
pub const RECORD: usize = MARK + 1 + MOST_TETS;
pub const UNUSED: u16 = 65_535;
pub const START: [u16; MARK] = [65_535, 0, 0, 0, 0, 0, 0, 0, 0];

pub const TABLE_SHORT: u32 = 10;
pub const ROOM_SHORT: u32 = 11;
const TOO_MANY: u32 = 12;

// All that can be told before anything is written, in the order in which it is told.
pub fn order() -> Vec<u32> {
    let mut order = file_order();
    order.extend([TABLE_SHORT, ROOM_SHORT]);
    order
}

// The answers that write the table, records and their count. Behind any other every lent place is as it was.
pub fn writes(answer: u32) -> bool {
    [0, TOO_MANY].contains(&answer)
}

// A mesh that was accepted, with all its cells and its neighbour table.
pub struct Listed {
    pub mesh: Mesh,
    pub cells: Vec<Cell>,
    pub table: Vec<u16>,
}

pub fn neighbour_table(mesh: &Mesh) -> Vec<u16> {
    let mut sets: Vec<BTreeSet<Vertex>> = vec![BTreeSet::new(); mesh.points.len()];
    for t in &mesh.tetrahedra {
        for v in t.corners {
            sets[v as usize].extend(t.corners.iter().filter(|w| **w != v));
        }
    }
    let mut table = vec![0];
    let mut sum = 0;
    for set in &sets {
        sum += set.len() as u16;
        table.push(sum);
    }
    for set in sets {
        table.extend(set);
    }
    table
}

pub fn list(mesh: Mesh) -> Listed {
    let cells = Known::new(&mesh).all();
    let table = neighbour_table(&mesh);
    Listed { mesh, cells, table }
}

pub fn record(c: &Cell) -> Vec<u16> {
    let mut entries = vec![c.kind];
    entries.extend(&c.corners);
    entries.resize(MARK, if is(Slip::unused_zero) { 0 } else { UNUSED });
    entries.push(c.tetrahedra.len() as u16);
    entries.extend(&c.tetrahedra);
    entries.resize(RECORD, UNUSED);
    entries
}

pub fn mark_of(c: &Cell) -> [u16; MARK] {
    let mut mark = [if is(Slip::mark_letters) { UNUSED } else { 0 }; MARK];
    mark[0] = c.kind;
    mark[1..=c.corners.len()].copy_from_slice(&c.corners);
    mark
}

fn comes_after(c: &Cell, mark: &[u16; MARK]) -> bool {
    if c.kind != mark[0] {
        return c.kind < mark[0];
    }
    let mut seen = c.corners.clone();
    let mut asked = mark[1..].to_vec();
    if is(Slip::mark_whole) {
        seen.resize(8, UNUSED);
    } else {
        asked.truncate(seen.len());
    }
    let (seen, asked) = (place(c.kind, &seen), place(c.kind, &asked));
    seen > asked || seen == asked && is(Slip::mark_again)
}

#[derive(Debug, PartialEq, Eq, Clone)]
pub struct Answer {
    pub refused: u32,
    pub count: u32,
    pub end: bool,
    pub mark: [u16; MARK],
    // what the lent places begin with afterwards; the rest of them is as it was
    pub table: Vec<u16>,
    pub records: Vec<u16>,
}

impl Answer {
    pub fn refusal(number: u32, mark: &[u16; MARK]) -> Answer {
        Answer { refused: number, count: 0, end: false, mark: *mark, table: vec![], records: vec![] }
    }
}

impl Listed {
    pub fn after(&self, mark: &[u16; MARK]) -> Vec<&Cell> {
        self.cells.iter().filter(|c| comes_after(c, mark)).collect()
    }

    pub fn portion(&self, mark: &[u16; MARK], table_room: usize, record_room: usize) -> Answer {
        if table_room + usize::from(is(Slip::table_short)) < self.table.len() {
            return Answer::refusal(TABLE_SHORT, mark);
        }
        if record_room < RECORD + usize::from(is(Slip::room_36)) {
            return Answer::refusal(ROOM_SHORT, mark);
        }
        let after = self.after(mark);
        let fits = record_room / RECORD;
        let mut answer = Answer::refusal(0, mark);
        answer.table = self.table.clone();
        if is(Slip::table_touched) && table_room > answer.table.len() {
            answer.table.push(0);
        }
        for c in after.iter().take(fits) {
            if c.tetrahedra.len() > MOST_TETS {
                answer.refused = TOO_MANY;
                return answer;
            }
            answer.records.extend(record(c));
            answer.count += 1;
        }
        answer.end = after.len() <= fits && !(is(Slip::more_to_come) && after.len() == fits);
        answer.mark = if answer.end { [0; MARK] } else { mark_of(after[answer.count as usize - 1]) };
        answer
    }
}

pub fn words(numbers: &[u16]) -> String {
    let words: Vec<String> = numbers.iter().map(|x| x.to_string()).collect();
    words.join(" ")
}

// What the program prints: at most `most` cells after the mark, then the end or the mark reached.
pub fn text(listed: &Result<Listed, u32>, mark: &[u16; MARK], most: usize) -> String {
    let listed = match listed {
        Err(number) => return format!("refused {}\n", number),
        Ok(listed) => listed,
    };
    let mut out = format!("mesh {} {}\n", listed.mesh.points.len(), listed.mesh.tetrahedra.len());
    let after = listed.after(mark);
    for c in after.iter().take(most) {
        if c.tetrahedra.len() > MOST_TETS {
            return out + &format!("refused {}\n", TOO_MANY);
        }
        out += &format!("{} {} : {}\n", c.kind, words(&c.corners), words(&c.tetrahedra));
    }
    if after.len() <= most {
        out += &format!("end {}\n", after.len());
    } else {
        out += &format!("mark {}\n", words(&mark_of(after[most - 1])));
    }
    out
}

// Mesh files made from lists and taken apart again, and the plain text in which lists come and go.
//
// The file of lists is laid end to end from its pieces and then read as any other file: whatever that
// reading refuses is refused here.
use crate::mesh::{read, Mesh, LONGEST};
use crate::slips::{is, Slip};

pub const NOT_LISTS: u32 = 14;
pub const ROOM_SHORT: u32 = 15;

// Three coordinates a vertex, four vertex numbers a tetrahedron, one part a tetrahedron; any lengths
// until they are packed.
#[derive(Clone, Debug, Default, PartialEq, Eq)]
pub struct Lists {
    pub coordinates: Vec<i32>,
    pub numbers: Vec<u16>,
    pub parts: Vec<u16>,
}

impl Lists {
    // Four bytes a coordinate, two a vertex number and a part, behind the header.
    pub fn length(&self) -> usize {
        24 + 4 * self.coordinates.len() + 2 * (self.numbers.len() + self.parts.len())
    }

    pub fn vertices(&self) -> usize {
        self.coordinates.len() / 3
    }

    // Whether the lists have as many entries as some vertices and some tetrahedra.
    fn fit(&self) -> bool {
        let parts = self.parts.len() + usize::from(is(Slip::part_missing) && 4 * self.parts.len() < self.numbers.len());
        self.coordinates.len() % 3 == 0 && self.numbers.len() == 4 * parts
    }
}

impl From<&Mesh> for Lists {
    fn from(mesh: &Mesh) -> Lists {
        Lists {
            coordinates: mesh.points.iter().flatten().map(|c| *c as i32).collect(),
            numbers: mesh.tetrahedra.iter().flat_map(|t| t.corners).collect(),
            parts: mesh.tetrahedra.iter().map(|t| t.part).collect(),
        }
    }
}

// The file that lists make, or the number of the refusal.
pub fn pack(lists: &Lists) -> Result<Vec<u8>, u32> {
    if !lists.fit() {
        return Err(NOT_LISTS);
    }
    let many = lists.vertices() > 512 || lists.parts.len() > 2_048;
    if lists.length() > LONGEST {
        return Err(if many && is(Slip::many_before_long) { 2 } else { 1 });
    }
    let (vertices, tetrahedra) = (lists.vertices() as u32, lists.parts.len() as u32);
    let header = [vertices, 24, tetrahedra, 24 + 12 * vertices, lists.length() as u32, 0];
    let mut file: Vec<u8> = header.iter().flat_map(|word| word.to_le_bytes()).collect();
    file.extend(lists.coordinates.iter().flat_map(|c| c.to_le_bytes()));
    for (four, part) in lists.numbers.chunks(4).zip(lists.parts.iter().chain(std::iter::repeat(&0))) {
        file.extend(four.iter().flat_map(|v| v.to_le_bytes()));
        file.extend(if is(Slip::part_high_first) { part.to_be_bytes() } else { part.to_le_bytes() });
    }
    read(&file).map(|_| file)
}

// What a call answers that is lent a room: the refusal or 0, the length that is told, and what the
// room begins with afterwards.
pub struct Lent {
    pub refused: u32,
    pub written: Option<u64>,
    pub begins: Vec<u8>,
}

impl Lent {
    fn refusal(number: u32, length: usize) -> Lent {
        let written = if is(Slip::written_on_refusal) { Some(length as u64) } else { None };
        Lent { refused: number, written, begins: vec![] }
    }
}

pub fn lend(lists: &Lists, packed: &Result<Vec<u8>, u32>, room: usize) -> Lent {
    let short = lists.length() + usize::from(is(Slip::room_exact)) > room;
    match packed {
        Err(number) if *number != NOT_LISTS && short && is(Slip::room_first) => Lent::refusal(ROOM_SHORT, lists.length()),
        Err(number) => Lent::refusal(*number, lists.length()),
        Ok(_) if short => Lent::refusal(ROOM_SHORT, lists.length()),
        Ok(file) => {
            let mut begins = file.clone();
            if is(Slip::past_cleared) && room > begins.len() {
                begins.push(0);
            }
            Lent { refused: 0, written: Some(file.len() as u64), begins }
        }
    }
}

// Where and how a text is not such lists.
#[derive(Clone, Debug, PartialEq, Eq)]
pub struct Wrong {
    pub fault: u32,
    pub line: usize,
    pub before: usize,
    pub wanted: u64,
}

pub const TOO_FEW: u32 = 1;
pub const TOO_MANY: u32 = 2;
pub const NO_NUMBER: u32 = 3;
pub const BAD_COUNT: u32 = 4;
pub const BAD_COORDINATE: u32 = 5;
pub const BAD_NUMBER: u32 = 6;

const BLANKS: [u8; 5] = [9, 11, 12, 13, 32];

// The words of a text, each with its line: lines first, then what stands before a comment, then words.
fn words(text: &[u8]) -> Vec<(usize, &[u8])> {
    let mut found = Vec::new();
    for (i, line) in text.split(|b| *b == b'\n').enumerate() {
        let begins = |at: usize| line[at] == b'#' && !(is(Slip::comment_in_word) && at > 0 && !BLANKS.contains(&line[at - 1]));
        let said = &line[..(0..line.len()).find(|at| begins(*at)).unwrap_or(line.len())];
        found.extend(said.split(|b| BLANKS.contains(b)).filter(|w| !w.is_empty()).map(|w| (i + 1, w)));
    }
    found
}

// The number that a word says; one that is too large for every use stays so.
fn value(word: &[u8]) -> Option<i128> {
    let digits = word.strip_prefix(b"-").unwrap_or(word);
    if digits.is_empty() || !digits.iter().all(|b| b.is_ascii_digit()) {
        return None;
    }
    let size = digits.iter().fold(0, |sum: i128, b| sum.saturating_mul(10).saturating_add(i128::from(b - b'0')));
    Some(if digits.len() < word.len() { -size } else { size })
}

// How many numbers a text has that begins with these.
fn wanted(read: &[i128]) -> u64 {
    let count = |i: usize| read.get(i).map_or(0, |x| *x as u64);
    2 + 3 * count(0) + 5 * count(1)
}

// The fault of a number out of range, by the place at which it stands.
fn out_of_range(read: &[i128], number: i128) -> Option<u32> {
    let place = read.len() as u64;
    let (good, fault) = if place < 2 {
        (0..=i128::from(u32::MAX), BAD_COUNT)
    } else if place < 2 + 3 * read[0] as u64 {
        (i128::from(i32::MIN)..=i128::from(i32::MAX), BAD_COORDINATE)
    } else {
        (0..=i128::from(u16::MAX), BAD_NUMBER)
    };
    Some(fault).filter(|_| !good.contains(&number))
}

// The lists that a text says, or its first fault.
pub fn parse(text: &[u8]) -> Result<Lists, Wrong> {
    let mut read = Vec::new();
    for (line, word) in words(text) {
        let wanted = wanted(&read);
        let wrong = |fault: u32| Wrong { fault, line, before: read.len(), wanted };
        let number = value(word);
        let full = read.len() as u64 == wanted;
        if full && !(is(Slip::no_number_first) && number.is_none()) {
            return Err(wrong(TOO_MANY));
        }
        let number = number.ok_or_else(|| wrong(NO_NUMBER))?;
        if let Some(fault) = out_of_range(&read, number) {
            return Err(wrong(fault));
        }
        read.push(number);
    }
    let wanted = wanted(&read);
    if (read.len() as u64) < wanted {
        let ends = text.iter().filter(|b| **b == b'\n').count();
        return Err(Wrong { fault: TOO_FEW, line: ends + 2, before: read.len(), wanted });
    }
    let (coordinates, fives) = read[2..].split_at(3 * read[0] as usize);
    Ok(Lists {
        coordinates: coordinates.iter().map(|c| *c as i32).collect(),
        numbers: fives.chunks(5).flat_map(|f| &f[..4]).map(|v| *v as u16).collect(),
        parts: fives.chunks(5).map(|f| f[4] as u16).collect(),
    })
}

fn line<T: ToString>(numbers: impl IntoIterator<Item = T>) -> String {
    let words: Vec<String> = numbers.into_iter().map(|x| x.to_string()).collect();
    words.join(" ") + "\n"
}

// The text of lists that fit: the counts, a line for each vertex and one for each tetrahedron.
pub fn print(lists: &Lists) -> String {
    let mut out = line([lists.vertices(), lists.parts.len()]);
    for point in lists.coordinates.chunks(3) {
        out += &line(point);
    }
    for (four, part) in lists.numbers.chunks(4).zip(&lists.parts) {
        out += &line(four.iter().chain([part]));
    }
    out
}

// The three lists as they are, a line for each: what is saved where they make no text.
pub fn as_they_are(lists: &Lists) -> String {
    line(&lists.coordinates) + &line(&lists.numbers) + &line(&lists.parts)
}

// What a run of the program tells, and the status that says how it went: 0 done, 1 refused, 2 not lists.
#[derive(Debug, PartialEq, Eq)]
pub struct Told {
    pub out: Vec<u8>,
    pub err: String,
    pub status: i32,
}

impl Told {
    pub fn done(out: Vec<u8>) -> Told {
        Told { out, err: String::new(), status: 0 }
    }

    pub fn refused(number: u32) -> Told {
        Told { out: vec![], err: format!("refused {}\n", number), status: 1 }
    }

    pub fn wrong(w: &Wrong) -> Told {
        let err = format!("wrong {} {} {} {}\n", w.fault, w.line, w.before, w.wanted);
        Told { out: vec![], err, status: 2 }
    }
}

pub fn tell_packed(text: &[u8]) -> Told {
    match parse(text) {
        Err(w) => Told::wrong(&w),
        Ok(lists) => pack(&lists).map_or_else(Told::refused, Told::done),
    }
}

pub fn tell_unpacked(file: &Vec<u8>) -> Told {
    read(file).map_or_else(Told::refused, |mesh| Told::done(print(&Lists::from(&mesh)).into_bytes()))
}

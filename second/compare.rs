// The comparison: the same questions to the library and the program as to the lister here.
//
// The library is asked through second/ask.c, which hands back all that it could have written and
// what lies around it. The first difference ends the run; its mesh and its question are saved.
use crate::cells::least_form;
use crate::compare_why::Met;
use crate::families::{cube, pyramid, with_faults, Family, FAMILIES};
use crate::make::Dice;
use crate::mesh::{in_bounds, read, spans};
use crate::portion::{list, mark_of, order, text, words, writes, Answer, Listed, MARK, RECORD, ROOM_SHORT, START, TABLE_SHORT};
use crate::slips::{is, Slip};
use std::io::{BufReader, BufWriter, Read, Write};
use std::path::PathBuf;
use std::process::{Child, ChildStdin, ChildStdout, Command, Output, Stdio};
use std::collections::VecDeque;
use std::sync::atomic::{AtomicU64, Ordering};
use std::sync::Mutex;

pub const GUARD: usize = 64;
const MOST_RECORDS: usize = RECORD * 200_000;

pub struct Plan {
    // the words that start the program, if it is to be asked, and those that start second/ask.c
    pub program: Vec<String>,
    pub ask: Vec<String>,
    pub save: PathBuf,
    pub seed: u64,
    pub scale: usize,
    pub only: Option<String>,
    // how many families are asked at a time
    pub workers: usize,
}

// What both sides were asked last, for the report of a difference.
#[derive(Default)]
pub struct Asked {
    pub family: String,
    pub question: String,
    pub file: Vec<u8>,
}

// One worker's part: its own process of the library, and what it has asked.
pub struct Comparison<'a> {
    pub plan: &'a Plan,
    library: Child,
    to: BufWriter<ChildStdin>,
    from: BufReader<ChildStdout>,
    pub now: Asked,
    pub meshes: u64,
    questions: u64,
    pub dice: Dice,
    pub met: Met,
}

// The questions that were put so far, by all workers; and who may report a difference.
static ALIVE: AtomicU64 = AtomicU64::new(0);
static REPORT: Mutex<()> = Mutex::new(());

// Ends the run if no question is put for five minutes, so that nothing hangs unseen.
fn watch() {
    std::thread::spawn(|| {
        let mut last = (0, 0);
        loop {
            std::thread::sleep(std::time::Duration::from_secs(10));
            let seen = ALIVE.load(Ordering::Relaxed);
            last = if seen == last.0 { (seen, last.1 + 1) } else { (seen, 0) };
            if last.1 >= 30 {
                println!("DIFFERENCE: no answer for five minutes after question {}", seen);
                std::process::exit(1);
            }
        }
    });
}

fn laid(seed: u32, len: usize) -> Vec<u16> {
    (0..(len + 2 * GUARD) as u32).map(|i| seed.wrapping_add(i.wrapping_mul(40_503)) as u16).collect()
}

fn first_apart(name: &str, got: &[u16], want: &[u16]) -> Option<String> {
    let at = got.iter().zip(want).position(|(g, w)| g != w)?;
    let place = at as i64 - GUARD as i64;
    Some(format!("{} entry {}: the library has {}, the second program {}", name, place, got[at], want[at]))
}

impl Comparison<'_> {
    fn new(plan: &Plan) -> Comparison<'_> {
        let first = plan.ask.first().unwrap_or_else(|| stop("--ask is missing"));
        let mut ask = Command::new(first)
            .args(&plan.ask[1..])
            .env_remove("SECOND_SLIP")
            .stdin(Stdio::piped())
            .stdout(Stdio::piped())
            .spawn()
            .unwrap_or_else(|e| stop(&format!("cannot run {}: {}", first, e)));
        let to = BufWriter::new(ask.stdin.take().unwrap());
        let from = BufReader::with_capacity(1 << 16, ask.stdout.take().unwrap());
        let dice = Dice::new(plan.seed);
        Comparison { plan, library: ask, to, from, now: Asked::default(), meshes: 0, questions: 0, dice, met: Met::default() }
    }

    // Reports a difference and ends everything; the first worker to find one reports it.
    pub fn differ(&self, what: &str) -> ! {
        let _first = REPORT.lock();
        let _ = std::fs::create_dir_all(&self.plan.save);
        let mesh = self.plan.save.join("difference.mesh");
        let note = self.plan.save.join("difference.txt");
        let said = format!("family {}\nquestion {}\n{}\n", self.now.family, self.now.question, what);
        let saved = std::fs::write(&mesh, &self.now.file).is_ok() && std::fs::write(&note, &said).is_ok();
        println!("DIFFERENCE in family {}: {}\n{}", self.now.family, self.now.question, what);
        println!("{}", if saved { format!("saved: {}", mesh.display()) } else { "it could not be saved".to_string() });
        std::process::exit(1);
    }

    pub fn asked(&mut self, question: String) {
        self.questions += 1;
        ALIVE.fetch_add(1, Ordering::Relaxed);
        self.now.question = question;
    }

    pub fn send(&mut self, numbers: &[u32]) {
        for x in numbers {
            self.send_bytes(&x.to_le_bytes());
        }
    }

    pub fn send_bytes(&mut self, bytes: &[u8]) {
        if self.to.write_all(bytes).is_err() {
            self.differ("the library's program ended");
        }
    }

    pub fn send_words(&mut self, numbers: &[u16]) {
        let bytes: Vec<u8> = numbers.iter().flat_map(|x| x.to_le_bytes()).collect();
        self.send_bytes(&bytes);
    }

    pub fn get(&mut self, len: usize) -> Vec<u8> {
        let mut bytes = vec![0; len];
        if self.to.flush().is_err() || self.from.read_exact(&mut bytes).is_err() {
            self.differ("the library's program ended");
        }
        bytes
    }

    pub fn get_u32(&mut self) -> u32 {
        let b = self.get(4);
        u32::from_le_bytes([b[0], b[1], b[2], b[3]])
    }

    pub fn get_words(&mut self, len: usize) -> Vec<u16> {
        self.get(2 * len).chunks(2).map(|b| u16::from_le_bytes([b[0], b[1]])).collect()
    }

    pub fn set_file(&mut self, file: &[u8]) {
        self.now.file = file.to_vec();
        self.send(&[0, file.len() as u32]);
        self.send_bytes(file);
    }

    pub fn check(&mut self, want: u32) {
        self.asked("check".to_string());
        self.send(&[1]);
        let (got, kept) = (self.get_u32(), self.get_u32());
        if got != want {
            self.differ(&format!("the library answers {}, the second program {}", got, want));
        }
        if kept != 1 {
            self.differ("the file was written to");
        }
    }

    fn portion(&mut self, want: &Answer, mark: &[u16; MARK], table_room: usize, record_room: usize) {
        self.asked(format!("portion after {}, table of {}, room of {}", words(mark), table_room, record_room));
        let seed = self.dice.next() as u32;
        let around = [seed ^ 0x5555, seed ^ 0x1234_5678, seed ^ 0xaaaa];
        self.send(&[4]);
        self.send_words(mark);
        self.send(&around);
        self.send(&around);
        self.send(&[seed, table_room as u32, record_room as u32]);
        let (refused, kept) = (self.get_u32(), self.get_u32());
        let mark_now = self.get_words(MARK);
        let counts: Vec<u32> = (0..6).map(|_| self.get_u32()).collect();
        let table = self.get_words(table_room + 2 * GUARD);
        let records = self.get_words(record_room + 2 * GUARD);

        if refused != want.refused {
            self.differ(&format!("the library answers {}, the second program {}", refused, want.refused));
        }
        if kept != 1 {
            self.differ("the file was written to");
        }
        if mark_now != want.mark {
            self.differ(&format!("mark: the library has {}, the second program {}", words(&mark_now), words(&want.mark)));
        }
        let (mut count, mut end) = (around, around);
        if writes(refused) {
            count[1] = want.count;
        }
        if refused == 0 {
            end[1] = u32::from(want.end);
        }
        if counts[..3] != count || counts[3..] != end {
            self.differ(&format!(
                "count and end: the library has {} and {}, the second program {} and {}",
                counts[1], counts[4], count[1], end[1]
            ));
        }
        for (name, got, start, written) in
            [("table", table, seed, &want.table), ("record", records, seed.wrapping_add(7), &want.records)]
        {
            let mut whole = laid(start, got.len() - 2 * GUARD);
            whole[GUARD..GUARD + written.len()].copy_from_slice(written);
            if let Some(apart) = first_apart(name, &got, &whole) {
                self.differ(&apart);
            }
        }
    }

    // The answer that the second program gives, refusals of the file included.
    fn expect(&self, listed: &Result<Listed, u32>, mark: &[u16; MARK], table_room: usize, record_room: usize) -> Answer {
        match listed {
            Err(number) => Answer::refusal(*number, mark),
            Ok(listed) => listed.portion(mark, table_room, record_room),
        }
    }

    fn ask_portion(&mut self, listed: &Result<Listed, u32>, mark: [u16; MARK], table_room: usize, record_room: usize) -> Answer {
        let want = self.expect(listed, &mark, table_room, record_room);
        self.portion(&want, &mark, table_room, record_room);
        want
    }

    // A mark to ask about: the start, one handed out, one off by one, one with its unused places
    // filled, a cell's turned round, or anything.
    fn some_mark(&mut self, listed: &Result<Listed, u32>) -> [u16; MARK] {
        let dice = &mut self.dice;
        let cells = listed.as_ref().map_or(&[][..], |l| &l.cells[..]);
        let n = listed.as_ref().map_or(9, |l| l.mesh.points.len()) as u16;
        let mut mark = if cells.is_empty() || dice.one_in(5) {
            let mut any = [0; MARK].map(|_| if dice.one_in(8) { dice.next() as u16 } else { dice.next() as u16 % (n + 2) });
            any[0] = [8, 6, 5, 8, 6, 5, 0, 1, 2, 3, 4, 7, 9, 65_535, dice.next() as u16][dice.below(15)];
            any
        } else {
            mark_of(&cells[dice.below(cells.len())])
        };
        match dice.below(8) {
            0 => mark = START,
            1 | 2 => {
                let i = 1 + dice.below(8);
                mark[i] = mark[i].wrapping_add(1);
            }
            3 | 4 => {
                let i = 1 + dice.below(8);
                mark[i] = mark[i].wrapping_sub(1);
            }
            5 if mark[0] <= 8 => {
                let used = 1 + mark[0] as usize;
                for place in &mut mark[used..] {
                    *place = dice.next() as u16;
                }
            }
            6 if dice.one_in(3) => mark[1..].rotate_left(1),
            _ => {}
        }
        mark
    }

    fn some_rooms(&mut self, listed: &Result<Listed, u32>, left: usize) -> (usize, usize) {
        let dice = &mut self.dice;
        let need = listed.as_ref().map_or(20, |l| l.table.len());
        let table = [need, need, need + 1, need + 500, 25_089.max(need), need - 1, 0, dice.below(need + 1)][dice.below(8)];
        let whole = RECORD * left.min(300);
        let choices = [0, RECORD - 1, RECORD, RECORD + 1, 2 * RECORD - 1, 2 * RECORD, 2 * RECORD + 1, whole, whole + 1, whole + RECORD, whole.saturating_sub(1)];
        let records = if dice.one_in(4) { dice.below(whole + RECORD + 5) } else { choices[dice.below(choices.len())] };
        if dice.one_in(3) {
            (table, records)
        } else {
            (need + dice.below(3), records.max(RECORD))
        }
    }

    // What the program prints, for the whole list or, with ten words, for a part of it.
    fn program(&mut self, listed: &Result<Listed, u32>, mark: Option<([u16; MARK], usize)>) {
        if self.plan.program.is_empty() {
            return;
        }
        let (from, most) = mark.unwrap_or((START, usize::MAX));
        let mut extra = Vec::new();
        if mark.is_some() {
            extra = words(&from).split(' ').map(|w| w.to_string()).collect();
            extra.push(most.to_string());
        }
        self.asked(format!("the program {}", extra.join(" ")));
        let got = run(&self.plan.program, &extra, &self.now.file, Stdio::inherit());
        let want = text(listed, &from, most);
        if !got.status.success() {
            self.differ(&format!("the program ended with {}", got.status));
        }
        if got.stdout != want.as_bytes() {
            let printed = String::from_utf8_lossy(&got.stdout).into_owned();
            let lines = printed.lines().chain(std::iter::repeat("(nothing)"));
            let wanted = want.lines().chain(std::iter::repeat("(nothing)"));
            let apart = lines.zip(wanted).take(printed.lines().count().max(want.lines().count()) + 1).enumerate();
            for (i, (l, w)) in apart {
                if l != w {
                    self.differ(&format!("line {}: the program prints '{}', the second program '{}'", i + 1, l, w));
                }
            }
            self.differ("the lines are the same, and the bytes are not");
        }
    }

    // Everything that is asked about one mesh.
    fn mesh(&mut self, file: &Vec<u8>, questions: usize) {
        self.meshes += 1;
        self.set_file(file);
        let listed = read(file).map(list);
        self.check(listed.as_ref().err().copied().unwrap_or(0));
        self.program(&listed, None);
        let cells = listed.as_ref().map_or(0, |l| l.cells.len());
        let need = listed.as_ref().map_or(1, |l| l.table.len());
        // the whole list at once, or as much of it as there is room for
        self.ask_portion(&listed, START, need + 3, (RECORD * cells.max(1) + 20).min(MOST_RECORDS));
        for q in 0..questions {
            let mark = self.some_mark(&listed);
            let left = listed.as_ref().map_or(0, |l| l.after(&mark).len());
            let (table, room) = self.some_rooms(&listed, left);
            let answer = self.ask_portion(&listed, mark, table, room);
            if q % 3 == 0 && answer.refused == 0 {
                // on from the mark that was handed out
                self.ask_portion(&listed, answer.mark, table, room);
            }
        }
        if questions > 0 && self.dice.one_in(4) {
            let (mark, most) = (self.some_mark(&listed), 1 + self.dice.below(cells + 2));
            self.program(&listed, Some((mark, most)));
        }
    }

    // The whole list in rooms of k records, from mark to mark.
    fn end_to_end(&mut self, file: &Vec<u8>, k: usize) {
        self.meshes += 1;
        self.set_file(file);
        let listed = read(file).map(list);
        let need = listed.as_ref().map_or(1, |l| l.table.len());
        let (mut mark, mut end, mut sum) = (START, false, 0);
        while !end {
            let answer = self.ask_portion(&listed, mark, need, RECORD * k);
            if answer.refused != 0 {
                self.differ("refused");
            }
            mark = answer.mark;
            end = answer.end;
            sum += answer.count as usize;
        }
        if sum != listed.map_or(0, |l| l.cells.len()) {
            self.differ("portions laid end to end are not the whole list");
        }
    }

    fn family(&mut self, family: &Family) -> usize {
        for i in 0..family.count * self.plan.scale {
            let file = mesh_of(family, i, self.plan.seed);
            self.now.family = format!("{} number {}", family.name, i);
            self.mesh(&file, 8);
        }
        family.count * self.plan.scale
    }

    fn damaged(&mut self) -> usize {
        let mut count = 0;
        for good in [pyramid().bytes(), cube().bytes()] {
            for at in 0..good.len() {
                for by in 1..=255u8 {
                    let mut file = good.clone();
                    file[at] = file[at].wrapping_add(by);
                    self.now.family = format!("damaged, byte {} plus {}", at, by);
                    count += 1;
                    if count % 61 == 0 {
                        self.mesh(&file, 1);
                    } else {
                        self.set_file(&file);
                        let mesh = read(&file);
                        self.check(mesh.as_ref().err().copied().unwrap_or(0));
                        if mesh.is_ok() && count % 3 == 0 {
                            let listed = mesh.map(list);
                            self.ask_portion(&listed, START, 100, RECORD * 30);
                        }
                    }
                }
            }
        }
        count
    }

    fn truncated(&mut self) -> usize {
        let mut count = 0;
        for good in [pyramid().bytes(), cube().bytes()] {
            for len in 0..good.len() + 12 {
                for honest in [false, true] {
                    let mut file = good.clone();
                    file.resize(len, 0);
                    if honest && len >= 20 {
                        file[16..20].copy_from_slice(&(len as u32).to_le_bytes());
                    }
                    self.now.family = format!("truncated to {}", len);
                    count += 1;
                    self.mesh(&file, 1);
                }
            }
        }
        for len in [26_647, 26_648, 26_649, 40_000, 65_536, 70_000] {
            for honest in [false, true] {
                let mut file = cube().bytes();
                file.resize(len, 0);
                if honest {
                    file[16..20].copy_from_slice(&(len as u32).to_le_bytes());
                }
                self.now.family = format!("stretched to {}", len);
                count += 1;
                self.mesh(&file, 1);
            }
        }
        count
    }

    // Each refusal alone, each pair of them, and each with too little table or room.
    fn refusals(&mut self) -> usize {
        let mut count = 0;
        let order = order();
        for (i, first) in order.iter().enumerate() {
            for second in &order[i..] {
                let both = [*first, *second];
                let file = with_faults(if first == second { &both[..1] } else { &both });
                self.now.family = format!("refusals {} and {}", first, second);
                self.mesh(&file, 2);
                let listed = read(&file).map(list);
                let table = if both.contains(&TABLE_SHORT) { 3 } else { 1_000 };
                let room = if both.contains(&ROOM_SHORT) { RECORD - 1 } else { RECORD * 40 };
                let answer = self.ask_portion(&listed, START, table, room);
                if answer.refused != *first {
                    self.differ(&format!("the file is made to be refused with {}, and is with {}", first, answer.refused));
                }
                count += 1;
            }
        }
        count
    }

    fn chains(&mut self) -> usize {
        let mut count = 0;
        for (name, k) in [("worked", 1), ("worked", 24), ("worked", 25), ("five", 3), ("kuhn-shuffled", 1), ("parts", 2), ("boundary", 1), ("crowded-cube", 1)] {
            let family = FAMILIES.iter().find(|f| f.name == name).unwrap();
            for i in 0..family.count.min(8 * self.plan.scale) {
                let file = mesh_of(family, i, self.plan.seed + 1);
                self.now.family = format!("chains: {} number {} in rooms of {}", name, i, k);
                self.end_to_end(&file, k);
                count += 1;
            }
        }
        count
    }

    // Kinds 0 to 9 and the last, from a good file.
    fn kinds(&mut self) -> usize {
        self.set_file(&cube().bytes());
        let listed = read(&self.now.file).map(list);
        let mut count = 0;
        for kind in (0..10).chain([255, 256, 32_768, 65_534, 65_535]) {
            for fill in [0, 1, 3, 7, 8, 65_535] {
                self.now.family = "kinds".to_string();
                let mut mark = [fill; MARK];
                mark[0] = kind;
                self.ask_portion(&listed, mark, 100, RECORD * 30);
                self.program(&listed, Some((mark, 1 + count % 30)));
                count += 1;
            }
        }
        count
    }

    fn boxes(&mut self) -> usize {
        self.now = Asked { family: "boxes".to_string(), ..Asked::default() };
        let mut count = 0;
        let sides = [-50_000, 50_000];
        let corner = |bits: usize| [sides[bits & 1], sides[bits >> 1 & 1], sides[bits >> 2 & 1]];
        for p in 0..8 {
            for q in 0..8 {
                for r in 0..8 {
                    for s in 0..8 {
                        self.one_box([corner(p), corner(q), corner(r), corner(s)]);
                        count += 1;
                    }
                }
            }
        }
        for i in 0..12 {
            for out in [-50_001, 50_001, i32::MIN, i32::MAX, -50_000, 50_000] {
                let mut points = [[1, 2, 3], [4, 5, 7], [8, 3, 1], [2, 2, 9]];
                points[i / 3][i % 3] = out;
                self.one_box(points);
                count += 1;
            }
        }
        for i in 0..3_000 * self.plan.scale {
            let range = [1, 5, 1_000, 50_000, 50_001][i % 5];
            let dice = &mut self.dice;
            let points = [0; 4].map(|_| [0; 3].map(|_| dice.between(-range, range)));
            self.one_box(points);
            count += 1;
        }
        count
    }

    fn one_box(&mut self, points: [[i32; 3]; 4]) {
        self.asked(format!("box of {:?}", points));
        let before = [0; 3].map(|_| self.dice.next() as i64);
        self.send(&[2]);
        for c in points.iter().flatten() {
            self.send_bytes(&c.to_le_bytes());
        }
        for b in before {
            self.send_bytes(&b.to_le_bytes());
        }
        let answer = self.get_u32();
        let got: Vec<i64> = self.get(24).chunks(8).map(|b| i64::from_le_bytes(b.try_into().unwrap())).collect();
        let wide = points.map(|p| p.map(i128::from));
        let good = is(Slip::box_bound) || wide.iter().flatten().all(|c| in_bounds(*c));
        let mut want = before.to_vec();
        if good {
            want[1] = spans(&wide[0], &wide[1], &wide[2], &wide[3]) as i64;
        }
        if answer != if good { 0 } else { 4 } || got != want {
            self.differ(&format!("the library answers {} and {:?}, the second program has {:?}", answer, got, want));
        }
    }

    // Every order of eight, of six and of five corners, then other numbers, kinds and equal corners.
    fn least_forms(&mut self) -> usize {
        self.now = Asked { family: "least-forms".to_string(), ..Asked::default() };
        let mut count = 0;
        for kind in [8usize, 6, 5] {
            let mut order: Vec<u16> = (0..kind as u16).collect();
            loop {
                let mut corners = [0; 8].map(|_| self.dice.next() as u16);
                corners[..kind].copy_from_slice(&order);
                self.one_least(kind as u16, corners);
                count += 1;
                if !next_order(&mut order) {
                    break;
                }
            }
        }
        for i in 0..3_000 * self.plan.scale {
            let kind = [8, 6, 5, 8, 6, 5, 7, 0, 9, 65_535, self.dice.next() as u16][i % 11];
            let range = [6, 9, 20, 65_536][self.dice.below(4)];
            let corners = [0; 8].map(|_| self.dice.below(range) as u16);
            self.one_least(kind, corners);
            count += 1;
        }
        count
    }

    fn one_least(&mut self, kind: u16, corners: [u16; 8]) {
        self.asked(format!("least form of kind {} corners {}", kind, words(&corners)));
        let before: Vec<u16> = (0..24).map(|_| self.dice.next() as u16).collect();
        self.send(&[3]);
        self.send_words(&[kind]);
        self.send_words(&corners);
        self.send_words(&before);
        let answer = self.get_u32();
        let kept = self.get_words(8);
        let got = self.get_words(24);
        let mut want = before;
        let number = match least_form(kind, &corners) {
            Ok(least) => {
                want[8..16].copy_from_slice(&least);
                0
            }
            Err(number) => number,
        };
        if answer != number || got != want || kept != corners {
            self.differ(&format!(
                "the library answers {} and {}, the second program {} and {}",
                answer,
                words(&got[8..16]),
                number,
                words(&want[8..16])
            ));
        }
    }

    // Ends the library's process, which has nothing more to say.
    fn end(mut self) {
        drop(self.to);
        let ended = self.library.wait();
        if !ended.map_or(false, |status| status.success()) || self.from.read(&mut [0]).map_or(true, |n| n > 0) {
            println!("DIFFERENCE: the library's program did not end as it should");
            std::process::exit(1);
        }
    }

    // Asks all questions of one family, with dice of its own, and tells how many it counts.
    fn ask(&mut self, part: &Part) -> usize {
        self.dice = Dice::new(self.plan.seed ^ hash(part.name()));
        match part {
            Part::Other(_, ask) => ask(self),
            Part::Meshes(family) => self.family(family),
        }
    }
}

// What is compared as one family: questions of another form, or a family of meshes.
enum Part {
    Other(&'static str, fn(&mut Comparison) -> usize),
    Meshes(&'static Family),
}

impl Part {
    fn name(&self) -> &'static str {
        match self {
            Part::Other(name, _) => name,
            Part::Meshes(family) => family.name,
        }
    }
}

const LONGEST_PART: &str = "damaged";

// All parts in the order in which they are told: those first that meet most errors in least time.
fn parts() -> Vec<Part> {
    let mut parts = vec![
        Part::Other("boxes", |c| c.boxes()),
        Part::Other("kinds", |c| c.kinds()),
        Part::Other("refusals", |c| c.refusals()),
        Part::Other("why-shown", |c| c.why_shown()),
        Part::Other("least-forms", |c| c.least_forms()),
        Part::Other("pack-damaged", |c| c.pack_damaged()),
        Part::Other("pack-texts", |c| c.pack_texts()),
        Part::Other("truncated", |c| c.truncated()),
        Part::Other(LONGEST_PART, |c| c.damaged()),
    ];
    parts.extend(FAMILIES.iter().map(Part::Meshes));
    parts.push(Part::Other("pack-lists", |c| c.pack_lists()));
    parts.push(Part::Other("pack-round", |c| c.pack_round()));
    parts.push(Part::Other("chains", |c| c.chains()));
    parts.push(Part::Other("why-turned", |c| c.why_turned()));
    parts.push(Part::Other("why-cut", |c| c.why_cut()));
    parts.push(Part::Other("why-any", |c| c.why_any()));
    parts.push(Part::Other("why-refused", |c| c.why_refused()));
    parts
}

// What is still to be asked, and what came back: for each part its line, told once all before it are.
struct Progress {
    left: VecDeque<usize>,
    lines: Vec<Option<String>>,
    told: usize,
    meshes: u64,
    questions: u64,
    met: Met,
}

impl Progress {
    fn tell(&mut self, part: usize, line: String) {
        self.lines[part] = Some(line);
        while let Some(Some(line)) = self.lines.get(self.told) {
            println!("{}", line);
            self.told += 1;
        }
    }
}

fn take(progress: &Mutex<Progress>) -> Option<usize> {
    progress.lock().unwrap().left.pop_front()
}

// Takes parts until none is left.
fn work(plan: &Plan, parts: &[Part], progress: &Mutex<Progress>) {
    let mut comparison = Comparison::new(plan);
    while let Some(i) = take(progress) {
        let count = comparison.ask(&parts[i]);
        progress.lock().unwrap().tell(i, format!("family {}: {} ok", parts[i].name(), count));
    }
    let mut sums = progress.lock().unwrap();
    sums.meshes += comparison.meshes;
    sums.questions += comparison.questions;
    sums.met.add(std::mem::take(&mut comparison.met));
    comparison.end();
}

// The comparison, several families at a time, the longest begun first. The lines come in one order.
pub fn compare(plan: &Plan) {
    let mut parts = parts();
    parts.retain(|p| plan.only.as_ref().map_or(true, |only| only == p.name()));
    let mut left: VecDeque<usize> = (0..parts.len()).collect();
    if plan.workers > 1 {
        left.make_contiguous().sort_by_key(|i| parts[*i].name() != LONGEST_PART);
    }
    let lines = vec![None; parts.len()];
    let progress = Mutex::new(Progress { left, lines, told: 0, meshes: 0, questions: 0, met: Met::default() });
    watch();
    std::thread::scope(|scope| {
        for _ in 0..plan.workers {
            scope.spawn(|| work(plan, &parts, &progress));
        }
    });
    let sums = progress.into_inner().unwrap();
    sums.met.lines().iter().for_each(|line| println!("{}", line));
    println!("compared: {} meshes, {} questions, no difference", sums.meshes, sums.questions);
}

// Runs a program on a file; `errors` takes its standard error. One that has read enough may leave the rest.
pub fn run(words: &[String], extra: &[String], file: &[u8], errors: Stdio) -> Output {
    let cannot = |e: std::io::Error| -> ! { stop(&format!("cannot run {}: {}", words[0], e)) };
    let mut command = Command::new(&words[0]);
    command.args(&words[1..]).args(extra).env_remove("SECOND_SLIP");
    let mut child = command.stdin(Stdio::piped()).stdout(Stdio::piped()).stderr(errors).spawn().unwrap_or_else(|e| cannot(e));
    let mut input = child.stdin.take().unwrap();
    let file = file.to_vec();
    let feed = std::thread::spawn(move || input.write_all(&file).is_ok());
    let got = child.wait_with_output().unwrap_or_else(|e| cannot(e));
    let _ = feed.join();
    got
}

// Holds another lister to the one here, on every mesh of every family that is accepted.
pub fn agree(program: &[String], seed: u64) {
    let mut sum = 0;
    for family in FAMILIES {
        for i in 0..family.count {
            let file = mesh_of(family, i, seed);
            if let Ok(mesh) = read(&file) {
                let want = text(&Ok(list(mesh)), &START, usize::MAX);
                if run(program, &[], &file, Stdio::inherit()).stdout != want.as_bytes() {
                    println!("DIFFERENCE in family {} number {}", family.name, i);
                    std::process::exit(1);
                }
                sum += 1;
            }
        }
    }
    println!("agreed on {} meshes", sum);
}

// Each mesh has its own dice, so that one family's count does not move another's meshes.
pub fn mesh_of(family: &Family, i: usize, seed: u64) -> Vec<u8> {
    (family.make)(&mut Dice::new(seed ^ (i as u64) << 20 ^ hash(family.name)), i)
}

fn hash(name: &str) -> u64 {
    name.bytes().fold(7, |sum: u64, b| sum.wrapping_mul(0x1000_0000_01b3) ^ u64::from(b))
}

// The next order of the numbers, and false after the last.
fn next_order(order: &mut [u16]) -> bool {
    let n = order.len();
    let i = match (0..n - 1).rev().find(|i| order[*i] < order[*i + 1]) {
        Some(i) => i,
        None => return false,
    };
    let j = (i + 1..n).rev().find(|j| order[*j] > order[i]).unwrap();
    order.swap(i, j);
    order[i + 1..].reverse();
    true
}

pub fn stop(why: &str) -> ! {
    eprintln!("second: {}", why);
    std::process::exit(2);
}

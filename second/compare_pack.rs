// The comparison of packing: lists to the library's writer, texts and files to the program.
use crate::compare::{mesh_of, run, Comparison, GUARD};
use crate::families::{cube, faulty, pyramid, with_faults, Family, FAMILIES};
use crate::make::{Dice, Draft};
use crate::mesh::{read, LONGEST};
use crate::pack::*;
use std::process::Stdio;

const MOST_ROOM: usize = 70_000;

fn lists_of(draft: &Draft) -> Lists {
    Lists {
        coordinates: draft.points.iter().flatten().copied().collect(),
        numbers: draft.tets.iter().flatten().copied().collect(),
        parts: draft.parts.clone(),
    }
}

// The lists of a file whose header is right, whatever they are.
fn cut(file: &[u8]) -> Option<Lists> {
    let words: Vec<u32> = file.get(..24)?.chunks(4).map(|b| u32::from_le_bytes(b.try_into().unwrap())).collect();
    let (n, t) = (words[0] as usize, words[2] as usize);
    let begins = 24 + 12 * n;
    if words[1..] != [24, t as u32, begins as u32, (begins + 10 * t) as u32, 0] || file.len() != begins + 10 * t {
        return None;
    }
    let coordinates = file[24..begins].chunks(4).map(|b| i32::from_le_bytes(b.try_into().unwrap())).collect();
    let two = |b: &[u8]| u16::from_le_bytes([b[0], b[1]]);
    let numbers = file[begins..].chunks(10).flat_map(|f| f[..8].chunks(2).map(two)).collect();
    let parts = file[begins..].chunks(10).map(|f| two(&f[8..])).collect();
    Some(Lists { coordinates, numbers, parts })
}

fn family(name: &str) -> &'static Family {
    FAMILIES.iter().find(|f| f.name == name).unwrap()
}

// A list that is longer or shorter by some entries; those put behind it are 0.
fn resized<T: Clone + Default>(list: &[T], by: i32) -> Vec<T> {
    let mut other = list.to_vec();
    other.resize((list.len() as i32 + by).max(0) as usize, T::default());
    other
}

// Lists with faults that do not hide each other.
fn made_for(faults: &[u32], which: usize) -> Lists {
    let mut lists = lists_of(&faulty(faults));
    if faults.contains(&2) {
        lists.coordinates.resize(3 * 513, 1);
    }
    if faults.contains(&1) {
        lists.coordinates.resize(3 * 2_300, 1);
    }
    if faults.contains(&NOT_LISTS) {
        match which {
            0 => lists.coordinates.push(1),
            1 => lists.numbers.push(1),
            _ => lists.parts.truncate(lists.parts.len() - 1),
        }
    }
    lists
}

// Questions to the library.
impl Comparison<'_> {
    fn lists_differ(&mut self, lists: &Lists, what: &str) -> ! {
        self.now.file = as_they_are(lists).into_bytes();
        self.differ(what)
    }

    // One call: all that it could have written is held to what the second program expects.
    fn write(&mut self, lists: &Lists, packed: &Result<Vec<u8>, u32>, room: usize) -> u32 {
        let lens = [lists.coordinates.len(), lists.numbers.len(), lists.parts.len()];
        self.asked(format!("write of {} coordinates, {} numbers and {} parts, room of {}", lens[0], lens[1], lens[2], room));
        let want = lend(lists, packed, room);
        let seed = self.dice.next() as u32;
        let mut written = [0; 3].map(|_| self.dice.next());
        self.send(&[5]);
        self.send(&lens.map(|l| l as u32));
        let coordinates: Vec<u8> = lists.coordinates.iter().flat_map(|c| c.to_le_bytes()).collect();
        self.send_bytes(&coordinates);
        self.send_words(&lists.numbers);
        self.send_words(&lists.parts);
        for x in written {
            self.send_bytes(&x.to_le_bytes());
        }
        self.send(&[seed, room as u32]);
        let (refused, kept) = (self.get_u32(), self.get_u32());
        let told: Vec<u64> = self.get(24).chunks(8).map(|b| u64::from_le_bytes(b.try_into().unwrap())).collect();
        let got = self.get(room + 2 * GUARD);

        if refused != want.refused {
            self.lists_differ(lists, &format!("the library answers {}, the second program {}", refused, want.refused));
        }
        if kept != 1 {
            self.lists_differ(lists, "a list was written to");
        }
        written[1] = want.written.unwrap_or(written[1]);
        if told != written {
            self.lists_differ(lists, &format!("written: the library has {:?}, the second program {:?}", told, written));
        }
        let mut whole: Vec<u8> =
            (0..got.len() as u32).map(|i| (seed.wrapping_add(i.wrapping_mul(40_503)) >> 8) as u8).collect();
        whole[GUARD..GUARD + want.begins.len()].copy_from_slice(&want.begins);
        if let Some(at) = (0..got.len()).find(|at| got[*at] != whole[*at]) {
            let place = at as i64 - GUARD as i64;
            self.lists_differ(lists, &format!("byte {} of the room: the library has {}, the second program {}", place, got[at], whole[at]));
        }
        refused
    }

    // Lists in a room that just fits, and in another.
    fn try_lists(&mut self, lists: &Lists) -> usize {
        self.meshes += 1;
        let packed = pack(lists);
        let length = lists.length().min(MOST_ROOM);
        self.write(lists, &packed, length);
        let other = [length - 1, (length + 1).min(MOST_ROOM), 0, self.dice.below(length)][self.dice.below(4)];
        self.write(lists, &packed, other);
        1
    }

    // Good lists of every family, in rooms that just fit, do not, and have more.
    pub fn pack_lists(&mut self) -> usize {
        let mut count = 0;
        for family in FAMILIES {
            for i in 0..family.count.min(50 * self.plan.scale) {
                self.now.family = format!("pack-lists, {} number {}", family.name, i);
                let file = mesh_of(family, i, self.plan.seed + 2);
                if let Ok(mesh) = read(&file) {
                    let mut lists = Lists::from(&mesh);
                    if i % 2 == 1 {
                        let dice = &mut self.dice;
                        lists.parts.iter_mut().for_each(|part| *part = dice.next() as u16);
                    } else if pack(&lists) != Ok(file) {
                        self.lists_differ(&lists, "the lists of a file do not make that file");
                    }
                    self.good_lists(&lists);
                    count += 1;
                }
            }
        }
        count
    }

    fn good_lists(&mut self, lists: &Lists) {
        self.meshes += 1;
        let packed = pack(lists);
        let length = lists.length();
        let long = [length + self.dice.below(5_000), MOST_ROOM][self.dice.below(2)];
        for room in [length, length - 1, length + 1, 0, long] {
            self.write(lists, &packed, room);
        }
        // what was written, read back
        match packed {
            Ok(file) if read(&file).map_or(false, |mesh| Lists::from(&mesh) == *lists) => {
                self.set_file(&file);
                self.check(0);
            }
            _ => self.lists_differ(lists, "the file does not hold the lists that it was made from"),
        }
    }

    // Lists that are damaged, too long, or made to be refused.
    pub fn pack_damaged(&mut self) -> usize {
        self.refusals_in_order() + self.lengths_off() + self.at_the_limits() + self.spoiled() + self.changed()
    }

    // Each refusal alone and each pair of them; what is not in threes, in fours or one a tetrahedron in turn.
    fn refusals_in_order(&mut self) -> usize {
        let order = [NOT_LISTS, 1, 2, 4, 5, 6, 7, 8, 9, ROOM_SHORT];
        let mut count = 0;
        for (i, first) in order.iter().enumerate() {
            for second in &order[i..] {
                for which in 0..3 {
                    let both = [*first, *second];
                    self.now.family = format!("pack-damaged, refusals {} and {}", first, second);
                    let lists = made_for(if first == second { &both[..1] } else { &both }, which);
                    let room = lists.length() - usize::from(both.contains(&ROOM_SHORT));
                    let answer = self.write(&lists, &pack(&lists), room);
                    if answer != *first {
                        self.lists_differ(&lists, &format!("the lists are made to be refused with {}, and are with {}", first, answer));
                    }
                    count += self.try_lists(&lists);
                }
            }
        }
        count
    }

    // A few entries more or fewer in each list.
    fn lengths_off(&mut self) -> usize {
        let mut count = 0;
        for draft in [Draft::default(), pyramid(), cube()] {
            let good = lists_of(&draft);
            for c in -3..=3 {
                for v in -4..=4 {
                    for p in -2..=2 {
                        self.now.family = format!("pack-damaged, lengths off by {}, {} and {}", c, v, p);
                        let coordinates = resized(&good.coordinates, c);
                        let lists = Lists { coordinates, numbers: resized(&good.numbers, v), parts: resized(&good.parts, p) };
                        count += self.try_lists(&lists);
                    }
                }
            }
        }
        count
    }

    // Numbers of vertices and of tetrahedra about the limits and far beyond, with faults that come first and last.
    fn at_the_limits(&mut self) -> usize {
        let big = read(&mesh_of(family("bounds"), 2, self.plan.seed)).unwrap_or_else(|_| self.differ("no mesh at the limits"));
        let big = Lists::from(&big);
        let mut count = 0;
        // among them 512, 517 and 507 vertices with 26,648 bytes, and 513 and 508 with 26,650
        let sizes = [
            (512, 2_048), (511, 2_048), (512, 2_047), (513, 2_048), (512, 2_049), (513, 2_046), (513, 2_047), (511, 2_049), (511, 2_050),
            (517, 2_042), (507, 2_054), (508, 2_053), (512, 0), (513, 0), (0, 2_048), (0, 2_049), (0, 2_662), (0, 2_663), (2_218, 0),
            (2_219, 0), (33_333, 0), (0, 25_000), (33_333, 25_000), (66_666, 50_000),
        ];
        for (n, t) in sizes {
            self.now.family = format!("pack-damaged, {} vertices and {} tetrahedra", n, t);
            let mut lists = big.clone();
            lists.coordinates.resize(3 * n, 0);
            lists.numbers.resize(4 * t, 0);
            lists.parts.resize(t, 0);
            count += self.try_lists(&lists);
            self.write(&lists, &pack(&lists), LONGEST);
            if let Some(last) = lists.coordinates.last_mut() {
                *last = 50_001;
                count += self.try_lists(&lists);
            }
            lists.parts.pop();
            count += self.try_lists(&lists);
        }
        count
    }

    // A good mesh that is quick to make.
    fn some_mesh(&mut self, i: usize) -> Lists {
        let names = ["worked", "five-shuffled", "kuhn-jittered", "crowded-cube", "glued", "parts", "boundary", "small"];
        let family = family(names[i % names.len()]);
        let mesh = read(&mesh_of(family, self.dice.below(family.count), self.plan.seed + 4));
        mesh.map_or(lists_of(&cube()), |mesh| Lists::from(&mesh))
    }

    // Tetrahedra turned, repeated once or twice, or glued to a facet on one side or the other.
    fn spoiled(&mut self) -> usize {
        let mut count = 0;
        for i in 0..800 * self.plan.scale {
            self.now.family = format!("pack-damaged, spoiled {}", i);
            let mut lists = self.some_mesh(i);
            if !lists.parts.is_empty() {
                spoil(&mut self.dice, &mut lists, i / 8 % 5);
            }
            count += self.try_lists(&lists);
        }
        count
    }

    // One to three entries changed, often to one at the end of a range.
    fn changed(&mut self) -> usize {
        let mut count = 0;
        for i in 0..2_000 * self.plan.scale {
            self.now.family = format!("pack-damaged, changed {}", i);
            let mut lists = self.some_mesh(i);
            for _ in 0..1 + self.dice.below(3) {
                change(&mut self.dice, &mut lists);
            }
            count += self.try_lists(&lists);
        }
        count
    }
}

// Does one of these to some tetrahedron.
fn spoil(dice: &mut Dice, lists: &mut Lists, how: usize) {
    let at = 4 * dice.below(lists.parts.len());
    let four: Vec<u16> = lists.numbers[at..at + 4].to_vec();
    let top = 3 * four[3] as usize;
    let mut more = |lists: &mut Lists, four: &[u16]| {
        lists.numbers.extend(four);
        lists.parts.push(dice.next() as u16);
    };
    match how {
        0 => lists.numbers.swap(at, at + 1 + (top % 3)),
        1 => more(lists, &[four[1], four[2], four[0], four[3]]),
        2 => (0..2).for_each(|_| more(lists, &four)),
        _ => {
            // a new vertex near the fourth one, and the tetrahedron on it, the right way round or not
            let near: Vec<i32> = (0..3).map(|k| lists.coordinates[top + k] + [1, -1, 0][(at + k) % 3]).collect();
            let new = lists.vertices() as u16;
            lists.coordinates.extend(near);
            let turned = if how == 3 { [four[0], four[1], four[2], new] } else { [four[0], four[2], four[1], new] };
            more(lists, &turned);
        }
    }
}

// Half of the changes are small ones, so that the later refusals are met too.
fn change(dice: &mut Dice, lists: &mut Lists) {
    let (any, small) = (dice.next(), dice.one_in(2));
    let n = lists.vertices() as u16;
    match dice.below(5) {
        0 | 1 if n > 0 => {
            let at = dice.below(lists.coordinates.len());
            let far = [i32::MIN, i32::MAX, -50_001, -50_000, 50_000, 50_001, 1 << 16, any as i32];
            let near = lists.coordinates[at].saturating_add(dice.between(-3, 3));
            lists.coordinates[at] = if small { near } else { far[dice.below(far.len())] };
        }
        2 | 3 if !lists.numbers.is_empty() => {
            let at = dice.below(lists.numbers.len());
            let far = [0, n.wrapping_sub(1), n, n.wrapping_add(1), 256, 511, 512, 65_535, any as u16];
            let other = lists.numbers[dice.below(lists.numbers.len())];
            lists.numbers[at] = if small { other } else { far[dice.below(far.len())] };
        }
        _ if !lists.parts.is_empty() => {
            let at = dice.below(lists.parts.len());
            lists.parts[at] = [0, 1, 255, 256, 65_535, any as u16][dice.below(6)];
        }
        _ => {}
    }
}

fn line_ends(bytes: &[u8]) -> usize {
    bytes.iter().filter(|b| **b == b'\n').count()
}

// A text in the making: its words, and what stands before each of them and behind the last.
struct Text {
    counts: [u64; 2],
    words: Vec<Vec<u8>>,
    gaps: Vec<Vec<u8>>,
}

impl Text {
    // The text of lists in some layout: on one line, a word a line, with other line ends, or wild.
    fn of(dice: &mut Dice, lists: &Lists) -> Text {
        let plain = print(lists);
        let words: Vec<Vec<u8>> = plain.split_whitespace().map(|word| dressed(dice, word)).collect();
        let style = dice.below(4);
        let mut gaps: Vec<Vec<u8>> = words.iter().map(|_| gap(dice, style)).collect();
        if dice.one_in(2) {
            gaps[0].clear();
        }
        let last = [&b""[..], b"\n", b" ", b"\r\n\r\n", b"#", b" # 1 2 3", b"\n#"][dice.below(7)];
        gaps.push(last.to_vec());
        Text { counts: [lists.vertices() as u64, lists.parts.len() as u64], words, gaps }
    }

    fn bytes(&self) -> Vec<u8> {
        let mut bytes = Vec::new();
        for (gap, word) in self.gaps.iter().zip(&self.words) {
            bytes.extend(gap);
            bytes.extend(word);
        }
        bytes.extend(&self.gaps[self.words.len()]);
        bytes
    }

    fn wanted(&self, read: usize) -> u64 {
        let [n, t] = self.counts;
        2 + if read > 0 { 3 * n } else { 0 } + if read > 1 { 5 * t } else { 0 }
    }

    // What is told where a word has a fault, and no word before it has.
    fn told_at(&self, fault: u32, word: usize) -> Told {
        let line = 1 + self.gaps[..=word].iter().map(|gap| line_ends(gap)).sum::<usize>();
        Told::wrong(&Wrong { fault, line, before: word, wanted: self.wanted(word) })
    }

    // Where a fault may stand: at the counts, the coordinates, the numbers behind them, or anywhere.
    fn places(&self, fault: u32) -> std::ops::Range<usize> {
        let behind = 2 + 3 * self.counts[0] as usize;
        match fault {
            BAD_COUNT => 0..2,
            BAD_COORDINATE => 2..behind,
            BAD_NUMBER => behind..self.words.len(),
            _ => 0..self.words.len(),
        }
    }

    // A word that is bad where a fault may stand, and what is then told.
    fn spoil(&mut self, dice: &mut Dice, fault: u32, word: &str) -> Told {
        let places = self.places(fault);
        let at = if fault == TOO_MANY { self.words.len() } else { places.start + dice.below(places.len()) };
        if fault == TOO_MANY {
            let style = dice.below(4);
            self.gaps.insert(at, gap(dice, style));
            self.words.push(vec![]);
        }
        self.words[at] = word.as_bytes().to_vec();
        if at + 1 < self.words.len() && dice.one_in(3) {
            // a second fault, which is not told
            let behind = at + 1 + dice.below(self.words.len() - at - 1);
            self.words[behind] = b"?".to_vec();
        }
        self.told_at(fault, at)
    }

    // Only so many words, and what is then told.
    fn cut_to(&mut self, left: usize) -> Told {
        self.words.truncate(left);
        let line = 2 + line_ends(&self.bytes());
        Told::wrong(&Wrong { fault: TOO_FEW, line, before: left, wanted: self.wanted(left) })
    }
}

const HUGE: &str = "-999999999999999999999999999999999999999999999999999";

// Words that are bad for each fault: those nearest to good ones, and those that are good again modulo some power of 2.
const BAD: [(u32, &[&str]); 5] = [
    (TOO_MANY, &["0", "7", "x", "-", "-1", HUGE]),
    (NO_NUMBER, &["+1", "1.0", "0x10", "1e3", "--1", "-", "1-", "-x", "\0", "1,", "−1", "٣", "1;2", "\u{a0}"]),
    (BAD_COUNT, &["-1", "4294967296", "-4294967295", "18446744073709551616", "18446744073709551617", HUGE]),
    (BAD_COORDINATE, &["2147483648", "-2147483649", "4294967296", "-4294967296", "9223372036854775808", "-18446744073709551615", HUGE]),
    (BAD_NUMBER, &["65536", "-1", "-65535", "65537", "4294967296", "18446744073709551616", HUGE]),
];

// A number as it may be written: with zeros before it, and 0 with a sign.
fn dressed(dice: &mut Dice, word: &str) -> Vec<u8> {
    let (sign, digits) = if let Some(digits) = word.strip_prefix('-') { ("-", digits) } else { ("", word) };
    let sign = if word == "0" && dice.one_in(3) { "-" } else { sign };
    let zeros = if dice.one_in(6) { 1 + dice.below(40) } else { 0 };
    format!("{}{}{}", sign, "0".repeat(zeros), digits).into_bytes()
}

// What parts two words: at least one blank, line end or comment.
fn gap(dice: &mut Dice, style: usize) -> Vec<u8> {
    let pieces: &[&[u8]] = match style {
        0 => &[b" ", b"\t", b"  ", b"\x0b", b"\x0c", b"\r"],
        1 => &[b"\n", b"\n\n", b"#\n"],
        2 => &[b"\r\n", b" ", b" \r\n", b"# words\r\n"],
        _ => &[b" ", b"\t", b"\n", b"\r", b"#1 2 -3 # 4\n", b" #\xff\x00\x80\n", b"#\n", b" # a comment \t\n", b"\x0c\n\x0b"],
    };
    (0..1 + dice.below(3)).flat_map(|_| pieces[dice.below(pieces.len())]).copied().collect()
}

// Questions to the program.
impl Comparison<'_> {
    fn program_tells(&mut self, job: &str, input: &[u8], want: &Told) {
        if self.plan.program.is_empty() {
            return;
        }
        self.now.file = input.to_vec();
        self.asked(format!("the program {}", job));
        let got = run(&self.plan.program, &[job.to_string()], input, Stdio::piped());
        if !got.status.success() {
            self.differ(&format!("the program ended with {}", got.status));
        }
        let said = String::from_utf8_lossy(&got.stderr).into_owned();
        if said != want.err {
            self.differ(&format!("the program says '{}', the second program '{}'", said.trim_end(), want.err.trim_end()));
        }
        if got.stdout != want.out {
            let at = got.stdout.iter().zip(&want.out).take_while(|(g, w)| g == w).count();
            let (len, other) = (got.stdout.len(), want.out.len());
            self.differ(&format!("the program prints {} bytes, the second program {}; the first {} are the same", len, other, at));
        }
    }

    // A text to pack. Where it was made to be told something, the second program must tell it too.
    fn text(&mut self, text: &[u8], made: Option<Told>) -> usize {
        self.meshes += 1;
        self.now.file = text.to_vec();
        self.now.question = "pack of a text".to_string();
        let want = tell_packed(text);
        if let Some(made) = made.filter(|made| *made != want) {
            self.differ(&format!("the text is made to be told as '{}', and is as '{}'", made.err.trim_end(), want.err.trim_end()));
        }
        self.program_tells("pack", text, &want);
        1
    }

    // Texts in every layout and with every fault.
    pub fn pack_texts(&mut self) -> usize {
        let mut count = 0;
        for _ in 0..self.plan.scale {
            count += self.good_texts() + self.faulty_texts() + self.edge_texts() + self.refused_texts();
            count += self.cut_texts() + self.long_texts() + self.any_texts();
        }
        count
    }

    fn some_text(&mut self, i: usize) -> (Lists, Text) {
        let lists = if i % 4 == 0 { lists_of(&pyramid()) } else { self.some_mesh(i) };
        let text = Text::of(&mut self.dice, &lists);
        (lists, text)
    }

    fn good_texts(&mut self) -> usize {
        let mut count = 0;
        for i in 0..26 {
            self.now.family = format!("pack-texts, good {}", i);
            let (lists, text) = self.some_text(i);
            count += self.text(&text.bytes(), pack(&lists).ok().map(Told::done));
        }
        // the largest, so that words lie across the ends of any portion in which a text is read
        for i in 2..5 {
            self.now.family = format!("pack-texts, bounds number {}", i);
            let file = mesh_of(family("bounds"), i, self.plan.seed);
            let text = cut(&file).map(|lists| Text::of(&mut self.dice, &lists).bytes());
            count += self.text(&text.unwrap_or_default(), Some(Told::done(file)));
        }
        count
    }

    // Each fault in some place; the texts have vertices and tetrahedra, so that every fault has one.
    fn faulty_texts(&mut self) -> usize {
        let mut count = 0;
        let lists = lists_of(&cube());
        for (fault, words) in BAD {
            for word in words {
                self.now.family = format!("pack-texts, fault {} by {:?}", fault, word);
                let mut text = Text::of(&mut self.dice, &lists);
                let told = text.spoil(&mut self.dice, fault, word);
                count += self.text(&text.bytes(), Some(told));
            }
        }
        for left in [0, 1, 2, 25, 26, 50] {
            self.now.family = format!("pack-texts, {} words of 51", left);
            let mut text = Text::of(&mut self.dice, &lists);
            let told = text.cut_to(left);
            count += self.text(&text.bytes(), Some(told));
        }
        count
    }

    // Words at the end of their range, which are no fault of the text.
    fn edge_texts(&mut self) -> usize {
        let mut count = 0;
        for (at, word, refused) in [(2, "2147483647", 4), (25, "-2147483648", 4), (26, "65535", 5), (49, "65535", 5), (50, "65535", 0)] {
            self.now.family = format!("pack-texts, word {} is {}", at, word);
            let mut text = Text::of(&mut self.dice, &lists_of(&cube()));
            text.words[at] = word.as_bytes().to_vec();
            let told = if refused == 0 { None } else { Some(Told::refused(refused)) };
            count += self.text(&text.bytes(), told);
        }
        count
    }

    // Lists that are refused, each refusal once and some about the limits.
    fn refused_texts(&mut self) -> usize {
        let mut count = 0;
        for number in [1, 2, 4, 5, 6, 7, 8, 9] {
            self.now.family = format!("pack-texts, refusal {}", number);
            let lists = made_for(&[number], 0);
            let text = Text::of(&mut self.dice, &lists);
            count += self.text(&text.bytes(), Some(Told::refused(number)));
        }
        for (n, t, number) in [(513, 0, 2), (0, 2_049, 2), (0, 2_663, 1), (20_000, 0, 1), (1, 10_000, 1)] {
            self.now.family = format!("pack-texts, {} vertices and {} tetrahedra", n, t);
            let lists = Lists { coordinates: vec![3; 3 * n], numbers: vec![3; 4 * t], parts: vec![3; t] };
            count += self.text(print(&lists).as_bytes(), Some(Told::refused(number)));
        }
        count
    }

    // A good text that ends at some byte, or goes on behind its end; and counts that the text does not hold.
    fn cut_texts(&mut self) -> usize {
        let plain = print(&lists_of(&cube()));
        let mut count = 0;
        for i in 0..14 {
            self.now.family = format!("pack-texts, cut {}", i);
            let text = match i {
                0..=5 => plain[..self.dice.below(plain.len())].to_string(),
                6 => plain.trim_end().to_string(),
                7 => plain.clone() + "# 1",
                8 => plain.clone() + "\n\n1",
                9 => plain.clone() + &plain,
                10 => "4294967295 4294967295".to_string(),
                11 => "4294967295 0 1 2 3\n".to_string(),
                12 => "1 4294967295 1 2 3\n0 0 0 0 0 1 2 3 4 65536".to_string(),
                _ => "0 0".to_string(),
            };
            count += self.text(text.as_bytes(), None);
        }
        count
    }

    // Comments of 300 KB before, among and behind the words, and words of 100 KB.
    fn long_texts(&mut self) -> usize {
        let mut count = 0;
        let lists = lists_of(&pyramid());
        let some = b"1 2\t#".repeat(60_000 + self.dice.below(1_000));
        let long = [b"#".to_vec(), some, b"\n".to_vec()].concat();
        for i in 0..6 {
            self.now.family = format!("pack-texts, long {}", i);
            let mut text = Text::of(&mut self.dice, &lists);
            let last = text.words.len();
            let mut told = pack(&lists).map_or_else(Told::refused, Told::done);
            match i {
                0 => text.gaps[0] = long.clone(),
                1 => text.gaps[last / 2] = long.clone(),
                2 => text.gaps[last] = long[..long.len() - 1].to_vec(),
                3 => text.words[0] = [b"0".repeat(100_000), b"5".to_vec()].concat(),
                4 => {
                    text.words[last - 1] = b"9".repeat(100_000);
                    told = text.told_at(BAD_NUMBER, last - 1);
                }
                _ => {
                    text.words[3] = [b"1".repeat(100_000), b"x".to_vec()].concat();
                    told = text.told_at(NO_NUMBER, 3);
                }
            }
            count += self.text(&text.bytes(), Some(told));
        }
        count
    }

    // Bytes of any kind, and such as texts are made of; some behind counts that let them be read on.
    fn any_texts(&mut self) -> usize {
        let mut count = 0;
        for i in 0..24 {
            self.now.family = format!("pack-texts, any {}", i);
            let dice = &mut self.dice;
            let known = b"0123456789 0123456789 \t\n\r\x0b\x0c-#  \n";
            let mut text = [&b""[..], b"1 0 ", b"0 1 ", b"2 1\n"][i % 4].to_vec();
            for _ in 0..dice.below(120) {
                text.push(if i >= 18 || dice.one_in(60) { dice.next() as u8 } else { known[dice.below(known.len())] });
            }
            count += self.text(&text, None);
        }
        count
    }

    // Files of every family taken apart and packed again, and texts packed and taken apart again.
    pub fn pack_round(&mut self) -> usize {
        let mut count = 0;
        for family in FAMILIES {
            for i in 0..family.count.min(2 * self.plan.scale) {
                self.now.family = format!("pack-round, {} number {}", family.name, i);
                count += self.file_round(&mesh_of(family, i, self.plan.seed + 3));
            }
        }
        for number in 1..10 {
            self.now.family = format!("pack-round, refusal {}", number);
            count += self.file_round(&with_faults(&[number]));
        }
        for len in [0, 1, 23, 24, 169, 171, LONGEST + 2, 100_000] {
            self.now.family = format!("pack-round, cube of {} bytes", len);
            let mut file = cube().bytes();
            file.resize(len, 0);
            count += self.cut_round(&file);
        }
        for i in 0..8 * self.plan.scale {
            self.now.family = format!("pack-round, text {}", i);
            count += self.text_round(i);
        }
        count
    }

    // A file that is too long for the library's side of the comparison is put to the program alone.
    fn cut_round(&mut self, file: &Vec<u8>) -> usize {
        self.meshes += 1;
        self.program_tells("unpack", file, &tell_unpacked(file));
        1
    }

    // A file, its lists, its text, and the file again; the lists of a refused one are refused with its number.
    fn file_round(&mut self, file: &Vec<u8>) -> usize {
        self.meshes += 1;
        self.set_file(file);
        let refused = read(file).err();
        self.check(refused.unwrap_or(0));
        let told = tell_unpacked(file);
        self.program_tells("unpack", file, &told);
        let lists = match cut(file) {
            Some(lists) => lists,
            None => return 1,
        };
        let packed = pack(&lists);
        let answer = self.write(&lists, &packed, file.len());
        let text = print(&lists).into_bytes();
        let again = tell_packed(&text);
        let want = refused.map_or(Told::done(file.clone()), Told::refused);
        if answer != refused.unwrap_or(0) || again != want || refused.is_none() && told.out != text {
            self.differ("a file taken apart and packed again is another, or is judged as another");
        }
        self.program_tells("pack", &text, &want);
        1
    }

    // A text in some layout, its file, and the text that is printed of it.
    fn text_round(&mut self, i: usize) -> usize {
        let (lists, text) = self.some_text(i);
        let file = tell_packed(&text.bytes());
        let plain = Told::done(print(&lists).into_bytes());
        self.text(&text.bytes(), None);
        if tell_unpacked(&file.out) != plain {
            self.differ("a text packed and taken apart again has other numbers");
        }
        self.program_tells("unpack", &file.out, &plain);
        1
    }
}

// An independent lister of the cells of a mesh, packer of mesh files, and the comparison with them.
//
//   second list < MESH            prints what the program prints
//   second portion KIND A B C D E F G H K < MESH
//                                 at most K cells after the mark, then the end or the mark reached
//   second pack < TEXT            the mesh file of the lists in a text; `refused` or `wrong` on standard error
//   second unpack < MESH          the lists of a mesh file as a text; `refused` on standard error
//   second why MESH KIND A B ..   why a tuple is no cell: the ten entries, and on a second line what was found;
//                                 places that are not given are 0
//   second make FAMILY NUMBER [SEED]
//                                 writes one mesh of a family to standard output
//   second compare --ask ASK [--program PROGRAM] [--seed N] [--scale K] [--only FAMILY] [--save DIR] [--workers K]
//                                 asks the library (through ASK) and the program the same questions, K families at
//                                 a time; ASK and PROGRAM of several words are given word by word
//   second agree SEED PROGRAM...  holds another lister's output to its own, on every accepted mesh
//   second timed DIR              writes the meshes that bench/run times
//   second survey [SEED]          what is in each family: meshes accepted, cells of each kind, time
//   second slips                  the names of the deliberate errors
//
// Plain Rust, one call of rustc, nothing but std. It shares nothing with the library: no code, no
// table and no way of searching.
mod cells;
mod compare;
mod compare_pack;
mod compare_why;
mod families;
mod make;
mod mesh;
mod pack;
mod portion;
mod slips;
mod why;

use compare::{stop, Plan};
use std::io::{Read, Write};

fn number<T: std::str::FromStr>(word: &str) -> T {
    word.parse().unwrap_or_else(|_| stop(&format!("not a number that fits: {}", word)))
}

fn print(bytes: &[u8]) {
    if std::io::stdout().write_all(bytes).is_err() {
        stop("the output could not be written");
    }
}

fn input() -> Vec<u8> {
    let mut bytes = Vec::new();
    if std::io::stdin().read_to_end(&mut bytes).is_err() {
        stop("the input could not be read");
    }
    bytes
}

fn answer(mark: [u16; portion::MARK], most: usize) {
    let listed = mesh::read(&input()).map(portion::list);
    print(portion::text(&listed, &mark, most).as_bytes());
}

// Tells as the program does, and ends with 0 done, 1 refused, 2 not lists.
fn tell(told: pack::Told) {
    print(&told.out);
    eprint!("{}", told.err);
    std::process::exit(told.status);
}

fn why(name: &str, kind: u16, given: &[String]) {
    let file = std::fs::read(name).unwrap_or_else(|_| stop(&format!("cannot read {}", name)));
    if given.len() > 8 || why::rows(kind).is_some() && given.len() < kind as usize {
        stop("the corners are a kind's, or eight");
    }
    let mut corners = [0; 8];
    for (place, word) in corners.iter_mut().zip(given) {
        *place = number(word);
    }
    print(why::tell(&file, kind, &corners).as_bytes());
}

fn make(name: &str, which: usize, seed: u64) {
    let family = families::FAMILIES.iter().find(|f| f.name == name).unwrap_or_else(|| stop("no such family"));
    print(&compare::mesh_of(family, which, seed));
}

fn timed(folder: &str) {
    let wrote = std::fs::create_dir_all(folder).and_then(|_| {
        for (i, (name, draft)) in families::timed(1).iter().enumerate() {
            std::fs::write(format!("{}/{:02}-{}.mesh", folder, i, name), draft.bytes())?;
        }
        Ok(())
    });
    if wrote.is_err() {
        stop("the meshes could not be written");
    }
}

fn survey(seed: u64) {
    println!("family meshes accepted hexahedra prisms pyramids most-cells milliseconds");
    for family in families::FAMILIES {
        let (mut accepted, mut most, mut kinds) = (0, 0, [0; 3]);
        let began = std::time::Instant::now();
        for i in 0..family.count {
            if let Ok(mesh) = mesh::read(&compare::mesh_of(family, i, seed)) {
                let listed = portion::list(mesh);
                accepted += 1;
                most = most.max(listed.cells.len());
                for c in &listed.cells {
                    kinds[[8, 6, 5].iter().position(|k| *k == c.kind).unwrap()] += 1;
                }
            }
        }
        let [h, s, p] = kinds;
        let took = began.elapsed().as_millis();
        println!("{} {} {} {} {} {} {} {}", family.name, family.count, accepted, h, s, p, most, took);
    }
}

fn compare(args: &[String]) {
    let mut plan =
        Plan { program: vec![], ask: vec![], save: "target/second".into(), seed: 1, scale: 1, only: None, workers: 1 };
    for pair in args.chunks(2) {
        let value = pair.get(1).unwrap_or_else(|| stop("a word is missing")).clone();
        match pair[0].as_str() {
            "--ask" => plan.ask.push(value),
            "--program" => plan.program.push(value),
            "--seed" => plan.seed = number(&value),
            "--scale" => plan.scale = number(&value),
            "--only" => plan.only = Some(value),
            "--save" => plan.save = value.into(),
            "--workers" => plan.workers = number::<usize>(&value).max(1),
            other => stop(&format!("what is {}?", other)),
        }
    }
    compare::compare(&plan);
}

fn main() {
    slips::choose();
    let args: Vec<String> = std::env::args().skip(1).collect();
    match args.first().map_or("", |s| s.as_str()) {
        "list" if args.len() == 1 => answer(portion::START, usize::MAX),
        "portion" if args.len() == 11 => {
            let mut mark = [0; portion::MARK];
            for (place, word) in mark.iter_mut().zip(&args[1..10]) {
                *place = number(word);
            }
            answer(mark, number::<usize>(&args[10]).max(1));
        }
        "pack" if args.len() == 1 => tell(pack::tell_packed(&input())),
        "unpack" if args.len() == 1 => tell(pack::tell_unpacked(&input())),
        "why" if args.len() >= 3 => why(&args[1], number(&args[2]), &args[3..]),
        "make" if args.len() == 3 || args.len() == 4 => {
            make(&args[1], number(&args[2]), args.get(3).map_or(1, |s| number(s)))
        }
        "compare" => compare(&args[1..]),
        "agree" if args.len() >= 3 => compare::agree(&args[2..], number(&args[1])),
        "timed" if args.len() == 2 => timed(&args[1]),
        "survey" if args.len() <= 2 => survey(args.get(1).map_or(1, |s| number(s))),
        "slips" => slips::NAMES.iter().for_each(|s| println!("{}: {}", s.0, s.1)),
        _ => stop("usage: second list | portion | pack | unpack | why | make | compare | agree | timed | survey | slips (see second/second.rs)"),
    }
}

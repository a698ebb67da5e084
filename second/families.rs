// The families of meshes that the comparison asks about, each made from a seed and a number.
use crate::make::*;

pub struct Family {
    pub name: &'static str,
    // how many meshes a run of scale 1 takes
    pub count: usize,
    pub make: fn(&mut Dice, usize) -> Vec<u8>,
}

fn sides(dice: &mut Dice, most: usize) -> [usize; 3] {
    let mut size = [0; 3].map(|_| 1 + dice.below(3));
    while (size[0] + 1) * (size[1] + 1) * (size[2] + 1) > most {
        let i = dice.below(3);
        size[i] = 1;
    }
    size
}

fn plain(cubes: Cubes, dice: &mut Dice, _: usize) -> Draft {
    let step = [1, 2, 7, 1_000, 12_000][dice.below(5)];
    grid(cubes, sides(dice, 36), step)
}

fn jittered(cubes: Cubes, dice: &mut Dice, i: usize) -> Draft {
    let by = [1, 20, 150, 300, 450][i % 5];
    grid(cubes, sides(dice, 36), 1_000).jittered(dice, by)
}

fn shuffled(cubes: Cubes, dice: &mut Dice, i: usize) -> Draft {
    let mut d = if i % 3 == 0 { plain(cubes, dice, i) } else { jittered(cubes, dice, i) };
    if i % 2 == 0 {
        let one_in = 3 + dice.below(20);
        d = d.without_some(dice, one_in);
    }
    d.shuffled(dice)
}

// Points on a small lattice, so that many boxes are zero, or anywhere.
fn few_points(dice: &mut Dice, n: usize) -> Vec<[i32; 3]> {
    let range = [1, 2, 3, 100, 50_000][dice.below(5)];
    (0..n).map(|_| [0; 3].map(|_| dice.between(-range, range))).collect()
}

fn crowded_cube(dice: &mut Dice, i: usize) -> Draft {
    let by = [0, 1, 5, 20, 45, 80][i % 6];
    let mut points = bent_cube(dice, 50, by);
    for _ in 0..dice.below(3) {
        points.push([0; 3].map(|_| dice.between(-120, 120)));
    }
    crowded(dice, points)
}

// Two bent cubes side by side, filled with any tetrahedra that fit.
fn crowded_pair(dice: &mut Dice, _: usize) -> Draft {
    let by = dice.between(0, 30);
    let mut points = Vec::new();
    for x in 0..3 {
        for y in 0..2 {
            for z in 0..2 {
                points.push([x, y, z].map(|c| c * 100 + dice.between(-by, by)));
            }
        }
    }
    crowded(dice, points).shuffled(dice)
}

// Grids of bent cubes, cut into other tetrahedra.
fn flips(dice: &mut Dice, i: usize, size: [usize; 3], times: usize) -> Draft {
    let cubes = if i % 2 == 0 { Cubes::Kuhn } else { Cubes::Five };
    let by = [10, 100, 200, 320][i / 2 % 4];
    let d = grid(cubes, size, 1_000).jittered(dice, by);
    let times = 1 + dice.below(times);
    flipped(dice, &d, times).shuffled(dice)
}

fn hubs(dice: &mut Dice, i: usize) -> Draft {
    let d = match i {
        0 => hub_of(511, 12, 42),
        1 => hub_of(511, 39, 13),
        _ => hub(1 + dice.below(5), 3 + dice.below(12)),
    };
    if i % 2 == 1 {
        d.shuffled(dice)
    } else {
        d
    }
}

fn fans(dice: &mut Dice, i: usize) -> Draft {
    let d = match i {
        0 => fan(160, true, 30_000.0),
        1 => fan(120, false, 45_000.0),
        _ => fan(3 + dice.below(20), dice.one_in(2), 30_000.0),
    };
    if i % 2 == 1 {
        let by = 1 + dice.between(0, 2_000);
        d.jittered(dice, by).shuffled(dice)
    } else {
        d
    }
}

fn axes(dice: &mut Dice, i: usize) -> Draft {
    let d = match i {
        0 | 1 => poles(4, 60),
        _ => poles(3 + dice.below(4), 3 + dice.below(12)),
    };
    match i % 3 {
        0 => d,
        1 => d.shuffled(dice),
        _ => turned_round(d),
    }
}

fn boundary(dice: &mut Dice, i: usize) -> Draft {
    let d = if i % 4 == 3 { slivered(dice) } else { capped(dice) };
    if dice.one_in(2) {
        d.shuffled(dice)
    } else {
        d
    }
}

fn parts(dice: &mut Dice, i: usize) -> Draft {
    let d = match i % 5 {
        0 => shuffled(Cubes::Kuhn, dice, i / 5),
        1 => jittered(Cubes::Five, dice, i / 5),
        2 => crowded_cube(dice, i / 5),
        3 => boundary(dice, i / 5),
        _ => scattered(dice, 12, 500),
    };
    let kinds = 2 + dice.below(3);
    d.with_parts(dice, kinds)
}

fn small(dice: &mut Dice, i: usize) -> Draft {
    let some = |dice: &mut Dice, n: usize| few_points(dice, n);
    match i {
        0 => Draft::default(),
        1 => Draft { points: some(dice, 1), ..Draft::default() },
        2 => Draft { points: some(dice, 512), ..Draft::default() },
        _ => {
            // a small mesh among vertices that nothing uses
            let mut d = match i % 3 {
                0 => grid(Cubes::Five, [1, 1, 1], 3),
                1 => grid(Cubes::Kuhn, [1, 1, 1], 50_000),
                _ => crowded(dice, vec![[0, 0, 0], [2, 0, 0], [2, 2, 0], [0, 2, 0], [0, 0, 2]]),
            };
            let extra = 1 + dice.below(20);
            d.points.extend(some(dice, extra));
            d.shuffled(dice)
        }
    }
}

// The largest meshes (512 vertices and 2,048 tetrahedra), and coordinates at the bounds.
fn bounds(dice: &mut Dice, i: usize) -> Draft {
    let centred = |mut d: Draft, by: i32| {
        for p in &mut d.points {
            *p = p.map(|c| c - by);
        }
        d
    };
    match i {
        0 => centred(grid(Cubes::Kuhn, [1, 1, 1], 100_000), 50_000),
        1 => centred(grid(Cubes::Five, [1, 1, 1], 100_000), 50_000).shuffled(dice),
        2 => {
            let mut d = centred(grid(Cubes::Kuhn, [7, 7, 7], 14_000), 49_000).jittered(dice, 900);
            d.tets.truncate(2_048);
            d.parts.truncate(2_048);
            d
        }
        3 => {
            let mut d = centred(grid(Cubes::Five, [7, 7, 7], 14_000), 49_000).jittered(dice, 900);
            let last = d.points.len() - 1;
            d.points[last] = [50_000; 3];
            d.shuffled(dice)
        }
        4 => {
            let mut d = centred(grid(Cubes::Kuhn, [7, 7, 7], 14_000), 49_000).shuffled(dice);
            d.tets.truncate(2_048);
            d.parts.truncate(2_048);
            d
        }
        _ => {
            let points = (0..6 + dice.below(4)).map(|_| [0; 3].map(|_| [-50_000, -49_999, 0, 49_999, 50_000][dice.below(5)]));
            let points = points.collect();
            crowded(dice, points)
        }
    }
}

pub fn pyramid() -> Draft {
    let points = vec![[0, 0, 0], [2, 0, 0], [2, 2, 0], [0, 2, 0], [0, 0, 2]];
    Draft { points, tets: vec![[0, 1, 2, 4], [0, 2, 3, 4]], parts: vec![0, 0] }
}

pub fn cube() -> Draft {
    let points = vec![[0, 0, 0], [1, 0, 0], [1, 1, 0], [0, 1, 0], [0, 0, 1], [1, 0, 1], [1, 1, 1], [0, 1, 1]];
    let tets = vec![[0, 1, 2, 5], [0, 2, 3, 7], [0, 5, 7, 4], [2, 5, 6, 7], [0, 5, 2, 7]];
    Draft { points, tets, parts: vec![0; 5] }
}

// A few bytes of a good file changed, some with the header's lengths set right again.
fn bruised(dice: &mut Dice, i: usize) -> Vec<u8> {
    let d = match i % 3 {
        0 => cube(),
        1 => jittered(Cubes::Kuhn, dice, i),
        _ => crowded_cube(dice, i),
    };
    let mut file = d.bytes();
    for _ in 0..1 + dice.below(3) {
        let at = if dice.one_in(4) { dice.below(24) } else { dice.below(file.len()) };
        file[at] = match dice.below(3) {
            0 => dice.next() as u8,
            1 => file[at] ^ 1 << dice.below(8),
            _ => file[at].wrapping_add(1),
        };
    }
    file
}

fn noise(dice: &mut Dice, i: usize) -> Vec<u8> {
    let len = if i % 2 == 0 { dice.below(200) } else { 24 + 12 * dice.below(6) + 10 * dice.below(6) };
    let mut file: Vec<u8> = (0..len).map(|_| if dice.one_in(3) { dice.next() as u8 } else { 0 }).collect();
    if i % 2 == 1 {
        let n = (len as u32 - 24) / 12;
        file[..24].fill(0);
        file[..4].copy_from_slice(&n.to_le_bytes());
        file[16..20].copy_from_slice(&(len as u32).to_le_bytes());
    }
    file
}

pub const FAMILIES: &[Family] = &[
    Family { name: "worked", count: 2, make: |_, i| if i == 0 { pyramid().bytes() } else { cube().bytes() } },
    Family { name: "kuhn", count: 40, make: |d, i| plain(Cubes::Kuhn, d, i).bytes() },
    Family { name: "kuhn-jittered", count: 100, make: |d, i| jittered(Cubes::Kuhn, d, i).bytes() },
    Family { name: "kuhn-shuffled", count: 100, make: |d, i| shuffled(Cubes::Kuhn, d, i).bytes() },
    Family { name: "five", count: 40, make: |d, i| plain(Cubes::Five, d, i).bytes() },
    Family { name: "five-jittered", count: 100, make: |d, i| jittered(Cubes::Five, d, i).bytes() },
    Family { name: "five-shuffled", count: 100, make: |d, i| shuffled(Cubes::Five, d, i).bytes() },
    Family { name: "flipped-cube", count: 300, make: |d, i| flips(d, i, [1, 1, 1], 60).bytes() },
    Family { name: "flipped", count: 150, make: |d, i| flips(d, i, [2, 1 + i % 3 / 2, 1 + i % 2], 300).bytes() },
    Family { name: "crowded-cube", count: 250, make: |d, i| crowded_cube(d, i).bytes() },
    Family { name: "crowded-pair", count: 30, make: |d, i| crowded_pair(d, i).bytes() },
    Family {
        name: "crowded",
        count: 200,
        make: |d, _| {
            let n = 5 + d.below(7);
            let points = few_points(d, n);
            crowded(d, points).bytes()
        },
    },
    Family {
        name: "glued",
        count: 200,
        make: |d, i| {
            let (tets, points) = (4 + d.below(60), 6 + d.below(14));
            glued(d, tets, points, [3, 50, 50_000][i % 3]).bytes()
        },
    },
    Family {
        name: "scattered",
        count: 100,
        make: |d, _| {
            let points = 6 + d.below(40);
            scattered(d, points, 1_000).shuffled(d).bytes()
        },
    },
    Family { name: "hub", count: 20, make: |d, i| hubs(d, i).bytes() },
    Family { name: "fan", count: 30, make: |d, i| fans(d, i).bytes() },
    Family { name: "poles", count: 30, make: |d, i| axes(d, i).bytes() },
    Family { name: "boundary", count: 250, make: |d, i| boundary(d, i).bytes() },
    Family { name: "parts", count: 200, make: |d, i| parts(d, i).bytes() },
    Family { name: "small", count: 24, make: |d, i| small(d, i).bytes() },
    Family { name: "bounds", count: 25, make: |d, i| bounds(d, i).bytes() },
    Family { name: "bruised", count: 300, make: bruised },
    Family { name: "noise", count: 100, make: noise },
];

// A mesh for each of the refusals 4 to 9, alone or with others: the faults do not hide each other, so the one
// that is told first is the answer.
pub fn faulty(faults: &[u32]) -> Draft {
    let mut d = cube();
    // tetrahedra apart from the cube, so that a fault has one of its own
    let base = d.points.len() as u16;
    for p in [[20, 0, 0], [30, 0, 0], [20, 10, 0], [20, 0, 10], [20, 0, -10], [20, 0, 20], [29, 9, 9]] {
        d.points.push(p);
    }
    let at = |i: u16| base + i;
    for fault in faults {
        let mut own = |t: [u16; 4]| {
            d.tets.push(t);
            d.parts.push(7);
        };
        match fault {
            // the cube keeps positive boxes, so that 4 stands alone
            4 => d.points[3][1] = 50_001,
            5 => own([at(0), at(1), at(2), 65_535]),
            6 => own([at(0), at(1), at(2), at(1)]),
            7 => own([at(0), at(2), at(1), at(3)]),
            8 => {
                own([at(0), at(1), at(2), at(3)]);
                own([at(0), at(2), at(1), at(4)]);
                own([at(0), at(1), at(2), at(5)]);
            }
            9 => {
                own([at(3), at(1), at(2), at(6)]);
                own([at(3), at(1), at(2), at(5)]);
            }
            _ => {}
        }
    }
    d
}

// The file of such a mesh, with the refusals 1 to 3 in its header.
pub fn with_faults(faults: &[u32]) -> Vec<u8> {
    let mut file = faulty(faults).bytes();
    let mut word = |i: usize, to: u32| file[4 * i..4 * i + 4].copy_from_slice(&to.to_le_bytes());
    for fault in faults {
        match fault {
            1 => word(4, 23),
            2 => word(0, 513),
            3 => word(5, 1),
            _ => {}
        }
    }
    file
}

// The meshes that are timed, by name: families of rising size, up to the bounds.
pub fn timed(seed: u64) -> Vec<(String, Draft)> {
    let mut dice = Dice::new(seed);
    let mut all = Vec::new();
    let step = 10_000;
    for (name, cubes) in [("kuhn", Cubes::Kuhn), ("five", Cubes::Five)] {
        for k in 1..=7 {
            let mut d = grid(cubes, [k, k, k], step);
            d.tets.truncate(2_048);
            d.parts.truncate(2_048);
            for p in &mut d.points {
                *p = p.map(|c| c - k as i32 * step / 2);
            }
            let moved = d.jittered(&mut dice, step / 6);
            if k == 7 {
                all.push((format!("{}-parts-{}", name, k), moved.clone().with_parts(&mut dice, 3)));
                all.push((format!("{}-shuffled-{}", name, k), moved.shuffled(&mut dice)));
            }
            all.push((format!("{}-jittered-{}", name, k), moved));
            all.push((format!("{}-{}", name, k), d));
        }
    }
    for points in [20, 40, 80, 160, 320] {
        all.push((format!("scattered-{}", points), scattered(&mut dice, points, 39_000)));
    }
    for (degree, rings, around) in [(32, 3, 10), (64, 6, 10), (128, 9, 14), (256, 12, 21), (511, 12, 42)] {
        let d = hub_of(degree, rings, around);
        all.push((format!("hub-{}", degree), d.clone()));
        if degree == 511 {
            all.push((format!("hub-last-{}", degree), turned_round(d)));
        }
    }
    for ring in [30, 120, 510] {
        let d = fan(ring, true, 45_000.0);
        if d.all_stand() {
            all.push((format!("fan-{}", ring), d.clone()));
        }
        if ring == 510 {
            all.push((format!("fan-last-{}", ring), turned_round(d)));
        }
    }
    let d = poles(4, 200);
    all.push(("poles-last-200".into(), turned_round(d.clone())));
    all.push(("poles-shuffled-200".into(), d.shuffled(&mut dice)));
    all.push(("poles-200".into(), d));
    all
}

// Numbers turned round, so that the first vertex becomes the last.
fn turned_round(mut d: Draft) -> Draft {
    let last = d.points.len() as u16 - 1;
    d.points.reverse();
    d.tets = d.tets.iter().map(|t| t.map(|v| last - v)).collect();
    d
}

// Times listers on the same meshes, in one run, and prints a table, the growth and two targets.
//
//   times DIR NAME=PROGRAM NAME=PROGRAM [NAME=PROGRAM...]
//
// The first program is ours and the second is the one that all are held to: a ratio is a time over
// its time. Each program reads the mesh from its standard input. Processor time is taken, user and
// system, so that a busy machine does little harm. The first two take turns, and of their runs the
// second shortest counts; any other is run once. All must print the same bytes.
// Exit status: 0 the targets are met; 1 one is missed, or two programs differ; 2 a program failed.
use std::fs::File;
use std::process::{exit, Command, Stdio};
use std::time::{Duration, Instant};

fn stop(why: &str) -> ! {
    eprintln!("times: {}", why);
    exit(2);
}

fn start(program: &str, mesh: &str) -> Command {
    let input = File::open(mesh).unwrap_or_else(|_| stop(&format!("cannot read {}", mesh)));
    let mut command = Command::new(program);
    command.stdin(Stdio::from(input));
    command
}

fn output(program: &str, mesh: &str) -> Vec<u8> {
    match start(program, mesh).output() {
        Ok(out) if out.status.success() => out.stdout,
        _ => stop(&format!("{} fails on {}", program, mesh)),
    }
}

extern "C" {
    fn getrusage(who: i32, usage: *mut [i64; 18]) -> i32;
}

// The processor time of all programs that were run so far: seconds and microseconds, user and system.
fn spent() -> Duration {
    let mut usage = [0i64; 18];
    if unsafe { getrusage(-1, &mut usage) } != 0 {
        stop("the processor time cannot be had");
    }
    Duration::from_secs((usage[0] + usage[2]) as u64) + Duration::from_micros((usage[1] + usage[3]) as u64)
}

fn run(program: &str, mesh: &str) -> f64 {
    let mut command = start(program, mesh);
    command.stdout(Stdio::null());
    let from = spent();
    match command.status() {
        Ok(status) if status.success() => (spent() - from).as_secs_f64() * 1e3,
        _ => stop(&format!("{} fails on {}", program, mesh)),
    }
}

// Milliseconds of each program: five runs of the first two, and up to twenty as long as they fit
// into half a second. Of several runs the second shortest counts: now and then the system tells next
// to nothing for a whole run.
fn times(programs: &[(&str, &str)], mesh: &str) -> Vec<f64> {
    let mut took: Vec<Vec<f64>> = programs.iter().map(|p| vec![run(p.1, mesh)]).collect();
    let (began, mut runs) = (Instant::now(), 1);
    while runs < 5 || runs < 20 && began.elapsed() < Duration::from_millis(500) {
        for i in 0..2 {
            took[i].push(run(programs[i].1, mesh));
        }
        runs += 1;
    }
    for t in &mut took {
        t.sort_by(f64::total_cmp);
    }
    took.iter().map(|t| t[t.len().min(2) - 1]).collect()
}

struct Row {
    name: String,
    cells: f64,
    took: Vec<f64>,
}

impl Row {
    fn ratio(&self) -> f64 {
        self.took[0] / self.took[1]
    }
    // Below 5 ms the start of a program weighs more than its search.
    fn counts(&self) -> bool {
        self.took[1] >= 5.0
    }
    fn size(&self) -> (&str, &str) {
        self.name.rsplit_once('-').unwrap_or((&self.name, ""))
    }
}

fn target(what: &str, value: f64, limit: f64) -> bool {
    println!("{}: {:.2} ({}) {}", what, value, limit, if value <= limit { "ok" } else { "MISSED" });
    value <= limit
}

// For each family, the ratio at its smallest and at its largest mesh that counts.
fn growth(rows: &[Row], ours: &str, other: &str) {
    for family in ["kuhn-jittered", "scattered", "hub", "fan"] {
        let members: Vec<&Row> = rows.iter().filter(|r| r.size().0 == family && r.counts()).collect();
        if let (Some(first), Some(last)) = (members.first(), members.last()) {
            let (from, to) = (first.size().1, last.size().1);
            println!("growth, {} / {}, {} {} to {}: {:.2} to {:.2}", ours, other, family, from, to, first.ratio(), last.ratio());
        }
    }
}

fn targets(rows: &[Row], ours: &str, other: &str) -> bool {
    let worst = rows.iter().max_by(|a, b| a.ratio().total_cmp(&b.ratio()));
    let each = |name: &str| rows.iter().find(|r| r.name == name).map(|r| r.took[0] / r.cells);
    let (worst, hub, grid) = match (worst, each("hub-511"), each("kuhn-jittered-7")) {
        (Some(worst), Some(hub), Some(grid)) => (worst, hub, grid),
        _ => stop("meshes are missing"),
    };
    let what = format!("the most {} / {}, {}", ours, other, worst.name);
    let met = target(&what, worst.ratio(), 1.0);
    target("time per cell, hub-511 / kuhn-jittered-7", hub / grid, 3.0) && met
}

fn main() {
    let args: Vec<String> = std::env::args().skip(1).collect();
    let programs: Vec<(&str, &str)> = args.iter().skip(1).filter_map(|a| a.split_once('=')).collect();
    if args.is_empty() || programs.len() < 2 {
        stop("usage: times DIR NAME=PROGRAM NAME=PROGRAM...");
    }
    let mut meshes: Vec<String> = match std::fs::read_dir(&args[0]) {
        Ok(files) => files.flatten().map(|f| f.path().to_string_lossy().into_owned()).filter(|f| f.ends_with(".mesh")).collect(),
        Err(_) => stop("no such folder"),
    };
    meshes.sort();
    let (ours, other) = (programs[0].0, programs[1].0);
    print!("| mesh | vertices | tetrahedra | cells |");
    for (i, p) in programs.iter().enumerate() {
        print!(" {} ms | cells/s |", p.0);
        if i != 1 {
            print!(" / {} |", other);
        }
    }
    println!("\n|---|---|---|---|{}", "---|".repeat(3 * programs.len() - 1));
    let mut rows = Vec::new();
    for mesh in &meshes {
        let name = mesh.rsplit('/').next().unwrap_or("").trim_end_matches(".mesh");
        let name = name.split_once('-').map_or(name, |n| n.1).to_string();
        let outputs: Vec<Vec<u8>> = programs.iter().map(|p| output(p.1, mesh)).collect();
        for (p, out) in programs.iter().zip(&outputs) {
            if *out != outputs[0] {
                println!("{} and {} differ on {}", ours, p.0, mesh);
                exit(1);
            }
        }
        let text = String::from_utf8_lossy(&outputs[0]).into_owned();
        let counts = text.lines().next().and_then(|l| l.strip_prefix("mesh ")).unwrap_or("- -").replace(' ', " | ");
        let cells: f64 = text.lines().last().and_then(|l| l.strip_prefix("end ")).and_then(|n| n.parse().ok()).unwrap_or(0.0);
        let took = times(&programs, mesh);
        print!("| {} | {} | {} |", name, counts, cells);
        for (i, t) in took.iter().enumerate() {
            print!(" {:.2} | {:.0} |", t, cells / t * 1e3);
            if i != 1 {
                print!(" {:.2} |", t / took[1]);
            }
        }
        println!();
        rows.push(Row { name, cells, took });
    }
    println!();
    growth(&rows, ours, other);
    println!();
    if !targets(&rows, ours, other) {
        exit(1);
    }
}

// Runs the job program and the plain router on the same jobs, holds their lines against each other, counts their
// instructions and prints the tables. Words: the job program, the plain router, a folder for the files, the samples.
mod jobs;

use jobs::*;
use std::collections::HashMap;
use std::fs::{self, File};
use std::path::{Path, PathBuf};
use std::process::{Command, Stdio};
use std::time::Instant;

// The plain router looks at every point of the foil at each step. A job of more than so many points is not run under
// callgrind, where it would take minutes.
const POINTS: usize = 1 << 27;

// Has the C library fill and copy blocks by vectors, in both programs: callgrind counts `rep stos` and `rep movs` as an
// instruction a byte, and a program that fills or copies many lists then seems to do more than it does.
const BY_VECTORS: &str =
    "glibc.cpu.x86_rep_stosb_threshold=1000000000:glibc.cpu.x86_rep_movsb_threshold=1000000000";

// The costliest to join of 60 pairs of points, on the scattered patches of the largest foil.
const COSTLIEST: ([usize; 2], [usize; 2]) = ([165, 3959], [1253, 3576]);

// The pair of 60 whose lay differs most from 64 x 64 to 4,096 x 4,096, on the scattered patches that are scaled.
const UNEVEN: ([usize; 2], [usize; 2]) = ([42, 5], [13, 31]);

struct Bench {
    ours: PathBuf,
    plain: PathBuf,
    room: PathBuf,
    counted: HashMap<(PathBuf, Vec<u8>), u64>,
}

// What a step costs: the difference in instructions between the job with it and the job without, and the wall time of
// the whole job, in milliseconds.
struct Cost {
    ours: u64,
    plain: Option<u64>,
    wall: (f64, f64),
    said: String,
}

impl Cost {
    fn millions(&self) -> f64 {
        self.ours as f64 / 1e6
    }
}

impl Bench {
    // The lines of a job and how long it took, the best of five unless it is long.
    fn run(&self, program: &Path, job: &[u8]) -> (String, f64) {
        let mut best = f64::MAX;
        let mut lines = String::new();
        for _ in 0..5 {
            let took;
            (lines, took) = self.once(program, job);
            best = best.min(took);
            if best > 500.0 {
                break;
            }
        }
        (lines, best)
    }

    // The lines of a job and how long it took once, in milliseconds.
    fn once(&self, program: &Path, job: &[u8]) -> (String, f64) {
        let began = Instant::now();
        let lines = self.lines(Command::new(program), job);
        (lines, began.elapsed().as_secs_f64() * 1000.0)
    }

    // The lines that a program writes for a job.
    fn lines(&self, mut command: Command, job: &[u8]) -> String {
        let file = self.room.join("job");
        fs::write(&file, job).expect("room for a job");
        let input = File::open(file).expect("the job");
        let output = command.stdin(input).stderr(Stdio::null()).output().expect("a program that runs");
        assert!(output.status.success(), "{command:?} failed");
        String::from_utf8(output.stdout).expect("lines of text")
    }

    // The instructions of a whole job.
    fn instructions(&mut self, program: &Path, job: &[u8]) -> u64 {
        let key = (program.to_path_buf(), job.to_vec());
        if let Some(&count) = self.counted.get(&key) {
            return count;
        }
        let counts = self.room.join("counts");
        let mut command = Command::new("valgrind");
        command.env("GLIBC_TUNABLES", BY_VECTORS);
        command.arg("--tool=callgrind").arg(format!("--callgrind-out-file={}", counts.display()));
        command.arg(program);
        self.lines(command, job);
        let text = fs::read_to_string(counts).expect("callgrind's counts");
        let total = text.lines().find_map(|line| line.strip_prefix("totals: ")).expect("a total");
        let count = total.trim().parse().expect("a number");
        self.counted.insert(key, count);
        count
    }

    // Runs a job on both; they must write the same lines.
    fn both(&self, job: &[u8]) -> (String, (f64, f64)) {
        let (ours, plain) = (self.run(&self.ours, job), self.run(&self.plain, job));
        if ours.0 != plain.0 {
            fs::write("differs.job", job).expect("room for the job");
            panic!("the two programs write different lines: see differs.job");
        }
        (ours.0, (ours.1, plain.1))
    }

    // The cost of one step on a board, after the steps `before`.
    fn step(&mut self, table: &Table, before: &[u8], step: &[u8]) -> Cost {
        let without = [&table.job(), before, &END].concat();
        let with = [&table.job(), before, step, &END].concat();
        let (lines, wall) = self.both(&with);
        let (ours, plain) = (self.ours.clone(), self.plain.clone());
        let more = |b: &mut Bench, p: &Path| b.instructions(p, &with) - b.instructions(p, &without);
        let points = table.side * table.side * (table.patches.len() + 1);
        Cost {
            ours: more(self, &ours),
            plain: (points <= POINTS).then(|| more(self, &plain)),
            wall,
            said: said(&lines),
        }
    }
}

// What the last step answered, and how many strips there are after it.
fn said(lines: &str) -> String {
    let (strips, steps): (Vec<_>, Vec<_>) = lines.lines().partition(|line| line.starts_with("strip"));
    let words: Vec<_> = steps.last().expect("a step").split(' ').collect();
    let answer = match words[..] {
        ["track", _, "0", "1", ..] => "1 bend".to_string(),
        ["track", _, "0", bends, ..] => format!("{bends} bends"),
        ["track" | "lift", _, "0"] | ["patch", "0"] => "done".to_string(),
        _ => format!("refused by {}", words[words.len() - 1]),
    };
    format!("{answer}, {} strips", strips.len())
}

fn millions(count: u64) -> String {
    format!("{:.2}", count as f64 / 1e6)
}

// The head of a table of steps.
fn heading(title: &str, first: &str) {
    println!("\n### {title}\n");
    println!("| {first} | Step | Answer | Ours, M | Plain, M | Ratio | Job, ours, ms | Job, plain, ms | Ratio |");
    println!("|---|---|---|--:|--:|--:|--:|--:|--:|");
}

// A row of it. The ratios are the plain router's cost over ours.
fn row(first: &str, step: &str, cost: &Cost) {
    let ratio = |a: f64, b: f64| if a < 10.0 * b { format!("{:.2}", a / b) } else { format!("{:.0}", a / b) };
    let (plain, times) = match cost.plain {
        Some(count) => (millions(count), ratio(count as f64, cost.ours as f64)),
        None => ("not counted".into(), "".into()),
    };
    let (a, b) = cost.wall;
    println!(
        "| {first} | {step} | {} | {} | {plain} | {times} | {a:.1} | {b:.1} | {} |",
        cost.said,
        millions(cost.ours),
        ratio(b, a)
    );
}

fn main() {
    let words: Vec<_> = std::env::args().skip(1).map(PathBuf::from).collect();
    let [ours, plain, room, samples] = words.try_into().expect("four words");
    let mut bench = Bench { ours, plain, room, counted: HashMap::new() };
    let mut figures = Vec::new();
    of_samples(&mut bench, &samples, &mut figures);
    by_size(&mut bench);
    rounded(&mut bench);
    by_entries(&mut bench);
    by_bends(&mut bench);
    largest(&mut bench, &mut figures);
    costliest(&mut bench, &mut figures);
    finest_foil(&mut bench, &mut figures);
    long_jobs(&bench, &mut figures);
    println!("\n### The figures asked for\n\n| What | Asked | Measured | |\n|---|--:|--:|---|");
    for Figure { what, asked, measured, unit } in figures {
        let met = if measured < asked { "met" } else { "MISSED" };
        println!("| {what} | {asked}{unit} | {measured:.2}{unit} | {met} |");
    }
}

// A figure that is asked for, and what was measured.
struct Figure {
    what: &'static str,
    asked: f64,
    measured: f64,
    unit: &'static str,
}

// Whole jobs, start and output included: the samples, which are what the desk sees. Times are the best of 40 by turns.
fn of_samples(bench: &mut Bench, samples: &Path, figures: &mut Vec<Figure>) {
    println!("\n### The samples, whole jobs\n");
    println!("| Job | Lines | Ours, M | Plain, M | Ratio | Ours, ms | Plain, ms | Ratio |");
    println!("|---|--:|--:|--:|--:|--:|--:|--:|");
    let mut names: Vec<_> = fs::read_dir(samples).expect("the samples").map(|f| f.expect("a file").path()).collect();
    names.retain(|name| name.extension().is_some_and(|e| e == "job"));
    names.sort();
    let (ours, plain) = (bench.ours.clone(), bench.plain.clone());
    for name in names {
        let job = fs::read(&name).expect("a sample");
        let (lines, mut wall) = bench.both(&job);
        for _ in 0..40 {
            wall.0 = bench.once(&ours, &job).1.min(wall.0);
            wall.1 = bench.once(&plain, &job).1.min(wall.1);
        }
        let (a, b) = (bench.instructions(&ours, &job), bench.instructions(&plain, &job));
        let stem = name.file_stem().expect("a name").to_string_lossy();
        let (count, ratio, times) = (lines.lines().count(), b as f64 / a as f64, wall.1 / wall.0);
        print!("| {stem} | {count} | {} | {} | {ratio:.2} ", millions(a), millions(b));
        println!("| {:.2} | {:.2} | {times:.2} |", wall.0, wall.1);
        for (what, asked) in [("reader-keys", 2.0), ("full-table", 6.0)] {
            if stem == what {
                figures.push(Figure { what, asked, measured: a as f64 / 1e6, unit: " M" });
            }
        }
    }
}

// One board of 64 by 64 with 120 patches, scaled.
fn by_size(bench: &mut Bench) {
    heading("Growth with W x H: 120 patches of a 64 by 64 foil, scaled", "Foil");
    let small = scattered(64, 120, 2);
    let (s, t) = UNEVEN;
    for by in [1, 4, 16, 64] {
        let table = small.scaled(by);
        let lay = track(7, s.map(|n| n * by), t.map(|n| n * by));
        let costs = [
            ("draw", bench.step(&table, &[], &patch([20, 20, 22, 21].map(|n| n * by)))),
            ("lay", bench.step(&table, &[], &lay)),
            ("lift", bench.step(&table, &lay, &lift(7))),
        ];
        for (step, cost) in &costs {
            row(&format!("{0} x {0}", table.side), step, cost);
        }
    }
}

// The 120 scattered patches of the largest foil, rounded to coarser ones.
fn rounded(bench: &mut Bench) {
    heading("The 120 scattered patches of 4,096 x 4,096, rounded to a coarser foil", "Foil");
    let fine = scattered(4096, 120, 60);
    let coarse = fine.rounded(64);
    let mut numbers = Numbers::from(4);
    let mut point = || loop {
        let p = numbers.free_point(&fine);
        if coarse.free(p.map(|n| n / 64)) {
            return p;
        }
    };
    let (s, t) = (point(), point());
    for (table, by) in [(coarse, 64), (fine, 1)] {
        let cost = bench.step(&table, &[], &track(7, s.map(|n| n / by), t.map(|n| n / by)));
        row(&format!("{0} x {0}", table.side), "lay", &cost);
    }
}

// The first so many of 120 patches.
fn by_entries(bench: &mut Bench) {
    heading("Growth with the number of entries: scattered patches on 512 x 512", "Entries");
    let all = scattered(512, 120, 15);
    let mut numbers = Numbers::from(2);
    let (s, t) = (numbers.free_point(&all), numbers.free_point(&all));
    for count in [10, 20, 40, 80, 120] {
        let table = Table { patches: all.patches[..count].to_vec(), ..all };
        let draw = bench.step(&table, &[], &patch([250, 250, 260, 260]));
        row(&count.to_string(), "draw", &draw);
        let lay = bench.step(&table, &[], &track(7, s, t));
        row(&count.to_string(), "lay", &lay);
    }
}

// Mazes whose paths have more and more bends; the last one's has too many legs for the table.
fn by_bends(bench: &mut Bench) {
    heading("Growth with the number of bends: mazes on 512 x 512", "Maze");
    for walls in [1, 5, 10, 20, 42] {
        let cost = bench.step(&comb(512, walls), &[], &track(7, [0, 0], [0, 511]));
        row(&format!("comb of {walls}"), "lay", &cost);
    }
    for walls in [10, 20, 40, 63] {
        let cost = bench.step(&spiral(512, walls), &[], &track(7, [0, 0], [256, 256]));
        row(&format!("spiral of {walls}"), "lay", &cost);
    }
    let cost = bench.step(&comb(512, 127), &[], &track(7, [0, 0], [0, 511]));
    row("comb of 127", "lay", &cost);
}

// Steps on 4,096 x 4,096, the largest foil.
fn largest(bench: &mut Bench, figures: &mut Vec<Figure>) {
    heading("The largest foil: 4,096 x 4,096", "Board");
    let table = scattered(4096, 120, 60);
    let mut numbers = Numbers::from(4);
    let mut worst = 0.0;
    let mut pairs = vec![COSTLIEST];
    pairs.extend((0..3).map(|_| (numbers.free_point(&table), numbers.free_point(&table))));
    for (s, t) in pairs {
        let cost = bench.step(&table, &[], &track(7, s, t));
        row("120 scattered", "lay", &cost);
        worst = cost.millions().max(worst);
    }
    figures.push(Figure { what: "lay, 120 scattered entries", asked: 3.0, measured: worst, unit: " M" });
    let bars = staggered(4096, 126);
    let mazes = [
        ("comb of 42", &comb(4096, 42), [0, 4095]),
        ("spiral of 63", &spiral(4096, 63), [2048, 2048]),
        ("comb of 127", &comb(4096, 127), [0, 4095]),
        ("126 staggered bars", &bars, [2600, 4090]),
    ];
    worst = 0.0;
    for (name, table, end) in mazes {
        let cost = bench.step(table, &[], &track(7, [0, 0], end));
        row(name, "lay", &cost);
        worst = cost.millions().max(worst);
    }
    figures.push(Figure { what: "lay, the dearest maze or 126 staggered bars", asked: 2.5, measured: worst, unit: " M" });
    row("126 staggered bars", "draw", &bench.step(&bars, &[], &patch([0, 0, 9, 9])));
    row("126 staggered bars", "lift of a net not there", &bench.step(&bars, &[], &lift(7)));
}

// The lay that costs most of all that were tried.
fn costliest(bench: &mut Bench, figures: &mut Vec<Figure>) {
    heading("The costliest lay found: 123 entries on 512 x 512, bench/worst-lay.job", "Board");
    let (table, s, t) = worst();
    let cost = bench.step(&table, &[], &track(7, s, t));
    row("worst-lay", "lay", &cost);
    figures.push(Figure { what: "the costliest lay found", asked: 7.5, measured: cost.millions(), unit: " M" });
}

// Steps at 4,096 strips.
fn finest_foil(bench: &mut Bench, figures: &mut Vec<Figure>) {
    heading("4,096 strips: document 01's foil of 127 x 127 with 126 lines", "Board");
    let table = finest();
    let point = track(7, [126, 126], [126, 126]);
    let costs = [
        ("draw of a line again", bench.step(&table, &[], &patch([1, 0, 2, 127]))),
        ("lift", bench.step(&table, &point, &lift(7))),
        ("lift of a net not there", bench.step(&table, &[], &lift(7))),
        ("lay of a point", bench.step(&table, &[], &point)),
        ("lay with no way", bench.step(&table, &[], &track(7, [0, 0], [126, 126]))),
        ("lay to a blocked point", bench.step(&table, &[], &track(7, [0, 0], [1, 1]))),
    ];
    for (step, cost) in &costs {
        row("finest", step, cost);
    }
    for (what, k) in [("draw, 4,096 strips", 0), ("lift, 4,096 strips", 1)] {
        figures.push(Figure { what, asked: 0.5, measured: costs[k].1.millions(), unit: " M" });
    }
}

// Jobs as long as a file may be: a record again and again. They are run with no more than 1,700 KB of stack.
fn long_jobs(bench: &Bench, figures: &mut Vec<Figure>) {
    println!("\n### Jobs of 60,000 bytes\n");
    println!("| Job | Steps | Ours, s | Plain, s |\n|---|--:|--:|--:|");
    let job = |name: &str, table: &Table, again: Vec<u8>, steps: usize| {
        let start = table.job();
        let times = (60_000 - start.len() - END.len()) / again.len();
        let whole = [start, again.repeat(times), END.to_vec()].concat();
        let began = Instant::now();
        let mut small = Command::new("sh");
        small.args(["-c", "ulimit -s 1700 && exec \"$0\""]).arg(&bench.ours);
        let lines = bench.lines(small, &whole);
        let seconds = began.elapsed().as_secs_f64();
        let mut plain = "not run".to_string();
        if table.side * table.side * times * steps < POINTS << 4 {
            let (same, wall) = bench.run(&bench.plain, &whole);
            assert!(lines == same, "the two programs write different lines: {name}");
            plain = format!("{:.2}", wall / 1000.0);
        }
        println!("| {name} | {} | {seconds:.2} | {plain} |", times * steps);
        seconds
    };
    let seconds = job("lifts of a net not there, 4,096 strips", &finest(), lift(7), 1);
    let what = "60,000 bytes of the shortest steps, 4,096 strips";
    figures.push(Figure { what, asked: 30.0, measured: seconds, unit: " s" });
    job("a point laid and lifted, 4,096 strips", &finest(), track_and_lift(7, [126, 126], [126, 126]), 2);
    for (side, size) in [(64, 2), (4096, 60)] {
        let name = format!("a track laid and lifted, 120 scattered on {side} x {side}");
        job(&name, &scattered(side, 120, size), track_and_lift(7, [0, 0], [side - 1, side - 1]), 2);
    }
    let bars = staggered(4096, 126);
    job("a track laid and lifted, 126 staggered bars", &bars, track_and_lift(7, [0, 0], [2600, 4090]), 2);
}

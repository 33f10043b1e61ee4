// Measures the small program for what no script can reach, beside plain Rust and the system's SQLite in the same run. Times are
// those of the clock, since the program tells the time of each part by it: leave the machine alone meanwhile.
#[allow(dead_code)]
mod plain;
#[allow(dead_code)]
mod scripts;

use std::collections::BTreeMap;
use std::fs;
use std::hint::black_box;
use std::io::{BufRead, BufReader};
use std::path::{Path, PathBuf};
use std::process::{Command, Stdio};
use std::time::Instant;

/// The worked script of three curators, their sightings and their comments, with two queries.
const SIGHTINGS: &str = include_str!("sightings.bsql");

struct Bench {
    program: PathBuf,
    work: PathBuf,
    runs: usize,
}

impl Bench {
    /// What the program prints: names and numbers in turn; of each number that is a time the least over the runs.
    fn told(&self, words: &[&str], input: Option<&Path>, before: impl Fn()) -> BTreeMap<String, f64> {
        let mut least = BTreeMap::new();
        for _ in 0..self.runs {
            before();
            let mut command = Command::new(&self.program);
            command.args(words).stderr(Stdio::null());
            if let Some(file) = input {
                command.stdin(fs::File::open(file).expect("a script"));
            }
            merge(&mut least, &command.output().expect("the program").stdout);
        }
        least
    }

    /// The same of the system's SQLite.
    fn sqlite(&self, words: &[&str], before: impl Fn()) -> BTreeMap<String, f64> {
        let mut least = BTreeMap::new();
        for _ in 0..self.runs {
            before();
            let script = Path::new(env!("BENCH_FOLDER")).join("sqlite.py");
            let output = Command::new("python3").arg(script).args(words).output().expect("python3");
            merge(&mut least, &output.stdout);
        }
        least
    }

    fn least(&self, mut action: impl FnMut()) -> f64 {
        let mut least = f64::INFINITY;
        for _ in 0..self.runs {
            let start = Instant::now();
            action();
            least = least.min(start.elapsed().as_secs_f64() * 1e6);
        }
        least
    }
}

fn merge(least: &mut BTreeMap<String, f64>, output: &[u8]) {
    let text = String::from_utf8_lossy(output);
    let words: Vec<&str> = text.split_whitespace().collect();
    for pair in words.chunks(2) {
        if let [name, value] = pair {
            assert_ne!(*value, "false", "{text}");
            let value = value.parse().unwrap_or(1.0);
            let entry = least.entry(name.to_string()).or_insert(value);
            *entry = entry.min(value);
        }
    }
}

fn head(title: &str, columns: &str) {
    println!("\n{title}\n\n| {columns} |");
    println!("|{}", "---|".repeat(columns.split('|').count()));
}

fn reading(bench: &Bench) {
    head("Cutting, tokens and parse alone", "script of 32 MiB | all, MB/s | cut alone, MB/s | plain scan, MB/s | all / scan");
    let short = "insert into BELIEF 'Alice' R values('s1','bald eagle', 12);\n";
    for (name, command) in [("the worked script", SIGHTINGS), ("inserts of 60 bytes", short), ("`show world;`", "show world;\n")] {
        let script = command.repeat((32 << 20) / command.len());
        let file = bench.work.join("script");
        fs::write(&file, &script).expect("a script");
        let told = bench.told(&["read"], Some(&file), || {});
        let scan = bench.least(|| {
            black_box(plain::scan(black_box(script.as_bytes())));
        });
        let speed = |micros: f64| format!("{:.0}", script.len() as f64 / micros);
        println!("| {name} | {} | {} | {} | {:.1} |", speed(told["all"]), speed(told["cut"]), speed(scan), told["all"] / scan);
    }
}

fn ordered_key(number: u32) -> [u8; 24] {
    let mut key = [0; 24];
    key[..4].copy_from_slice(&(number / 1000).to_be_bytes());
    key[7] = 1;
    key[8] = 2;
    key[9..19].copy_from_slice(b"sighting a");
    key[20..].copy_from_slice(&number.to_be_bytes());
    key
}

fn keeping(bench: &Bench) {
    head("The keeper in memory: a million rows of 24-byte keys, in the order of the keys", "work | keeper | `BTreeMap` | ratio");
    let count: u32 = 1_000_000;
    let told = bench.told(&["kept", &count.to_string()], None, || {});
    let mut least = [f64::INFINITY; 4];
    for _ in 0..bench.runs {
        let took = keep_plainly(count);
        for (least, took) in least.iter_mut().zip(took) {
            *least = least.min(took);
        }
    }
    let work = [("put, commit", "put"), ("get", "get"), ("next", "next"), ("remove, commit", "take")];
    let (mut all, mut all_plain) = (0.0, 0.0);
    for ((title, name), plain) in work.into_iter().zip(least) {
        println!("| {title} | {:.3} us | {:.3} us | {:.2} |", told[name] / count as f64, plain / count as f64, told[name] / plain);
        if name != "get" {
            all += told[name];
            all_plain += plain;
        }
    }
    println!("| all but get | {:.3} us | {:.3} us | {:.2} |", all / count as f64, all_plain / count as f64, all / all_plain);
}

/// The same work over Rust's map: microseconds to put the rows, to get each, to go over them by the least key that isn't below a
/// key, and to take them away.
fn keep_plainly(count: u32) -> [f64; 4] {
    let mut rows: BTreeMap<Vec<u8>, Vec<u8>> = BTreeMap::new();
    let start = Instant::now();
    for number in 0..count {
        rows.insert(ordered_key(number).to_vec(), number.to_be_bytes().to_vec());
    }
    let put = start.elapsed();
    let (mut low, mut key, mut row) = (Vec::new(), Vec::new(), Vec::new());
    let start = Instant::now();
    for number in 0..count {
        row.clear();
        row.extend_from_slice(&rows[ordered_key(number).as_slice()]);
        black_box(&row);
    }
    let get = start.elapsed();
    let start = Instant::now();
    let mut found = 0;
    while let Some((next, content)) = rows.range::<Vec<u8>, _>(&low..).next() {
        key.clear();
        key.extend_from_slice(next);
        row.clear();
        row.extend_from_slice(content);
        black_box((&key, &row));
        low.clear();
        low.extend_from_slice(&key);
        low.push(0);
        found += 1;
    }
    assert_eq!(found, count);
    let next = start.elapsed();
    let start = Instant::now();
    for number in 0..count {
        black_box(rows.remove(ordered_key(number).as_slice()));
    }
    let take = start.elapsed();
    [put, get, next, take].map(|time| time.as_secs_f64() * 1e6)
}

fn filing(bench: &Bench) {
    head("The keeper over a file: commits", "rows of a commit, commits | each commit | SQLite | ratio");
    let file = bench.work.join("rows.db");
    let clean = || {
        for end in ["", "-wal", "-shm", "-journal"] {
            let _ = fs::remove_file(format!("{}{end}", file.display()));
        }
    };
    let path = file.display().to_string();
    for (rows, commits) in [("1", 300.0), ("10", 300.0), ("100", 100.0), ("1000", 10.0)] {
        let times = format!("{commits}");
        let told = bench.told(&["filed", &path, &times, rows], None, clean);
        let sqlite = bench.sqlite(&["filed", &path, &times, rows], clean);
        let (each, plain) = (told["commit"] / commits, sqlite["commit"] / commits);
        println!("| {rows}, {commits} | {each:.0} us | {plain:.0} us | {:.1} |", each / plain);
    }
    head("The keeper over a file: opening", "rows | time | each row");
    for rows in ["1000", "10000", "100000"] {
        clean();
        bench.told(&["filed", &path, "1", rows], None, clean);
        let told = bench.told(&["open", &path], None, || {});
        let count: f64 = rows.parse().expect("a number");
        println!("| {rows} | {:.1} ms | {:.1} us |", told["open"] / 1e3, told["open"] / count);
    }
    clean();
}

/// The largest tables, and which base they hold. One run. Memory is the most so far, as the system tells it at the end of each line.
fn telling(bench: &Bench) {
    head("The largest tables, in memory", "work | time | each row | most memory so far");
    let (script, rows) = scripts::largest();
    let file = bench.work.join("script");
    fs::write(&file, &script.text).expect("a script");
    let mut command = Command::new(&bench.program);
    command.arg("told").stdin(fs::File::open(&file).expect("a script")).stdout(Stdio::piped()).stderr(Stdio::null());
    let mut child = command.spawn().expect("the program");
    let output = BufReader::new(child.stdout.take().expect("a pipe"));
    for (line, (title, name)) in output.lines().zip([("made by inserts", "run"), ("told which base they hold", "tell")]) {
        let most = most_of(child.id());
        let mut told = BTreeMap::new();
        merge(&mut told, line.expect("a line").as_bytes());
        let (seconds, each) = (told[name] / 1e6, told[name] / rows as f64);
        println!("| {title} | {seconds:.1} s | {each:.2} us | {most} |");
    }
    assert!(child.wait().expect("the program").success());
}

/// The most memory that a process had at once so far, where it still runs.
fn most_of(pid: u32) -> String {
    let status = fs::read_to_string(format!("/proc/{pid}/status")).unwrap_or_default();
    let most = status.lines().find_map(|line| line.strip_prefix("VmHWM:"));
    most.map_or("not known".to_string(), |most| most.trim().to_string())
}

fn main() {
    let words: Vec<String> = std::env::args().skip(1).collect();
    let [program, work, runs] = words.as_slice() else { panic!("words: PROGRAM FOLDER RUNS") };
    let bench = Bench { program: program.into(), work: work.into(), runs: runs.parse().expect("a number") };
    println!("The least of {} runs; time of the clock.", bench.runs);
    reading(&bench);
    keeping(&bench);
    filing(&bench);
    telling(&bench);
}

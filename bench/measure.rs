// Measures the built program, and the same work in plain Rust in the same run. Times are processor time of the process,
// user and system together, so that another process on the machine disturbs them little.
mod plain;
mod scripts;

use scripts::{at_each, at_many_paths, at_one_path, at_pairs, at_the_root, beliefs, catalog, for_worlds, inserts, of_one_tuple, repeated, turns, Script};
use std::collections::{BTreeMap, BTreeSet};
use std::fs::{self, File};
use std::hint::black_box;
use std::io::Write;
use std::path::PathBuf;
use std::process::{Command, Stdio};
use std::thread::sleep;
use std::time::Duration;

#[repr(C)]
struct Usage {
    user: [i64; 2],
    system: [i64; 2],
    most_kilobytes: i64,
    others: [i64; 13],
}

extern "C" {
    fn getrusage(who: i32, usage: *mut Usage) -> i32;
}

const OWN: i32 = 0;
const CHILDREN: i32 = -1;

/// What a process, or its children that ended, used so far.
fn usage(who: i32) -> Usage {
    let mut usage = Usage { user: [0; 2], system: [0; 2], most_kilobytes: 0, others: [0; 13] };
    // SAFETY: the record has the layout and the size that the call fills in on 64-bit Linux.
    let result = unsafe { getrusage(who, &mut usage) };
    assert_eq!(result, 0);
    usage
}

/// The seconds of processor time so far.
fn used(who: i32) -> f64 {
    let usage = usage(who);
    let seconds = |part: [i64; 2]| part[0] as f64 + part[1] as f64 * 1e-6;
    seconds(usage.user) + seconds(usage.system)
}

struct Bench {
    program: PathBuf,
    work: PathBuf,
    runs: usize,
}

impl Bench {
    /// The least time of an action over the runs.
    fn least(&self, who: i32, mut action: impl FnMut()) -> f64 {
        let mut least = f64::INFINITY;
        for _ in 0..self.runs {
            let before = used(who);
            action();
            least = least.min(used(who) - before);
        }
        least
    }

    /// The least time in which the program answers a script.
    fn program(&self, script: &Script) -> f64 {
        self.check(script);
        let file = self.file(script);
        self.least(CHILDREN, || self.run(&file, Stdio::null()))
    }

    /// The time of a command: that of the script with it so many times, less that of the script, for each. The two
    /// scripts take turns.
    fn command(&self, script: &Script, command: &str, times: usize) -> f64 {
        let long = script.and(command, times);
        self.check(&long);
        let (mut without, mut with) = (f64::INFINITY, f64::INFINITY);
        for _ in 0..self.runs {
            for (script, least) in [(script, &mut without), (&long, &mut with)] {
                let file = self.file(script);
                let before = used(CHILDREN);
                self.run(&file, Stdio::null());
                *least = least.min(used(CHILDREN) - before);
            }
        }
        (with - without) / times as f64
    }

    /// Refuses to go on where the replies are not those meant.
    fn check(&self, script: &Script) {
        let replies = self.work.join("replies");
        self.run(&self.file(script), Stdio::from(File::create(&replies).expect("replies")));
        let text = fs::read_to_string(&replies).expect("replies");
        let refused = text.lines().filter(|line| line.starts_with("error")).count();
        assert_eq!(refused, script.refused, "{}", text.lines().last().unwrap_or(""));
    }

    /// How many lines the last reply has, as it says itself.
    fn lines(&self, script: &Script) -> usize {
        let replies = self.work.join("replies");
        self.run(&self.file(script), Stdio::from(File::create(&replies).expect("replies")));
        let text = fs::read_to_string(&replies).expect("replies");
        let count = text.lines().last().and_then(|line| line.strip_prefix("ok ")).expect("a count");
        count.parse().expect("a number")
    }

    /// The most memory that the program had at once, in kilobytes: as it waits for the end of a script of which it has all. What the
    /// system tells of a child that ended counts the memory of its parent too, up to where the child begins to be another program.
    fn most(&self, script: &Script) -> i64 {
        let mut command = Command::new(&self.program);
        let mut child = command.arg("run").stdin(Stdio::piped()).stdout(Stdio::null()).spawn().expect("the program");
        let mut input = child.stdin.take().expect("a pipe");
        input.write_all(script.text.as_bytes()).expect("a script");
        sleep(Duration::from_millis(500));
        let status = fs::read_to_string(format!("/proc/{}/status", child.id())).expect("the program's memory");
        drop(input);
        child.wait().expect("the program");
        let most = status.lines().find_map(|line| line.strip_prefix("VmHWM:")).expect("the program's memory");
        most.trim().trim_end_matches(" kB").parse().expect("a number")
    }

    fn file(&self, script: &Script) -> PathBuf {
        let file = self.work.join("script");
        fs::write(&file, &script.text).expect("a script");
        file
    }

    fn run(&self, file: &PathBuf, replies: Stdio) {
        let script = File::open(file).expect("a script");
        let mut command = Command::new(&self.program);
        let status = command.arg("run").stdin(script).stdout(replies).status().expect("the program");
        assert!(matches!(status.code(), Some(0 | 1)));
    }
}

fn row(cells: &[String]) {
    println!("| {} |", cells.join(" | "));
}

fn head(title: &str, columns: &[&str]) {
    println!("\n{title}\n");
    row(&columns.iter().map(|column| column.to_string()).collect::<Vec<_>>());
    println!("|{}", "---|".repeat(columns.len()));
}

fn ms(seconds: f64) -> String {
    format!("{:.2} ms", seconds * 1e3)
}

fn us(seconds: f64) -> String {
    format!("{:.2} us", seconds * 1e6)
}

fn times(a: f64, b: f64) -> String {
    format!("{:.1}", a / b)
}

fn reading(bench: &Bench) {
    head(
        "Reading",
        &[
            "script",
            "program, MB/s",
            "each",
            "plain reader, MB/s",
            "plain scan, MB/s",
            "program / reader",
            "program / scan",
        ],
    );
    let texts = |size: usize| vec![format!("'{}'", "x".repeat(size)); 4].join(",");
    let worlds = "show world;\n";
    let short = "insert into BELIEF 'Alice' R values('s1','bald eagle', 12);\n";
    let middle = format!("insert into R values({});\n", texts(50));
    let large = format!("insert into R values({});\n", texts(240));
    read_row(bench, "`show world` of the empty base", worlds, false);
    for insert in [short, &middle, &large] {
        read_row(bench, "inserts, `error relation`", insert, true);
    }
    let script = Script::new(" ".repeat(64 << 20));
    let (bytes, program) = (script.text.as_bytes(), bench.program(&script));
    let scan = scanned(bench, bytes);
    let ratio = times(program, scan);
    let (fast, plain) = (speed(bytes, program), speed(bytes, scan));
    row(&["64 MiB of blanks".into(), fast, ms(program), "".into(), plain, "".into(), ratio]);
}

fn read_row(bench: &Bench, name: &str, command: &str, refused: bool) {
    let script = repeated(command, 32 << 20, refused);
    let bytes = script.text.as_bytes();
    let program = bench.program(&script);
    let mut sum = 0;
    let reader = bench.least(OWN, || {
        plain::read(black_box(bytes), |tokens| sum += tokens.iter().map(plain::weight).sum::<usize>())
    });
    black_box(sum);
    let scan = scanned(bench, bytes);
    let each = program / (bytes.len() / command.len()) as f64;
    row(&[
        format!("{name}, {} bytes each", command.len()),
        speed(bytes, program),
        us(each),
        speed(bytes, reader),
        speed(bytes, scan),
        times(program, reader),
        times(program, scan),
    ]);
}

/// The most memory that the program had at once.
fn memory(bench: &Bench) {
    head("Memory", &["script of 8 MiB", "most at once"]);
    let large = format!("insert into R values('{}');\n", "x".repeat(240));
    for (name, command, refused) in [
        ("inserts of 266 bytes", large.as_str(), true),
        ("`show world;` and a line feed", "show world;\n", false),
        ("semicolons alone", ";", false),
    ] {
        let script = repeated(command, 8 << 20, refused);
        bench.check(&script);
        row(&[name.into(), format!("{:.1} MB", bench.most(&script) as f64 * 1.024e-3)]);
    }
}

fn speed(bytes: &[u8], time: f64) -> String {
    format!("{:.0}", bytes.len() as f64 / 1e6 / time)
}

fn scanned(bench: &Bench, bytes: &[u8]) -> f64 {
    bench.least(OWN, || {
        black_box(plain::scan(black_box(bytes)));
    })
}

fn inserting(bench: &Bench) {
    head("Inserts", &["statements", "program", "per insert", "plain", "program / plain"]);
    for count in [500, 1_000, 2_000, 4_000] {
        insert_row(bench, &format!("{count} at one path, all tuples different"), 1, at_one_path(1, count));
    }
    for count in [1_000, 2_000, 5_000, 10_000, 20_000] {
        insert_row(bench, &format!("{count} at up to 1,600 paths, over 1,000 tuples"), 256, at_many_paths(count));
    }
}

fn insert_row(bench: &Bench, name: &str, users: usize, stmts: Vec<plain::Stmt>) {
    let begin = catalog(users, 1);
    let nothing = bench.program(&Script::new(begin.clone()));
    let program = bench.program(&Script::new(begin + &inserts(&stmts))) - nothing;
    let mut plain = f64::INFINITY;
    for _ in 0..bench.runs {
        let (copy, mut base) = (stmts.clone(), plain::Base::default());
        let before = used(OWN);
        assert!(copy.into_iter().all(|stmt| base.insert(stmt)));
        plain = plain.min(used(OWN) - before);
        assert_eq!(black_box(&base).len(), stmts.len());
    }
    row(&[name.into(), ms(program), us(program / stmts.len() as f64), ms(plain), times(program, plain)]);
}

fn look_up(bench: &Bench, count: usize) -> f64 {
    let names: BTreeMap<String, usize> = (1..=count).map(|uid| (format!("u{uid:03}"), uid)).collect();
    let keys: Vec<&String> = names.keys().collect();
    let rounds = 2_000_000;
    let time = bench.least(OWN, || {
        for at in 0..rounds {
            black_box(names.get(black_box(keys[at * 7 % count])));
        }
    });
    time / rounds as f64
}

fn binding(bench: &Bench) {
    head(
        "Binding: one insert, again and again (`ok 0`), into a base of one statement",
        &[
            "catalog, and the names used",
            "per insert",
            "more than the first",
            "`BTreeMap` look-up among as many names",
            "more / look-up",
        ],
    );
    let mut first = None;
    for (users, relations, uid, number, name) in [
        (4, 2, 4, 2, "4 users, 2 relations; the last ones"),
        (1_024, 64, 1, 1, "1,024 users, 64 relations; the first ones"),
        (1_024, 2, 1_024, 2, "1,024 users, 2 relations; the last ones"),
        (4, 64, 4, 64, "4 users, 64 relations; the last ones"),
        (1_024, 64, 1_024, 64, "1,024 users, 64 relations; the last ones"),
    ] {
        let script = Script::new(catalog(users, relations));
        let command = format!("insert into BELIEF 'u{uid:03}' S{number:02} values('s1','bald eagle',12);");
        let per = bench.command(&script, &command, 50_000);
        let look_up = look_up(bench, users.max(relations));
        let more = per - *first.get_or_insert(per);
        row(&[
            name.into(),
            us(per),
            us(more),
            format!("{:.3} us", look_up * 1e6),
            format!("{:.0}", more / look_up),
        ]);
    }
}

/// The time in which plain Rust copies statements and sorts the copy.
fn sorted(bench: &Bench, stmts: &[plain::Stmt]) -> f64 {
    let time = bench.least(OWN, || {
        for _ in 0..10 {
            let mut copy = stmts.to_vec();
            copy.sort_by(plain::cmp_stmt);
            black_box(copy);
        }
    });
    time / 10.0
}

fn changing(bench: &Bench) {
    head(
        "One delete or update",
        &[
            "statements of the path, of the base",
            "delete of none",
            "delete of a twentieth",
            "update of all",
            "plain copy and sort",
            "none / plain",
            "twentieth / plain",
            "update / plain",
            "update / (path * base)",
        ],
    );
    for (count, all) in [(500, 500), (1_000, 1_000), (2_000, 2_000), (3_900, 3_900), (500, 3_900)] {
        change_row(bench, count, all);
    }
}

fn change_row(bench: &Bench, count: usize, all: usize) {
    let mut stmts = at_one_path(2, all);
    stmts.iter_mut().skip(count).for_each(|stmt| stmt.path = vec![1]);
    let script = Script::new(catalog(2, 1) + &inserts(&stmts));
    let part = |at: usize| {
        let (from, to) = (at * all / 20, (at + 1) * all / 20);
        format!("delete from BELIEF 'u002' S01 where k >= 'key{from:05}' and k < 'key{to:05}';\n")
    };
    let parts: String = (0..20).map(part).collect();
    let none = bench.command(&script, "delete from BELIEF 'u002' S01 where v = 'crow';", 100);
    let part = bench.command(&script, &parts, 1) / 20.0;
    let update = bench.command(&script, "update BELIEF 'u002' S01 set v = 'crow';", 3);
    let plain = sorted(bench, &stmts);
    row(&[
        format!("{count}, {all}"),
        ms(none),
        ms(part),
        ms(update),
        ms(plain),
        times(none, plain),
        times(part, plain),
        times(update, plain),
        format!("{:.1} ns", update / (count * all) as f64 * 1e9),
    ]);
}

fn showing(bench: &Bench) {
    head(
        "One show world over 4,000 statements",
        &["depth of the path", "time", "to plain copy and sort of the statements"],
    );
    let stmts = for_worlds();
    let script = Script::new(catalog(2, 1) + &inserts(&stmts));
    let plain = sorted(bench, &stmts);
    for depth in [0, 1, 16, 64, 1_024] {
        let command = format!("show world{};", beliefs(&turns(depth)));
        let time = bench.command(&script, &command, if depth > 64 { 10 } else { 50 });
        row(&[depth.to_string(), ms(time), times(time, plain)]);
    }
}

/// The paths that begin the statements' paths: the worlds that a base of them has.
fn states_of(stmts: &[plain::Stmt]) -> BTreeSet<&[u32]> {
    stmts.iter().flat_map(|stmt| (0..=stmt.path.len()).map(|len| &stmt.path[..len])).collect()
}

fn structure(bench: &Bench) {
    head("One show tables", &["worlds", "users", "statements", "lines", "time", "each line"]);
    let worlds = [230, 466, 954, 1_954].map(|paths| (45, at_pairs(45, paths)));
    let users = [20, 60, 180].map(|users| (users, at_pairs(20, 380)));
    let rows = [500, 1_000, 2_000, 3_900].map(|count| (20, at_the_root(20, count)));
    for (users, stmts) in worlds.into_iter().chain(users).chain(rows) {
        let script = Script::new(catalog(users, 1) + &inserts(&stmts));
        let states = states_of(&stmts);
        let lines = bench.lines(&script.and("show tables;", 1));
        let time = bench.command(&script, "show tables;", 20);
        row(&[states.len().to_string(), users.to_string(), stmts.len().to_string(), lines.to_string(), ms(time), format!("{:.2} us", time * 1e6 / lines as f64)]);
    }
}

/// Of the most users so many leave, the last one first, each of whom states so much of tuples that nobody else tells.
fn leaving(bench: &Bench) {
    head("One drop user, of 1,024", &["worlds of others", "statements that name him", "rows changed", "time", "each row changed"]);
    for (paths, leavers, said) in [(200, 40, 1), (200, 40, 90), (1_000, 40, 0), (1_000, 40, 1), (1_000, 40, 90), (3_890, 40, 0), (3_890, 40, 90)] {
        let others = of_one_tuple(64, paths);
        let worlds = states_of(&others).len();
        let gone: Vec<u32> = (0..leavers).map(|place| 1_024 - place).collect();
        let script = Script::new(catalog(1_024, 1) + &inserts(&[others, at_each(&gone, said)].concat()));
        let commands: String = gone.iter().map(|uid| format!("drop user 'u{uid:03}';\n")).collect();
        let time = bench.command(&script, &commands, 1) / leavers as f64;
        let rows = gone.iter().map(|uid| rows_of_one(worlds, *uid as usize, gone.len(), said)).sum::<usize>() / gone.len();
        row(&[worlds.to_string(), said.to_string(), rows.to_string(), ms(time), us(time / rows as f64)]);
    }
}

/// How many rows change as a user leaves, behind whom nobody is left: in each world his edge goes, which is two rows. Where he states
/// something, his world goes, with its three rows and the edges from it to all others, and of each statement three rows.
fn rows_of_one(worlds_of_others: usize, uid: usize, leavers: usize, said: usize) -> usize {
    let leaving_later = uid - (1_024 - leavers + 1);
    if said == 0 {
        2 * worlds_of_others + 1
    } else {
        2 * (worlds_of_others + leaving_later) + 1 + 3 + 2 * (uid - 1) + 3 * said
    }
}

/// The largest tables. One run. Of all children it has the most memory.
fn largest(bench: &Bench) {
    head("The largest tables", &["rows", "time", "each row", "memory"]);
    let (script, rows) = scripts::largest();
    bench.check(&script);
    let file = bench.file(&script);
    let before = used(CHILDREN);
    bench.run(&file, Stdio::null());
    let (time, most) = (used(CHILDREN) - before, usage(CHILDREN).most_kilobytes);
    row(&[format!("{:.1} million", rows as f64 * 1e-6), format!("{time:.1} s"), us(time / rows as f64), format!("{:.1} GB", most as f64 * 1.024e-6)]);
}

/// What is measured, by name.
const PARTS: [(&str, fn(&Bench)); 9] = [
    ("memory", memory),
    ("reading", reading),
    ("inserting", inserting),
    ("binding", binding),
    ("changing", changing),
    ("showing", showing),
    ("structure", structure),
    ("leaving", leaving),
    ("largest", largest),
];

fn main() {
    let words: Vec<String> = std::env::args().skip(1).collect();
    let [program, work, runs, names @ ..] = words.as_slice() else { panic!("words: PROGRAM FOLDER RUNS [PART ..]") };
    let bench = Bench { program: program.into(), work: work.into(), runs: runs.parse().expect("a number") };
    println!("The least of {} runs; processor time, user and system.", bench.runs);
    for (name, part) in PARTS {
        if names.is_empty() || names.iter().any(|it| it == name) {
            part(&bench);
        }
    }
}

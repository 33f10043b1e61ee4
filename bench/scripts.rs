// The scripts that are measured.
use crate::plain::{Stmt, Tuple, Value};
use std::fmt::Write;

/// A script, and how many of its commands are refused.
pub struct Script {
    pub text: String,
    pub refused: usize,
}

impl Script {
    pub fn new(text: String) -> Self {
        Script { text, refused: 0 }
    }

    /// The script with a command behind it, several times.
    pub fn and(&self, command: &str, times: usize) -> Self {
        let text = self.text.clone() + &format!("{command}\n").repeat(times);
        Script { text, refused: self.refused }
    }
}

/// Commands of one kind, about so many bytes of them, all refused or all accepted.
pub fn repeated(command: &str, bytes: usize, refused: bool) -> Script {
    let times = bytes / command.len();
    Script { text: command.repeat(times), refused: if refused { times } else { 0 } }
}

/// So many users, u001 first, and so many relations, S01 first, of a text key, a text and a number.
pub fn catalog(users: usize, relations: usize) -> String {
    let mut text = String::new();
    for uid in 1..=users {
        writeln!(text, "create user 'u{uid:03}';").expect("room");
    }
    for number in 1..=relations {
        writeln!(text, "create relation S{number:02}(k text, v text, n int);").expect("room");
    }
    text
}

/// `BELIEF` and a name for each user of a path.
pub fn beliefs(path: &[u32]) -> String {
    path.iter().map(|uid| format!(" BELIEF 'u{uid:03}'")).collect()
}

fn statement(path: Vec<u32>, number: usize) -> Stmt {
    let (key, bird) = (format!("key{number:05}"), format!("bird {number:05}"));
    let vals = vec![Value::Text(key), Value::Text(bird), Value::Int(number as i64)];
    Stmt { path, minus: false, tuple: Tuple { rel: 0, vals } }
}

/// The inserts of these statements.
pub fn inserts(stmts: &[Stmt]) -> String {
    let mut text = String::new();
    for stmt in stmts {
        write!(text, "insert into{} S01 values(", beliefs(&stmt.path)).expect("room");
        for (at, value) in stmt.tuple.vals.iter().enumerate() {
            let comma = if at == 0 { "" } else { "," };
            match value {
                Value::Int(number) => write!(text, "{comma}{number}"),
                Value::Text(value) => write!(text, "{comma}'{value}'"),
            }
            .expect("room");
        }
        text.push_str(");\n");
    }
    text
}

/// The numbers below a count, out of order.
fn mixed(count: usize) -> impl Iterator<Item = usize> {
    (0..count).map(move |at| at * 7_919 % count)
}

/// Statements of one path with different tuples.
pub fn at_one_path(uid: u32, count: usize) -> Vec<Stmt> {
    mixed(count).map(|number| statement(vec![uid], number)).collect()
}

/// So many statements of each of these users, each of a tuple of its own.
pub fn at_each(users: &[u32], count: usize) -> Vec<Stmt> {
    let of = |place: usize| move |at: usize| 1 + place * count + at;
    users.iter().enumerate().flat_map(|(place, uid)| (0..count).map(of(place)).map(|number| statement(vec![*uid], number))).collect()
}

/// Statements of up to 1,600 different paths of two users each, over 1,000 tuples.
pub fn at_many_paths(count: usize) -> Vec<Stmt> {
    let paths = 1_600;
    let path = |number: usize| {
        let (first, second) = (number / 255, number % 255);
        let second = if second < first { second } else { second + 1 };
        vec![first as u32 + 1, second as u32 + 1]
    };
    mixed(count).map(|number| statement(path(number % paths), (number % paths + number / paths) % 1_000)).collect()
}

/// A path of two users who take turns, ending with the second.
pub fn turns(depth: usize) -> Vec<u32> {
    (0..depth).rev().map(|place| if place % 2 == 0 { 2 } else { 1 }).collect()
}

/// 4,000 statements: half of them at the empty path, the others at the ends of `turns` of up to 64 users, every fourth, 125 each.
/// A quarter of the latter contradict what they inherit.
pub fn for_worlds() -> Vec<Stmt> {
    let mut stmts: Vec<Stmt> = (0..2_000).map(|number| statement(Vec::new(), number)).collect();
    for depth in (4..=64).step_by(4) {
        for number in 0..125 {
            let own = 2_000 + depth * 25 + number;
            let mut stmt = statement(turns(depth), if number % 4 == 0 { number } else { own });
            stmt.minus = number % 4 == 0;
            stmts.push(stmt);
        }
    }
    stmts
}

/// Statements of so many different paths of two of these users, each of a tuple of its own.
pub fn at_pairs(users: u32, count: usize) -> Vec<Stmt> {
    let pairs = (1..=users).flat_map(|first| (1..=users).filter(move |second| *second != first).map(move |second| vec![first, second]));
    let stmts: Vec<Stmt> = pairs.take(count).enumerate().map(|(number, path)| statement(path, number)).collect();
    assert_eq!(stmts.len(), count);
    stmts
}

/// Statements of so many different paths of two of these users, all of one tuple.
pub fn of_one_tuple(users: u32, count: usize) -> Vec<Stmt> {
    at_pairs(users, count).into_iter().map(|stmt| statement(stmt.path, 0)).collect()
}

/// So many statements of the empty path, and one of each of these users.
pub fn at_the_root(users: u32, count: usize) -> Vec<Stmt> {
    let plain = mixed(count).map(|number| statement(Vec::new(), number));
    plain.chain((1..=users).map(|uid| statement(vec![uid], 0))).collect()
}

/// The largest tables: with the most users, nearly 4,000 worlds of nearly 4,000 rows each, and in each world an edge for each user but
/// its last; and how many rows they have.
pub fn largest() -> (Script, usize) {
    let (users, paths, tuples) = (1_024, 2_975, 3_999);
    let stmts = [at_the_root(users, tuples), of_one_tuple(64, paths)].concat();
    let worlds = 1 + users as usize + paths;
    (Script::new(catalog(users as usize, 1) + &inserts(&stmts)), worlds * (tuples + 2 * users as usize))
}

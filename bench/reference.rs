// A plain program of the same language, without proofs, to measure beside: the same finite structure of worlds, suffix links and edges,
// in lists of the standard library, all in memory, without transactions.
//   reference SCRIPT
// reads the script whole, and writes replies in blocks. It knows the commands of the scripts of bench/by_script.py, in lower case but for
// BELIEF, and of the refusals `error clash` and `error many` alone; at anything else it stops. What a world says of each tuple is a byte.
use std::collections::{BTreeMap, BTreeSet, HashMap};
use std::fmt::Write as _;
use std::io::Write as _;
use std::rc::Rc;

const MOST_LINES: usize = 100_000;
const MOST_TUPLES: usize = 4_000;
const BLOCK: usize = 1 << 16;

#[derive(Clone, PartialEq, Eq, Hash, PartialOrd, Ord)]
enum Value {
    Int(i64),
    Text(Rc<str>),
}

#[derive(Clone, PartialEq, Eq, Hash, PartialOrd, Ord)]
struct Tuple {
    relation: usize,
    values: Vec<Value>,
}

struct Relation {
    name: String,
    columns: Vec<(String, String)>,
    key: usize,
    groups: HashMap<Vec<Value>, usize>,
}

/// What a world says of a tuple, in the bits of a byte; nothing where it is 0.
const PLUS: u8 = 1;
const MINUS: u8 = 2;
const EXPLICIT: u8 = 4;

/// A state, with a mark for each tuple. An edge leads to the deepest suffix state for one more user.
#[derive(Default)]
struct World {
    path: Vec<usize>,
    marks: Vec<u8>,
    suffix: usize,
    heirs: Vec<usize>,
    edges: Vec<usize>,
    stated: usize,
    longer: usize,
}

/// A tuple with its text, the number of its group and how many statements have it. Only tuples of one group, of one relation and key, can clash.
struct Entry {
    tuple: Tuple,
    text: String,
    group: usize,
    uses: usize,
}

#[derive(Default)]
struct Base {
    users: Vec<Rc<str>>,
    uids: HashMap<Rc<str>, usize>,
    relations: Vec<Relation>,
    entries: Vec<Entry>,
    free_entries: Vec<usize>,
    numbers: BTreeMap<Tuple, usize>,
    groups: Vec<Vec<usize>>,
    worlds: Vec<World>,
    free_worlds: Vec<usize>,
}

/// Worlds that come and go, and what is stated in them.
impl Base {
    /// The deepest suffix state of a path.
    fn walk(&self, path: &[usize]) -> usize {
        path.iter().fold(0, |at, user| self.worlds[at].edges[*user])
    }

    fn state(&self, path: &[usize]) -> Option<usize> {
        Some(self.walk(path)).filter(|at| self.worlds[*at].path.len() == path.len())
    }

    /// The world of a path, made with those of its beginnings where it is no state yet.
    fn grow(&mut self, path: &[usize]) -> usize {
        for depth in 1..=path.len() {
            if self.state(&path[..depth]).is_none() {
                self.add_world(&path[..depth]);
            }
        }
        self.walk(path)
    }

    fn add_world(&mut self, path: &[usize]) {
        let (last, before) = (path[path.len() - 1], self.walk(&path[..path.len() - 1]));
        let above = self.walk(&path[1..]);
        let marks = self.worlds[above].marks.iter().map(|mark| mark & !EXPLICIT).collect();
        let edges = self.worlds[above].edges.clone();
        let (heirs, others) = self.worlds[above].heirs.iter().partition(|heir| self.worlds[**heir].path.ends_with(path));
        let world = World { path: path.to_vec(), marks, suffix: above, heirs, edges, stated: 0, longer: 0 };
        let number = self.free_worlds.pop().unwrap_or(self.worlds.len());
        self.worlds.resize_with(self.worlds.len().max(number + 1), World::default);
        world.heirs.iter().for_each(|heir| self.worlds[*heir].suffix = number);
        self.worlds[number] = world;
        self.worlds[above].heirs = others;
        self.worlds[above].heirs.push(number);
        self.worlds[before].longer += 1;
        self.turn_edges(before, last, above, number);
    }

    /// The edges by a user that led to one world lead to another, from a world and all that inherit from it.
    fn turn_edges(&mut self, from: usize, user: usize, old: usize, new: usize) {
        let mut open = vec![from];
        while let Some(at) = open.pop() {
            if self.worlds[at].edges[user] == old {
                self.worlds[at].edges[user] = new;
                open.extend(&self.worlds[at].heirs);
            }
        }
    }

    /// Takes away a world that states nothing and begins no longer state, and its beginnings of which that is true then.
    fn shrink(&mut self, mut at: usize) {
        while at != 0 && self.worlds[at].stated == 0 && self.worlds[at].longer == 0 {
            let world = std::mem::take(&mut self.worlds[at]);
            let (last, before) = (world.path[world.path.len() - 1], self.walk(&world.path[..world.path.len() - 1]));
            world.heirs.iter().for_each(|heir| self.worlds[*heir].suffix = world.suffix);
            self.worlds[world.suffix].heirs.retain(|heir| *heir != at);
            self.worlds[world.suffix].heirs.extend(&world.heirs);
            self.turn_edges(before, last, at, world.suffix);
            self.worlds[before].longer -= 1;
            self.free_worlds.push(at);
            at = before;
        }
    }

    /// The marks of a group in a world and in all that inherit from it, as its statements ask.
    fn settle(&mut self, world: usize, group: usize) {
        let mut open = vec![world];
        while let Some(at) = open.pop() {
            let own = &self.worlds[at].marks;
            let states_plus = self.groups[group].iter().any(|tuple| own[*tuple] == PLUS | EXPLICIT);
            let mut changed = at == world;
            for &tuple in &self.groups[group] {
                let above = if at == 0 { 0 } else { self.worlds[self.worlds[at].suffix].marks[tuple] & !EXPLICIT };
                let fresh = if above == PLUS && states_plus { 0 } else { above };
                let mark = &mut self.worlds[at].marks[tuple];
                if *mark & EXPLICIT == 0 && *mark != fresh {
                    *mark = fresh;
                    changed = true;
                }
            }
            if changed {
                open.extend(&self.worlds[at].heirs);
            }
        }
    }

    fn group_of(&self, tuple: &Tuple) -> Option<usize> {
        self.relations[tuple.relation].groups.get(&tuple.values[..self.relations[tuple.relation].key]).copied()
    }

    fn number_of(&mut self, tuple: Tuple) -> usize {
        if let Some(number) = self.numbers.get(&tuple) {
            return *number;
        }
        let group = self.group_of(&tuple).unwrap_or_else(|| {
            let relation = &mut self.relations[tuple.relation];
            relation.groups.insert(tuple.values[..relation.key].to_vec(), self.groups.len());
            self.groups.push(Vec::new());
            self.groups.len() - 1
        });
        let number = self.free_entries.pop().unwrap_or(self.entries.len());
        let text = format!("{}({})", self.relations[tuple.relation].name, text_of(&tuple.values));
        let entry = Entry { tuple: tuple.clone(), text, group, uses: 0 };
        if number == self.entries.len() {
            self.entries.push(entry);
        } else {
            self.entries[number] = entry;
        }
        self.groups[group].push(number);
        self.numbers.insert(tuple, number);
        number
    }

    fn add(&mut self, world: usize, tuple: Tuple, minus: bool) {
        let number = self.number_of(tuple);
        self.worlds[world].marks[number] = sign(minus) | EXPLICIT;
        self.worlds[world].stated += 1;
        self.entries[number].uses += 1;
        self.settle(world, self.entries[number].group);
    }

    fn remove(&mut self, world: usize, number: usize) {
        let group = self.entries[number].group;
        self.worlds[world].marks[number] = 0;
        self.worlds[world].stated -= 1;
        self.settle(world, group);
        self.entries[number].uses -= 1;
        if self.entries[number].uses == 0 {
            self.numbers.remove(&self.entries[number].tuple);
            self.groups[group].retain(|it| *it != number);
            self.free_entries.push(number);
        }
    }
}

fn sign(minus: bool) -> u8 {
    if minus { MINUS } else { PLUS }
}

#[derive(Clone, PartialEq)]
enum Token<'a> {
    Word(&'a str),
    Number(i64),
    Text(Rc<str>),
    Mark(&'a str),
}

/// Where the first byte stands of which this isn't true.
fn length_while(text: &str, holds: impl Fn(u8) -> bool) -> usize {
    text.bytes().position(|byte| !holds(byte)).unwrap_or(text.len())
}

/// The length of a text in quotes at the beginning.
fn quoted(text: &str) -> usize {
    let mut at = 1 + length_while(&text[1..], |byte| byte != b'\'') + 1;
    while text[at..].starts_with('\'') {
        at += 1 + length_while(&text[at + 1..], |byte| byte != b'\'') + 1;
    }
    at
}

/// The tokens of the next command, and what is left behind it.
fn tokens(mut script: &str) -> Option<(Vec<Token<'_>>, &str)> {
    let mut found = Vec::new();
    loop {
        script = script.trim_start_matches([' ', '\n']);
        let first = *script.as_bytes().first()?;
        let length = match first {
            b';' => return Some((found, &script[1..])),
            b'\'' => quoted(script),
            b'a'..=b'z' | b'A'..=b'Z' | b'_' => length_while(script, |byte| byte.is_ascii_alphanumeric() || byte == b'_'),
            b'-' | b'0'..=b'9' => 1 + length_while(&script[1..], |byte| byte.is_ascii_digit()),
            _ if ["<>", "!=", "<=", ">="].iter().any(|mark| script.starts_with(mark)) => 2,
            _ => 1,
        };
        let (token, rest) = script.split_at(length);
        found.push(match first {
            b'\'' => Token::Text(token[1..length - 1].replace("''", "'").into()),
            b'-' | b'0'..=b'9' => Token::Number(token.parse().expect("a number")),
            _ if first.is_ascii_alphabetic() || first == b'_' => Token::Word(token),
            _ => Token::Mark(token),
        });
        script = rest;
    }
}

/// The tokens of a command that aren't read yet.
struct Reader<'a> {
    tokens: std::vec::IntoIter<Token<'a>>,
}

impl<'a> Reader<'a> {
    fn takes(&mut self, text: &str) -> bool {
        let found = matches!(self.tokens.as_slice().first(), Some(Token::Word(it) | Token::Mark(it)) if *it == text);
        if found {
            self.tokens.next();
        }
        found
    }

    fn wants(&mut self, text: &str) {
        assert!(self.takes(text), "{text} is missing");
    }

    fn name(&mut self) -> &'a str {
        let Some(Token::Word(name)) = self.tokens.next() else { panic!("a name is missing") };
        name
    }

    fn text(&mut self) -> Rc<str> {
        let Some(Token::Text(text)) = self.tokens.next() else { panic!("a text is missing") };
        text
    }

    fn is_name(&self) -> bool {
        matches!(self.tokens.as_slice().first(), Some(Token::Word(it)) if !["where", "and", "as"].contains(it))
    }

    fn is_text(&self) -> bool {
        matches!(self.tokens.as_slice().first(), Some(Token::Text(_)))
    }

    fn literal(&mut self) -> Value {
        match self.tokens.next() {
            Some(Token::Number(number)) => Value::Int(number),
            Some(Token::Text(text)) => Value::Text(text),
            _ => panic!("a literal is missing"),
        }
    }

    fn compare(&mut self) -> &'a str {
        let Some(Token::Mark(mark)) = self.tokens.next() else { panic!("a comparison is missing") };
        mark
    }

    fn list<T>(&mut self, between: &str, mut one: impl FnMut(&mut Self) -> T) -> Vec<T> {
        let mut found = vec![one(self)];
        while self.takes(between) {
            found.push(one(self));
        }
        found
    }
}

fn holds(left: &Value, compare: &str, right: &Value) -> bool {
    match compare {
        "=" => left == right,
        "<>" | "!=" => left != right,
        "<" => left < right,
        "<=" => left <= right,
        ">" => left > right,
        _ => left >= right,
    }
}

/// A column of an item, or a literal.
#[derive(Clone, PartialEq)]
enum Operand {
    Column(usize, usize),
    Literal(Value),
}

struct Condition<'a> {
    left: Operand,
    compare: &'a str,
    right: Operand,
}

enum Who {
    User(usize),
    Of(usize),
}

/// Users, or a relation at a path.
enum Item {
    Users,
    Tuples { relation: usize, path: Vec<Who>, minus: bool },
}

struct Query<'a> {
    items: Vec<Item>,
    take: Vec<Operand>,
    conditions: Vec<Condition<'a>>,
}

/// What commands name.
impl Base {
    fn relation(&self, name: &str) -> usize {
        self.relations.iter().position(|it| it.name == name).expect("a relation")
    }

    fn column(&self, relation: usize, name: &str) -> usize {
        self.relations[relation].columns.iter().position(|it| it.0 == name).expect("a column")
    }

    fn path(&self, reader: &mut Reader) -> Vec<usize> {
        let mut path = Vec::new();
        while reader.takes("BELIEF") {
            path.push(self.uids[&reader.text()]);
        }
        path
    }

    /// The path, sign and relation of a change.
    fn place(&self, reader: &mut Reader) -> (Vec<usize>, bool, usize) {
        let path = self.path(reader);
        (path, reader.takes("not"), self.relation(reader.name()))
    }

    fn tests<'a>(&self, reader: &mut Reader<'a>, relation: usize) -> Vec<Condition<'a>> {
        if !reader.takes("where") {
            return Vec::new();
        }
        reader.list("and", |reader| {
            let (left, compare) = (Operand::Column(0, self.column(relation, reader.name())), reader.compare());
            let right = if reader.is_name() { Operand::Column(0, self.column(relation, reader.name())) } else { Operand::Literal(reader.literal()) };
            Condition { left, compare, right }
        })
    }
}

/// One step of a query: an item with what has to hold once it is chosen. Of a tuple whose key is told before, its key; of a denied one,
/// all its columns.
struct Step<'a> {
    item: usize,
    told: Option<Vec<Operand>>,
    tests: Vec<Condition<'a>>,
}

/// A column of an alias, by name.
type Named<'a> = (&'a str, &'a str);

fn named<'a>(reader: &mut Reader<'a>) -> Named<'a> {
    let alias = reader.name();
    reader.wants(".");
    (alias, reader.name())
}

/// An item as it is written: whether it is denied, its relation, alias and path.
struct Written<'a> {
    path: Vec<Result<Rc<str>, Named<'a>>>,
    minus: bool,
    name: &'a str,
    alias: &'a str,
}

fn written<'a>(reader: &mut Reader<'a>) -> Written<'a> {
    let mut path = Vec::new();
    while reader.takes("BELIEF") {
        path.push(if reader.is_text() { Ok(reader.text()) } else { Err(named(reader)) });
    }
    let (minus, name) = (reader.takes("not"), reader.name());
    let alias = if reader.takes("as") || reader.is_name() { reader.name() } else { name };
    Written { path, minus, name, alias }
}

/// How queries are read.
impl Base {
    fn query<'a>(&self, reader: &mut Reader<'a>) -> Query<'a> {
        let take = reader.list(",", named);
        reader.wants("from");
        let written = reader.list(",", written);
        let place = |alias: &str| written.iter().position(|it| it.alias == alias).expect("an alias");
        let who = |it: &Result<Rc<str>, Named>| match it {
            Ok(user) => Who::User(self.uids[user]),
            Err((alias, _)) => Who::Of(place(alias)),
        };
        let item = |it: &Written| match it.name {
            "Users" => Item::Users,
            name => Item::Tuples { relation: self.relation(name), path: it.path.iter().map(who).collect(), minus: it.minus },
        };
        let items: Vec<Item> = written.iter().map(item).collect();
        let operand = |(alias, column): Named| match &items[place(alias)] {
            Item::Users => Operand::Column(place(alias), usize::from(column == "name")),
            Item::Tuples { relation, .. } => Operand::Column(place(alias), self.column(*relation, column)),
        };
        let condition = |reader: &mut Reader<'a>| {
            let (left, compare) = (operand(named(reader)), reader.compare());
            let right = if reader.is_name() { operand(named(reader)) } else { Operand::Literal(reader.literal()) };
            Condition { left, compare, right }
        };
        let conditions = if reader.takes("where") { reader.list("and", condition) } else { Vec::new() };
        let take = take.into_iter().map(operand).collect();
        Query { items, take, conditions }
    }
}

impl<'a> Query<'a> {
    fn is_denied(&self, operand: &Operand) -> bool {
        matches!(operand, Operand::Column(item, _) if matches!(self.items[*item], Item::Tuples { minus: true, .. }))
    }

    /// What a chain of `=` joins to a column of a denied item: a literal, or a column of another item.
    fn bound(&self, operand: &Operand) -> Operand {
        let mut chain = vec![operand.clone()];
        let mut at = 0;
        while self.is_denied(&chain[at]) {
            for condition in self.conditions.iter().filter(|it| it.compare == "=") {
                for (one, other) in [(&condition.left, &condition.right), (&condition.right, &condition.left)] {
                    if *one == chain[at] && !chain.contains(other) {
                        chain.push(other.clone());
                    }
                }
            }
            at += 1;
        }
        chain.swap_remove(at)
    }

    /// Users first, then tuples, then what is denied, each with the conditions that can be tested then.
    fn steps(&self, base: &Base) -> Vec<Step<'a>> {
        let rank = |item: &usize| match self.items[*item] {
            Item::Users => 0,
            Item::Tuples { minus, .. } => 1 + usize::from(minus),
        };
        let mut order: Vec<usize> = (0..self.items.len()).collect();
        order.sort_by_key(rank);
        let mut left: Vec<Condition> = Vec::new();
        for Condition { left: one, compare, right } in &self.conditions {
            let (one, other) = (self.bound(one), self.bound(right));
            if one != other || *compare != "=" {
                left.push(Condition { left: one, compare, right: other });
            }
        }
        let mut steps = Vec::new();
        for at in 0..order.len() {
            let is_set = |operand: &Operand| !matches!(operand, Operand::Column(item, _) if !order[..=at].contains(item));
            let (tests, later) = left.into_iter().partition(|it| is_set(&it.left) && is_set(&it.right));
            left = later;
            let told = self.told(base, order[at], &tests);
            steps.push(Step { item: order[at], told, tests });
        }
        steps
    }

    fn told(&self, base: &Base, item: usize, tests: &[Condition]) -> Option<Vec<Operand>> {
        let Item::Tuples { relation, minus, .. } = &self.items[item] else { return None };
        if *minus {
            return Some((0..base.relations[*relation].columns.len()).map(|column| self.bound(&Operand::Column(item, column))).collect());
        }
        let of_key = |column| {
            let own = Operand::Column(item, column);
            let other = |it: &Condition| if it.left == own { it.right.clone() } else { it.left.clone() };
            let found = tests.iter().filter(|it| it.compare == "=" && (it.left == own) != (it.right == own)).map(other);
            found.filter(|it| !matches!(it, Operand::Column(of, _) if *of == item)).next()
        };
        (0..base.relations[*relation].key).map(of_key).collect()
    }
}

fn uid_of(value: &Value) -> usize {
    match value {
        Value::Int(uid) => *uid as usize,
        Value::Text(_) => panic!("no number of a user"),
    }
}

/// A query that runs: for each item what is chosen, and the answers so far.
struct Run<'a> {
    base: &'a Base,
    query: &'a Query<'a>,
    steps: &'a [Step<'a>],
    take: Vec<Operand>,
    users: &'a [Vec<Value>],
    chosen: Vec<&'a [Value]>,
    answers: BTreeSet<Vec<Value>>,
}

impl<'a> Run<'a> {
    fn value<'b>(&'b self, operand: &'b Operand) -> &'b Value {
        match operand {
            Operand::Column(item, column) => &self.chosen[*item][*column],
            Operand::Literal(value) => value,
        }
    }

    fn go(&mut self, depth: usize) {
        let Some(step) = self.steps.get(depth) else {
            let answer = self.take.iter().map(|it| self.value(it).clone()).collect();
            self.answers.insert(answer);
            return;
        };
        let (base, users) = (self.base, self.users);
        let Item::Tuples { relation, path, minus } = &self.query.items[step.item] else {
            users.iter().for_each(|user| self.choose(depth, user));
            return;
        };
        let Some(world) = self.world(path) else { return };
        let Some(told) = &step.told else {
            for number in base.marked(world, PLUS).filter(|it| base.entries[*it].tuple.relation == *relation) {
                self.choose(depth, &base.entries[number].tuple.values);
            }
            return;
        };
        let of_relation = &base.relations[*relation];
        let key: Vec<Value> = told[..of_relation.key].iter().map(|it| self.value(it).clone()).collect();
        let Some(group) = of_relation.groups.get(&key) else { return };
        let marks = &base.worlds[world].marks;
        let found = base.groups[*group].iter().map(|number| (marks[*number] & !EXPLICIT, &base.entries[*number].tuple.values));
        if *minus {
            let is_told = |values: &[Value]| values.iter().zip(told).all(|(value, it)| value == self.value(it));
            if found.filter(|it| it.0 != 0).any(|(mark, values)| (mark == MINUS) == is_told(values)) {
                self.choose(depth, &[]);
            }
        } else {
            found.filter(|it| it.0 == PLUS).for_each(|(_, values)| self.choose(depth, values));
        }
    }

    fn choose(&mut self, depth: usize, values: &'a [Value]) {
        let step = &self.steps[depth];
        self.chosen[step.item] = values;
        let is_met = |it: &Condition| holds(self.value(&it.left), it.compare, self.value(&it.right));
        if self.answers.len() <= MOST_LINES && step.tests.iter().all(is_met) {
            self.go(depth + 1);
        }
    }

    /// The world of an item's path, where no user of it stands beside himself.
    fn world(&self, path: &[Who]) -> Option<usize> {
        let (mut at, mut last) = (0, usize::MAX);
        for who in path {
            let user = match who {
                Who::User(user) => *user,
                Who::Of(item) => uid_of(&self.chosen[*item][0]) - 1,
            };
            if user == last {
                return None;
            }
            (at, last) = (self.base.worlds[at].edges[user], user);
        }
        Some(at)
    }
}

struct Refused(String);

type Replied = Result<(), Refused>;

fn quote(text: &str) -> String {
    format!("'{}'", text.replace('\'', "''"))
}

fn text_of(values: &[Value]) -> String {
    let text = |value: &Value| match value {
        Value::Int(number) => number.to_string(),
        Value::Text(text) => quote(text),
    };
    values.iter().map(text).collect::<Vec<String>>().join(", ")
}

/// How things are written.
impl Base {
    /// The numbers of the tuples that a world has with this sign.
    fn marked(&self, world: usize, sign: u8) -> impl Iterator<Item = usize> + '_ {
        let marks = self.worlds[world].marks.iter().take(self.entries.len());
        marks.enumerate().filter(move |(_, mark)| **mark & !EXPLICIT == sign).map(|it| it.0)
    }

    fn path_text(&self, path: &[usize]) -> String {
        let text: String = path.iter().map(|user| format!("/{}", quote(&self.users[*user]))).collect();
        if path.is_empty() { "/".to_string() } else { text }
    }

    /// The rows of a world in order of tuples, each with a text before it; and how many there are.
    fn write_rows(&self, out: &mut String, world: &World, depth: usize, before: &str) -> usize {
        let mut count = 0;
        for number in self.numbers.values().filter(|number| world.marks[**number] != 0) {
            let mark = world.marks[*number];
            out.push_str(before);
            out.push_str(if mark & MINUS != 0 { "- " } else { "+ " });
            out.push_str(&self.entries[*number].text);
            out.push_str(if mark & EXPLICIT != 0 && world.path.len() == depth { " explicit\n" } else { " inherited\n" });
            count += 1;
        }
        count
    }

    fn show_world(&self, out: &mut String, path: &[usize]) {
        let world = &self.worlds[self.walk(path)];
        let count = self.write_rows(out, world, path.len(), "");
        line(out, format_args!("ok {count}"));
    }

    fn show_tables(&self, out: &mut String) -> Replied {
        let mut worlds: Vec<&World> = self.worlds.iter().enumerate().filter(|(at, it)| *at == 0 || !it.path.is_empty()).map(|it| it.1).collect();
        worlds.sort_by_key(|world| (world.path.len(), &world.path));
        let edges = worlds.len() * self.users.len() + 1 - worlds.len();
        let rows: usize = worlds.iter().map(|world| world.marks.iter().filter(|mark| **mark != 0).count()).sum();
        let lines = self.users.len() + self.relations.len() + self.numbers.len() + worlds.len() + edges + rows;
        if lines > MOST_LINES {
            return Err(Refused("many".into()));
        }
        self.write_catalog(out);
        for world in &worlds {
            let suffix = if world.path.is_empty() { String::new() } else { format!(" suffix {}", self.path_text(&self.worlds[world.suffix].path)) };
            line(out, format_args!("world {} depth {}{suffix}", self.path_text(&world.path), world.path.len()));
        }
        for world in &worlds {
            for (user, to) in world.edges.iter().enumerate().filter(|(user, _)| world.path.last() != Some(user)) {
                let (from, to) = (self.path_text(&world.path), self.path_text(&self.worlds[*to].path));
                line(out, format_args!("edge {from} {} {to}", quote(&self.users[user])));
            }
        }
        for world in worlds {
            self.write_rows(out, world, world.path.len(), &format!("row {} ", self.path_text(&world.path)));
        }
        line(out, format_args!("ok {lines}"));
        Ok(())
    }

    fn write_catalog(&self, out: &mut String) {
        for (at, name) in self.users.iter().enumerate() {
            line(out, format_args!("user {} {}", at + 1, quote(name)));
        }
        for relation in &self.relations {
            let columns: Vec<String> = relation.columns.iter().map(|(name, kind)| format!("{name} {kind}")).collect();
            let key = if relation.key == 1 { String::new() } else { format!(" key {}", relation.key) };
            line(out, format_args!("relation {}({}){key}", relation.name, columns.join(", ")));
        }
        for number in self.numbers.values() {
            line(out, format_args!("tuple {}", self.entries[*number].text));
        }
    }
}

fn line(out: &mut String, text: std::fmt::Arguments) {
    writeln!(out, "{text}").expect("room");
}

/// Commands.
impl Base {
    fn create(&mut self, reader: &mut Reader, out: &mut String) {
        if reader.takes("user") {
            let name = reader.text();
            self.uids.insert(name.clone(), self.users.len());
            self.users.push(name);
            self.worlds.iter_mut().for_each(|world| world.edges.push(0));
        } else {
            reader.wants("relation");
            let name = reader.name().to_string();
            reader.wants("(");
            let columns = reader.list(",", |reader| (reader.name().to_string(), reader.name().to_string()));
            reader.wants(")");
            let key = if reader.takes("key") { uid_of(&reader.literal()) } else { 1 };
            self.relations.push(Relation { name, columns, key, groups: HashMap::new() });
        }
        out.push_str("ok\n");
    }

    /// The statements of a path that clash with a signed tuple.
    fn clashing<'a>(&'a self, world: usize, tuple: &'a Tuple, minus: bool) -> impl Iterator<Item = (&'a Tuple, bool)> {
        let group = self.group_of(tuple).map_or(&[][..], |group| &self.groups[group]);
        let stated = group.iter().map(move |number| (&self.entries[*number].tuple, self.worlds[world].marks[*number]));
        let clashes = move |it: &(&Tuple, u8)| if it.0 == tuple { it.1 != sign(minus) | EXPLICIT } else { it.1 & PLUS != 0 && !minus };
        stated.filter(|it| it.1 & EXPLICIT != 0).filter(clashes).map(|it| (it.0, it.1 & MINUS != 0))
    }

    fn stands(&self, world: usize, tuple: &Tuple, minus: bool) -> bool {
        self.numbers.get(tuple).is_some_and(|number| self.worlds[world].marks[*number] == sign(minus) | EXPLICIT)
    }

    fn insert(&mut self, reader: &mut Reader, out: &mut String) -> Replied {
        reader.wants("into");
        let (path, minus, relation) = self.place(reader);
        reader.wants("values");
        reader.wants("(");
        let tuple = Tuple { relation, values: reader.list(",", Reader::literal) };
        if let Some(world) = self.state(&path) {
            if let Some(least) = self.clashing(world, &tuple, minus).min() {
                return Err(self.clash(least));
            }
            if self.stands(world, &tuple, minus) {
                out.push_str("ok 0\n");
                return Ok(());
            }
        }
        let world = self.grow(&path);
        self.add(world, tuple, minus);
        out.push_str("ok 1\n");
        Ok(())
    }

    fn clash(&self, (tuple, minus): (&Tuple, bool)) -> Refused {
        let name = &self.relations[tuple.relation].name;
        Refused(format!("clash {} {name}({})", if minus { '-' } else { '+' }, text_of(&tuple.values)))
    }

    /// The statements of a world that a delete or update takes.
    fn taken(&self, world: usize, relation: usize, minus: bool, tests: &[Condition]) -> Vec<usize> {
        let meets = |tuple: &Tuple| {
            let value = |operand: &Operand| match operand {
                Operand::Column(_, column) => tuple.values[*column].clone(),
                Operand::Literal(value) => value.clone(),
            };
            tuple.relation == relation && tests.iter().all(|it| holds(&value(&it.left), it.compare, &value(&it.right)))
        };
        let stated = self.marked(world, sign(minus)).filter(|it| self.worlds[world].marks[*it] & EXPLICIT != 0);
        stated.filter(|it| meets(&self.entries[*it].tuple)).collect()
    }

    fn delete(&mut self, reader: &mut Reader, out: &mut String) {
        reader.wants("from");
        let (path, minus, relation) = self.place(reader);
        let tests = self.tests(reader, relation);
        let mut count = 0;
        if let Some(world) = self.state(&path) {
            let rows = self.taken(world, relation, minus, &tests);
            count = rows.len();
            rows.into_iter().for_each(|row| self.remove(world, row));
            self.shrink(world);
        }
        line(out, format_args!("ok {count}"));
    }

    fn update(&mut self, reader: &mut Reader, out: &mut String) -> Replied {
        let (path, minus, relation) = self.place(reader);
        reader.wants("set");
        let sets = reader.list(",", |reader| {
            let column = self.column(relation, reader.name());
            reader.wants("=");
            (column, reader.literal())
        });
        let tests = self.tests(reader, relation);
        let Some(world) = self.state(&path) else {
            out.push_str("ok 0\n");
            return Ok(());
        };
        let rows = self.taken(world, relation, minus, &tests);
        let old: Vec<Tuple> = rows.iter().map(|it| self.entries[*it].tuple.clone()).collect();
        let mut news = old.clone();
        news.iter_mut().for_each(|tuple| sets.iter().for_each(|(column, value)| tuple.values[*column] = value.clone()));
        rows.iter().for_each(|row| self.remove(world, *row));
        let refused = self.least_clashing(world, &news, minus).map(|least| self.clash(least));
        for tuple in if refused.is_some() { old } else { news } {
            if !self.stands(world, &tuple, minus) {
                self.add(world, tuple, minus);
            }
        }
        match refused {
            Some(refused) => Err(refused),
            None => Ok(line(out, format_args!("ok {}", rows.len()))),
        }
    }

    /// The least of the statements of a path, with these tuples among them, that clashes with another.
    fn least_clashing<'a>(&'a self, world: usize, news: &'a [Tuple], minus: bool) -> Option<(&'a Tuple, bool)> {
        let clash = |a: &Tuple, b: &Tuple| {
            let key = self.relations[a.relation].key;
            !minus && a != b && a.values[..key] == b.values[..key]
        };
        let mut found: Vec<(&Tuple, bool)> = Vec::new();
        for tuple in news {
            let before = found.len();
            found.extend(self.clashing(world, tuple, minus));
            if found.len() > before || news.iter().any(|other| clash(tuple, other)) {
                found.push((tuple, minus));
            }
        }
        found.into_iter().min()
    }

    fn select(&self, reader: &mut Reader, out: &mut String) -> Replied {
        let query = self.query(reader);
        let steps = query.steps(self);
        let users: Vec<Vec<Value>> = self.users.iter().enumerate().map(|(at, name)| vec![Value::Int(at as i64 + 1), Value::Text(name.clone())]).collect();
        let take = query.take.iter().map(|it| query.bound(it)).collect();
        let mut run = Run { base: self, query: &query, steps: &steps, users: &users, take, chosen: vec![&[]; query.items.len()], answers: BTreeSet::new() };
        run.go(0);
        if run.answers.len() > MOST_LINES {
            return Err(Refused("many".into()));
        }
        for answer in &run.answers {
            line(out, format_args!("{}", text_of(answer)));
        }
        line(out, format_args!("ok {}", run.answers.len()));
        Ok(())
    }

    fn carry_out(&mut self, reader: &mut Reader, out: &mut String) -> Replied {
        match reader.name() {
            "create" => Ok(self.create(reader, out)),
            "insert" => self.insert(reader, out),
            "delete" => Ok(self.delete(reader, out)),
            "update" => self.update(reader, out),
            "select" => self.select(reader, out),
            "show" if reader.takes("tables") => self.show_tables(out),
            "show" => {
                reader.wants("world");
                let path = self.path(reader);
                Ok(self.show_world(out, &path))
            }
            other => panic!("{other} isn't known here"),
        }
    }
}

fn main() {
    let file = std::env::args().nth(1).expect("a script");
    let script = std::fs::read_to_string(file).expect("a script");
    let root = World { marks: vec![0; MOST_TUPLES], ..World::default() };
    let mut base = Base { worlds: vec![root], ..Base::default() };
    let (mut rest, mut out, mut refused) = (script.as_str(), String::new(), false);
    let mut output = std::io::stdout();
    while let Some((tokens, left)) = tokens(rest) {
        if let Err(Refused(text)) = base.carry_out(&mut Reader { tokens: tokens.into_iter() }, &mut out) {
            line(&mut out, format_args!("error {text}"));
            refused = true;
        }
        rest = left;
        if out.len() > BLOCK || rest.trim_ascii().is_empty() {
            output.write_all(out.as_bytes()).expect("an output");
            out.clear();
        }
    }
    std::process::exit(i32::from(refused));
}

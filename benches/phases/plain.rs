// The work of each phase as plain loops in one thread, over std's hash maps. The arguments and the lines
// that are printed are those of the program in src/.
use std::collections::HashMap;
use std::hint::black_box;
use std::time::Instant;

#[derive(Clone, PartialEq, Eq, Hash)]
enum Part {
    Int(i64),
    #[allow(dead_code)]
    Text(Box<[u8]>),
}

#[derive(Clone, PartialEq, Eq, Hash)]
enum Parts {
    One([Part; 1]),
    #[allow(dead_code)]
    More(Box<[Part]>),
}

#[derive(Clone, PartialEq, Eq, Hash)]
struct Key {
    table: u16,
    parts: Parts,
}

#[derive(Clone)]
enum Value {
    Int(#[allow(dead_code)] i64),
    #[allow(dead_code)]
    Text(Box<[u8]>),
}

type Row = Vec<Value>;

type Changes = Vec<(Key, Option<Row>)>;

struct Sets {
    reads: Vec<Key>,
    writes: Vec<Key>,
}

#[derive(Default)]
struct Numbered {
    reads: Vec<Vec<u32>>,
    writes: Vec<Vec<u32>>,
}

#[allow(dead_code)]
enum Verdict {
    Finish { raw: bool },
    Waw(u32),
    Both(u32, u32),
}

fn key(number: u32) -> Key {
    Key { table: 0, parts: Parts::One([Part::Int(number.into())]) }
}

fn row(number: u32) -> Row {
    (0..10).map(|_| Value::Int(number.into())).collect()
}

struct Draws(u64);

impl Draws {
    fn next(&mut self, keys: u32) -> u32 {
        self.0 = self.0.wrapping_mul(6_364_136_223_846_793_005).wrapping_add(1_442_695_040_888_963_407);
        ((self.0 >> 33) % u64::from(keys)) as u32
    }
}

fn number(sets: &[Sets]) -> (Numbered, usize) {
    let touches = sets.iter().map(|set| set.reads.len() + set.writes.len()).sum();
    let mut known: HashMap<&Key, u32> = HashMap::with_capacity(touches);
    let mut number_of = |key| {
        let next = known.len() as u32;
        *known.entry(key).or_insert(next)
    };
    let mut numbered = Numbered::default();
    for set in sets {
        numbered.reads.push(set.reads.iter().map(&mut number_of).collect());
        numbered.writes.push(set.writes.iter().map(&mut number_of).collect());
    }
    (numbered, known.len())
}

/// The least numbers of the requests that write and that read each key.
fn mark(numbered: &Numbered, keys: usize) -> Vec<u32> {
    let mut words = vec![u32::MAX; 2 * keys];
    for (tid, (reads, writes)) in (1..).zip(numbered.reads.iter().zip(&numbered.writes)) {
        for &key in reads {
            let word = &mut words[2 * key as usize + 1];
            *word = (*word).min(tid);
        }
        for &key in writes {
            let word = &mut words[2 * key as usize];
            *word = (*word).min(tid);
        }
    }
    words
}

fn least(words: &[u32], keys: &[u32], side: usize, tid: u32) -> Option<u32> {
    keys.iter().map(|&key| words[2 * key as usize + side]).filter(|&other| other < tid).min()
}

fn decide(words: &[u32], numbered: &Numbered) -> Vec<Verdict> {
    let each = (1..).zip(numbered.reads.iter().zip(&numbered.writes));
    each.map(|(tid, (reads, writes))| {
        let waw = least(words, writes, 0, tid);
        let raw = least(words, reads, 0, tid);
        let war = least(words, writes, 1, tid);
        match (waw, raw, war) {
            (Some(waw), _, _) => Verdict::Waw(waw),
            (None, Some(raw), Some(war)) => Verdict::Both(raw, war),
            (None, raw, _) => Verdict::Finish { raw: raw.is_some() },
        }
    })
    .collect()
}

fn install(tables: &mut HashMap<Key, Row>, list: Vec<Changes>) {
    for changes in list {
        for (key, row) in changes {
            match row {
                Some(row) => drop(tables.insert(key, row)),
                None => drop(tables.remove(&key)),
            }
        }
    }
}

fn timed<T>(least: &mut u128, work: impl FnOnce() -> T) -> T {
    let start = Instant::now();
    let made = black_box(work());
    *least = (*least).min(start.elapsed().as_nanos());
    made
}

fn main() {
    let arguments: Vec<u32> = std::env::args().skip(1).map(|word| word.parse().unwrap()).collect();
    let (keys, count, rounds) = (arguments[0], arguments[1], arguments[3]);
    let mut draws = Draws(1);
    let mut sets = Vec::new();
    let mut list: Vec<Changes> = Vec::new();
    for _ in 0..count {
        let reads = (0..5).map(|_| key(draws.next(keys))).collect();
        let written: Vec<u32> = (0..5).map(|_| draws.next(keys)).collect();
        sets.push(Sets { reads, writes: written.iter().map(|&n| key(n)).collect() });
        list.push(written.iter().map(|&n| (key(n), Some(row(n)))).collect());
    }
    let mut tables: HashMap<Key, Row> = (0..keys).map(|n| (key(n), row(n))).collect();
    let [mut numbering, mut marking, mut deciding, mut installing] = [u128::MAX; 4];
    let mut waiting = 0;
    for _ in 0..rounds {
        let (numbered, touched) = timed(&mut numbering, || number(&sets));
        let words = timed(&mut marking, || mark(&numbered, touched));
        let verdicts = timed(&mut deciding, || decide(&words, &numbered));
        waiting = verdicts.iter().filter(|v| !matches!(v, Verdict::Finish { .. })).count();
        let changes = list.clone();
        timed(&mut installing, || install(&mut tables, changes));
    }
    println!("numbering {numbering}\nmarking {marking}\ndeciding {deciding}\ninstalling {installing}\nwaiting {waiting}");
}

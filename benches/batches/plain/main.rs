// A plain engine for comparison: the same batches over std's hash maps, in one thread. Its arguments are the file of
// a catalogue and that of a script. It halts at `ready` and `done`, and prints what the program in src/ prints.
mod json;
mod run;
mod script;

use run::{Call, End, Key, Procs, Request, Run, Tables, Writes};
use std::collections::HashMap;
use std::io::Write;
use std::time::Instant;

/// What a request's reply says.
pub enum Reply {
    Ended(End),
    Moved(#[allow(dead_code)] Key),
}

/// What is printed of a batch: a line for each request of its list, and the order.
pub struct Answer {
    pub lines: Vec<(u64, Reply)>,
    #[allow(dead_code)]
    pub order: Vec<u64>,
}

#[derive(Clone, Copy, PartialEq)]
enum Verdict {
    Finish { raw: bool },
    Wait,
}

/// The numbers of the keys that a request touches.
struct Numbers {
    reads: Vec<u32>,
    writes: Vec<u32>,
}

/// The first requests of a batch that read and that write a key, by their places.
#[derive(Clone, Copy)]
struct First {
    reader: u32,
    writer: u32,
}

/// The numbers of all keys that are touched, and how many keys there are.
fn number(runs: &[Run]) -> (Vec<Numbers>, usize) {
    let touches = runs.iter().map(|run| run.reads.len() + run.writes.len()).sum();
    let mut known: HashMap<&Key, u32> = HashMap::with_capacity(touches);
    let mut number_of = |key| {
        let next = known.len() as u32;
        *known.entry(key).or_insert(next)
    };
    let mut numbered = Vec::with_capacity(runs.len());
    for run in runs {
        let reads = run.reads.iter().map(&mut number_of).collect();
        let writes = run.writes.iter().map(|write| number_of(&write.0)).collect();
        numbered.push(Numbers { reads, writes });
    }
    (numbered, known.len())
}

fn mark(numbered: &[Numbers], keys: usize) -> Vec<First> {
    let mut firsts = vec![First { reader: u32::MAX, writer: u32::MAX }; keys];
    for (place, numbers) in (0..).zip(numbered) {
        for &key in &numbers.reads {
            let first = &mut firsts[key as usize];
            first.reader = first.reader.min(place);
        }
        for &key in &numbers.writes {
            let first = &mut firsts[key as usize];
            first.writer = first.writer.min(place);
        }
    }
    firsts
}

/// By the rule `reorder`.
fn decide(place: u32, numbers: &Numbers, firsts: &[First]) -> Verdict {
    let waw = numbers.writes.iter().any(|&key| firsts[key as usize].writer < place);
    let raw = numbers.reads.iter().any(|&key| firsts[key as usize].writer < place);
    let war = numbers.writes.iter().any(|&key| firsts[key as usize].reader < place);
    if waw || raw && war { Verdict::Wait } else { Verdict::Finish { raw } }
}

fn install(tables: &mut Tables, writes: Writes) {
    for (key, row) in writes {
        match row {
            Some(row) => drop(tables.insert(key, row)),
            None => drop(tables.remove(&key)),
        }
    }
}

/// Runs a request again within the keys of its first run, and installs what it writes.
fn rerun(procs: &Procs, tables: &mut Tables, request: &Request, first: &Run) -> Reply {
    let may = |key: &Key, is_write: bool| {
        first.writes.iter().any(|write| write.0 == *key) || !is_write && first.reads.contains(key)
    };
    match run::run(procs, tables, request, may) {
        Ok(run) => {
            install(tables, run.writes);
            Reply::Ended(run.end)
        }
        Err(key) => Reply::Moved(key),
    }
}

/// First those that read past a writer, the last of the list first; then the others that finish; then the late ones.
fn order(verdicts: &[Verdict], lines: &[(u64, Reply)]) -> Vec<u64> {
    let those = |wanted| (0..verdicts.len()).filter(move |&place| verdicts[place] == wanted);
    let late = those(Verdict::Wait).filter(|&place| matches!(lines[place].1, Reply::Ended(_)));
    let places = those(Verdict::Finish { raw: true }).rev().chain(those(Verdict::Finish { raw: false })).chain(late);
    places.map(|place| lines[place].0).collect()
}

/// Runs a batch. Answers the requests that wait for the next one, too.
fn run_batch(procs: &Procs, tables: &mut Tables, list: Vec<Request>) -> (Answer, Vec<Request>) {
    let runs: Vec<Run> = list.iter().map(|request| run::run_freely(procs, tables, request)).collect();
    let (numbered, keys) = number(&runs);
    let firsts = mark(&numbered, keys);
    let each = (0..).zip(&numbered);
    let verdicts: Vec<Verdict> = each.map(|(place, numbers)| decide(place, numbers, &firsts)).collect();
    let mut lines = Vec::with_capacity(list.len());
    let mut waiting = Vec::new();
    for ((request, run), verdict) in list.into_iter().zip(runs).zip(&verdicts) {
        match verdict {
            Verdict::Finish { .. } => {
                install(tables, run.writes);
                lines.push((request.q, Reply::Ended(run.end)));
            }
            Verdict::Wait => {
                waiting.push((lines.len(), request, run));
                lines.push((0, Reply::Ended(End::Back(0))));
            }
        }
    }
    let mut carried = Vec::new();
    for (place, request, first) in waiting {
        let reply = rerun(procs, tables, &request, &first);
        let is_moved = matches!(reply, Reply::Moved(_));
        lines[place] = (request.q, reply);
        if is_moved {
            carried.push(request);
        }
    }
    let order = order(&verdicts, &lines);
    (Answer { lines, order }, carried)
}

/// Runs the next batch by the clock, and nothing else, so that tools may count what this function comes to.
#[inline(never)]
fn timed_batch(
    procs: &Procs,
    tables: &mut Tables,
    carried: Vec<Request>,
    calls: Vec<Call>,
    requests: &mut u64,
) -> (Answer, Vec<Request>, u128) {
    let start = Instant::now();
    let mut list = carried;
    list.reserve(calls.len());
    for call in calls {
        *requests += 1;
        list.push(Request { q: *requests, call });
    }
    let (answer, waiting) = run_batch(procs, tables, list);
    (answer, waiting, start.elapsed().as_nanos())
}

/// Prints the word, and waits for a line, so that who reads this may look at clocks.
fn halt(word: &str) {
    println!("{word}");
    std::io::stdout().flush().unwrap();
    std::io::stdin().read_line(&mut String::new()).unwrap();
}

fn main() {
    let files: Vec<String> = std::env::args().skip(1).collect();
    let procs = Procs::of(&json::read(&std::fs::read_to_string(&files[0]).unwrap()));
    let (mut tables, batches) = script::read(&files[1], &procs);
    halt("ready");
    let (mut whole, mut first, mut longest, mut ended, mut waits) = (0, None, 0, 0, 0);
    let (mut carried, mut requests) = (Vec::new(), 0);
    for calls in batches {
        let (answer, waiting, took) = timed_batch(&procs, &mut tables, carried, calls, &mut requests);
        carried = waiting;
        whole += took;
        first = first.or(Some(took));
        longest = longest.max(took);
        ended += answer.lines.iter().filter(|line| matches!(line.1, Reply::Ended(_))).count();
        waits += answer.lines.iter().filter(|line| matches!(line.1, Reply::Moved(_))).count();
    }
    halt("done");
    let first = first.unwrap_or(0);
    println!("whole {whole}\nfirst {first}\nlongest {longest}\nended {ended}\nwaits {waits}");
}

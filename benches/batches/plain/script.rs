// Scripts as the command `gen` writes them.
use crate::run::{Arg, Call, Key, Procs, Tables, Value};
use std::fs::File;
use std::io::{BufRead, BufReader};

/// The words of a line. Spaces within a text do not part it.
fn words(line: &str) -> Vec<&str> {
    let mut quoted = false;
    line.split(move |c| {
        quoted ^= c == '"';
        c == ' ' && !quoted
    })
    .collect()
}

fn value(word: &str) -> Value {
    match word.strip_prefix('"') {
        Some(text) => Value::Text(text.strip_suffix('"').unwrap().into()),
        None => Value::Int(word.parse().unwrap()),
    }
}

fn values(words: &[&str]) -> Vec<Value> {
    words.iter().map(|word| value(word)).collect()
}

fn tuples(list: &str) -> Vec<Vec<i64>> {
    let tuples = list.split(';').filter(|tuple| !tuple.is_empty());
    tuples.map(|tuple| tuple.split(',').map(|number| number.parse().unwrap()).collect()).collect()
}

fn arg(word: &str) -> Arg {
    match word.strip_prefix('[') {
        Some(list) => Arg::List(tuples(list.strip_suffix(']').unwrap())),
        None => Arg::One(value(word)),
    }
}

/// The rows of a script, and the calls of its batches.
pub fn read(file: &str, procs: &Procs) -> (Tables, Vec<Vec<Call>>) {
    let mut tables = Tables::new();
    let mut batches = Vec::new();
    let mut calls = Vec::new();
    for line in BufReader::new(File::open(file).unwrap()).lines() {
        let line = line.unwrap();
        let words = words(&line);
        match words[0] {
            "catalog" => (),
            "row" => {
                let middle = words.iter().position(|word| *word == "=").unwrap();
                let key = Key::new(procs.table(words[1]), values(&words[2..middle]));
                tables.insert(key, values(&words[middle + 1..]));
            }
            "tx" => {
                let args = words[2..].iter().map(|word| arg(word)).collect();
                calls.push(Call { proc: procs.proc(words[1]), args });
            }
            "end" => batches.push(std::mem::take(&mut calls)),
            other => panic!("{other}"),
        }
    }
    (tables, batches)
}

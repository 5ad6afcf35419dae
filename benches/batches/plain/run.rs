// Procedures, and their runs on a snapshot. `find` is left out: neither workload has it.
use crate::json::Json;
use std::collections::HashMap;
use std::hash::{Hash, Hasher};

#[derive(Clone, PartialEq, Eq)]
pub enum Value {
    Int(i64),
    Text(Box<str>),
}

#[derive(Clone, PartialEq, Eq)]
enum Parts {
    One([Value; 1]),
    Two([Value; 2]),
    More(Box<[Value]>),
}

#[derive(Clone, PartialEq, Eq)]
pub struct Key {
    table: u16,
    parts: Parts,
}

impl Key {
    pub fn new(table: u16, parts: Vec<Value>) -> Key {
        let parts = match <[Value; 1]>::try_from(parts) {
            Ok(one) => Parts::One(one),
            Err(parts) => match <[Value; 2]>::try_from(parts) {
                Ok(two) => Parts::Two(two),
                Err(parts) => Parts::More(parts.into()),
            },
        };
        Key { table, parts }
    }

    fn parts(&self) -> &[Value] {
        match &self.parts {
            Parts::One(one) => one,
            Parts::Two(two) => two,
            Parts::More(more) => more,
        }
    }
}

/// As few writes as there are parts, since each is a call.
impl Hash for Key {
    fn hash<H: Hasher>(&self, state: &mut H) {
        state.write_u16(self.table);
        for part in self.parts() {
            match part {
                Value::Int(number) => state.write_i64(*number),
                Value::Text(text) => state.write(text.as_bytes()),
            }
        }
    }
}

pub type Row = Vec<Value>;
pub type Tables = HashMap<Key, Row>;
pub type Writes = Vec<(Key, Option<Row>)>;

pub enum Arg {
    One(Value),
    List(Vec<Vec<i64>>),
}

pub struct Call {
    pub proc: usize,
    pub args: Vec<Arg>,
}

pub struct Request {
    pub q: u64,
    pub call: Call,
}

pub enum End {
    Done(#[allow(dead_code)] Vec<Value>),
    Back(#[allow(dead_code)] i64),
    Trap(#[allow(dead_code)] Trap),
}

#[derive(Clone, Copy)]
pub enum Trap {
    Overflow,
    Zero,
    Absent,
    Long,
    Many,
}

/// What a run on a snapshot comes to. A key may stand among the reads several times. Both lists are searched from the
/// front, since a run makes few accesses.
pub struct Run {
    pub reads: Vec<Key>,
    pub writes: Writes,
    pub end: End,
}

/// Why a run stops early.
enum Stop {
    Back(i64),
    Trap(Trap),
    Moved(Box<Key>),
}

enum Expr {
    Int(i64),
    Text(Box<str>),
    Reg(usize),
    Arg(usize),
    Item(usize),
    Len(usize),
    Me,
    Not(Box<Expr>),
    Show(Box<Expr>),
    Two(Op, Box<(Expr, Expr)>),
    Muldiv(Box<(Expr, Expr, Expr)>),
    Front(Box<(Expr, Expr)>, usize),
}

#[derive(Clone, Copy)]
enum Op {
    Add,
    Sub,
    Mul,
    Div,
    Mod,
    Eq,
    Ne,
    Lt,
    Le,
    And,
    Or,
    Cat,
}

/// How a run ends that reads where there is no row.
enum Miss {
    Absent,
    Back(i64),
}

enum Stmt {
    Let(usize, Expr),
    Read(u16, Vec<Expr>, Vec<usize>, Miss),
    Put(u16, Vec<Expr>, Vec<Expr>),
    Del(u16, Vec<Expr>),
    If(Expr, Vec<Stmt>, Vec<Stmt>),
    Each(usize, Vec<Stmt>),
    Give(Expr),
    Fail(i64),
}

struct Proc {
    name: String,
    registers: usize,
    body: Vec<Stmt>,
}

/// The tables and procedures of a catalogue.
pub struct Procs {
    tables: Vec<String>,
    procs: Vec<Proc>,
}

fn index(json: &Json) -> usize {
    json.number() as usize
}

impl Procs {
    pub fn of(catalog: &Json) -> Procs {
        let name = |json: &Json| json.member("name").text().to_owned();
        let tables = catalog.member("tables").list().iter().map(name).collect();
        let mut procs = Procs { tables, procs: Vec::new() };
        for proc in catalog.member("procs").list() {
            let body = procs.block(proc.member("body"));
            procs.procs.push(Proc { name: name(proc), registers: proc.member("regs").list().len(), body });
        }
        procs
    }

    pub fn table(&self, name: &str) -> u16 {
        self.tables.iter().position(|table| table == name).unwrap() as u16
    }

    pub fn proc(&self, name: &str) -> usize {
        self.procs.iter().position(|proc| proc.name == name).unwrap()
    }

    fn block(&self, json: &Json) -> Vec<Stmt> {
        json.list().iter().map(|stmt| self.stmt(stmt.list())).collect()
    }

    fn stmt(&self, words: &[Json]) -> Stmt {
        let table = || self.table(words[1].text());
        let registers = || words[3].list().iter().map(index).collect();
        let read = |miss| Stmt::Read(table(), exprs(&words[2]), registers(), miss);
        match words[0].text() {
            "let" => Stmt::Let(index(&words[1]), expr(&words[2])),
            "get" => read(Miss::Absent),
            "need" => read(Miss::Back(words[4].number())),
            "put" => Stmt::Put(table(), exprs(&words[2]), exprs(&words[3])),
            "del" => Stmt::Del(table(), exprs(&words[2])),
            "if" => Stmt::If(expr(&words[1]), self.block(&words[2]), self.block(&words[3])),
            "each" => Stmt::Each(index(&words[1]), self.block(&words[2])),
            "give" => Stmt::Give(expr(&words[1])),
            "fail" => Stmt::Fail(words[1].number()),
            other => panic!("{other}"),
        }
    }
}

fn exprs(json: &Json) -> Vec<Expr> {
    json.list().iter().map(expr).collect()
}

fn expr(json: &Json) -> Expr {
    let words = match json {
        Json::Number(number) => return Expr::Int(*number),
        Json::Text(text) => return Expr::Text(text.as_str().into()),
        other => other.list(),
    };
    let two = |op| Expr::Two(op, Box::new((expr(&words[1]), expr(&words[2]))));
    match words[0].text() {
        "reg" => Expr::Reg(index(&words[1])),
        "arg" => Expr::Arg(index(&words[1])),
        "item" => Expr::Item(index(&words[1])),
        "len" => Expr::Len(index(&words[1])),
        "me" => Expr::Me,
        "not" => Expr::Not(Box::new(expr(&words[1]))),
        "show" => Expr::Show(Box::new(expr(&words[1]))),
        "muldiv" => Expr::Muldiv(Box::new((expr(&words[1]), expr(&words[2]), expr(&words[3])))),
        "front" => Expr::Front(Box::new((expr(&words[1]), expr(&words[2]))), index(&words[3])),
        "add" => two(Op::Add),
        "sub" => two(Op::Sub),
        "mul" => two(Op::Mul),
        "div" => two(Op::Div),
        "mod" => two(Op::Mod),
        "eq" => two(Op::Eq),
        "ne" => two(Op::Ne),
        "lt" => two(Op::Lt),
        "le" => two(Op::Le),
        "and" => two(Op::And),
        "or" => two(Op::Or),
        "cat" => two(Op::Cat),
        other => panic!("{other}"),
    }
}

/// A run, on the rows that it finds.
struct Running<'a, F> {
    request: &'a Request,
    tables: &'a Tables,
    may: F,
    registers: Vec<Value>,
    item: &'a [i64],
    gives: Vec<Value>,
    accesses: u32,
    reads: Vec<Key>,
    writes: Writes,
}

/// Runs a request. It stops before an access that it may not make, and names its key.
pub fn run<F: Fn(&Key, bool) -> bool>(procs: &Procs, tables: &Tables, request: &Request, may: F) -> Result<Run, Key> {
    let proc = &procs.procs[request.call.proc];
    let mut running = Running {
        request,
        tables,
        may,
        registers: vec![Value::Int(0); proc.registers],
        item: &[],
        gives: Vec::new(),
        accesses: 0,
        reads: Vec::new(),
        writes: Writes::new(),
    };
    let end = match running.block(&proc.body) {
        Ok(()) => End::Done(running.gives),
        Err(Stop::Back(code)) => End::Back(code),
        Err(Stop::Trap(trap)) => End::Trap(trap),
        Err(Stop::Moved(key)) => return Err(*key),
    };
    if !matches!(end, End::Done(_)) {
        running.writes.clear();
    }
    Ok(Run { reads: running.reads, writes: running.writes, end })
}

/// Runs a request that may touch all keys.
pub fn run_freely(procs: &Procs, tables: &Tables, request: &Request) -> Run {
    run(procs, tables, request, |_, _| true).unwrap_or_else(|_| unreachable!())
}

fn floor_div(x: i128, y: i128) -> Result<i64, Trap> {
    if y == 0 {
        return Err(Trap::Zero);
    }
    let quotient = x / y;
    let down = i128::from(x % y != 0 && (x < 0) != (y < 0));
    i64::try_from(quotient - down).map_err(|_| Trap::Overflow)
}

fn ints(op: Op, x: i64, y: i64) -> Result<i64, Trap> {
    match op {
        Op::Add => x.checked_add(y).ok_or(Trap::Overflow),
        Op::Sub => x.checked_sub(y).ok_or(Trap::Overflow),
        Op::Mul => x.checked_mul(y).ok_or(Trap::Overflow),
        Op::Div => floor_div(x.into(), y.into()),
        Op::Mod if y == 0 => Err(Trap::Zero),
        Op::Mod => {
            let rest = x.wrapping_rem(y);
            Ok(if rest != 0 && (rest < 0) != (y < 0) { rest + y } else { rest })
        }
        Op::Eq => Ok((x == y).into()),
        Op::Ne => Ok((x != y).into()),
        Op::Lt => Ok((x < y).into()),
        Op::Le => Ok((x <= y).into()),
        Op::And => Ok((x != 0 && y != 0).into()),
        Op::Or => Ok((x != 0 || y != 0).into()),
        Op::Cat => unreachable!(),
    }
}

fn texts(op: Op, x: &str, y: &str) -> Result<Value, Trap> {
    match op {
        Op::Eq => Ok(Value::Int((x == y).into())),
        Op::Ne => Ok(Value::Int((x != y).into())),
        Op::Cat if x.len() + y.len() > 500 => Err(Trap::Long),
        _ => Ok(Value::Text([x, y].concat().into())),
    }
}

impl<'a, F: Fn(&Key, bool) -> bool> Running<'a, F> {
    fn block(&mut self, block: &[Stmt]) -> Result<(), Stop> {
        block.iter().try_for_each(|stmt| self.stmt(stmt))
    }

    fn stmt(&mut self, stmt: &Stmt) -> Result<(), Stop> {
        match stmt {
            Stmt::Let(register, expr) => self.registers[*register] = self.eval(expr)?,
            Stmt::Read(table, key, registers, miss) => self.read(*table, key, registers, miss)?,
            Stmt::Put(table, key, columns) => {
                let key = self.key(*table, key)?;
                let row = self.evals(columns)?;
                self.write(key, Some(row))?;
            }
            Stmt::Del(table, key) => {
                let key = self.key(*table, key)?;
                self.write(key, None)?;
            }
            Stmt::If(test, yes, no) => {
                let block = if self.int(test)? != 0 { yes } else { no };
                self.block(block)?;
            }
            Stmt::Each(list, block) => {
                let request = self.request;
                for item in self.list(&request.call, *list) {
                    self.item = item;
                    self.block(block)?;
                }
            }
            Stmt::Give(expr) => {
                let value = self.eval(expr)?;
                if self.gives.len() == 256 {
                    return Err(Stop::Trap(Trap::Many));
                }
                self.gives.push(value);
            }
            Stmt::Fail(code) => return Err(Stop::Back(*code)),
        }
        Ok(())
    }

    fn list(&self, call: &'a Call, place: usize) -> &'a [Vec<i64>] {
        if let Arg::List(list) = &call.args[place] { list } else { panic!("a list is wanted") }
    }

    fn key(&self, table: u16, parts: &[Expr]) -> Result<Key, Stop> {
        let parts = match parts {
            [one] => Parts::One([self.eval(one)?]),
            [one, two] => Parts::Two([self.eval(one)?, self.eval(two)?]),
            more => Parts::More(self.evals(more)?.into()),
        };
        Ok(Key { table, parts })
    }

    /// Counts an access of this key.
    fn access(&mut self, key: &Key, is_write: bool) -> Result<(), Stop> {
        if self.accesses == 256 {
            return Err(Stop::Trap(Trap::Many));
        }
        if !(self.may)(key, is_write) {
            return Err(Stop::Moved(Box::new(key.clone())));
        }
        self.accesses += 1;
        Ok(())
    }

    fn write(&mut self, key: Key, row: Option<Row>) -> Result<(), Stop> {
        self.access(&key, true)?;
        match self.writes.iter_mut().find(|write| write.0 == key) {
            Some(write) => write.1 = row,
            None => self.writes.push((key, row)),
        }
        Ok(())
    }

    fn read(&mut self, table: u16, key: &[Expr], registers: &[usize], miss: &Miss) -> Result<(), Stop> {
        let key = self.key(table, key)?;
        self.access(&key, false)?;
        let (row, is_own) = match self.writes.iter().find(|write| write.0 == key) {
            Some(write) => (write.1.as_ref(), true),
            None => (self.tables.get(&key), false),
        };
        if !is_own {
            self.reads.push(key);
        }
        let Some(row) = row else {
            return Err(match miss {
                Miss::Absent => Stop::Trap(Trap::Absent),
                Miss::Back(code) => Stop::Back(*code),
            });
        };
        for (register, value) in registers.iter().zip(row) {
            self.registers[*register] = value.clone();
        }
        Ok(())
    }

    fn evals(&self, exprs: &[Expr]) -> Result<Vec<Value>, Stop> {
        let mut values = Vec::with_capacity(exprs.len());
        for expr in exprs {
            values.push(self.eval(expr)?);
        }
        Ok(values)
    }

    fn int(&self, expr: &Expr) -> Result<i64, Stop> {
        match self.eval(expr)? {
            Value::Int(number) => Ok(number),
            Value::Text(_) => panic!("a number is wanted"),
        }
    }

    fn text(&self, expr: &Expr) -> Result<Box<str>, Stop> {
        match self.eval(expr)? {
            Value::Text(text) => Ok(text),
            Value::Int(_) => panic!("a text is wanted"),
        }
    }

    fn eval(&self, expr: &Expr) -> Result<Value, Stop> {
        let number = match expr {
            Expr::Int(number) => *number,
            Expr::Text(text) => return Ok(Value::Text(text.clone())),
            Expr::Reg(register) => return Ok(self.registers[*register].clone()),
            Expr::Arg(place) => match &self.request.call.args[*place] {
                Arg::One(value) => return Ok(value.clone()),
                Arg::List(_) => panic!("a list is no value"),
            },
            Expr::Item(place) => self.item[*place],
            Expr::Len(place) => self.list(&self.request.call, *place).len() as i64,
            Expr::Me => self.request.q as i64,
            Expr::Not(x) => (self.int(x)? == 0).into(),
            Expr::Show(x) => return Ok(Value::Text(self.int(x)?.to_string().into())),
            Expr::Two(op, operands) => return self.two(*op, &operands.0, &operands.1),
            Expr::Muldiv(operands) => {
                let (x, y, z) = (self.int(&operands.0)?, self.int(&operands.1)?, self.int(&operands.2)?);
                floor_div(i128::from(x) * i128::from(y), z.into()).map_err(Stop::Trap)?
            }
            Expr::Front(operands, most) => {
                let whole = [self.text(&operands.0)?, self.text(&operands.1)?].concat();
                return Ok(Value::Text(whole[..whole.len().min(*most)].into()));
            }
        };
        Ok(Value::Int(number))
    }

    fn two(&self, op: Op, x: &Expr, y: &Expr) -> Result<Value, Stop> {
        match (self.eval(x)?, self.eval(y)?) {
            (Value::Int(x), Value::Int(y)) => ints(op, x, y).map(Value::Int).map_err(Stop::Trap),
            (Value::Text(x), Value::Text(y)) => texts(op, &x, &y).map_err(Stop::Trap),
            _ => panic!("two values of one kind are wanted"),
        }
    }
}

//! Does in plain Rust what test_run_cases does for each case of standard input, and prints the same lines. Tables are taken to pass the checks
//! and runs to have no edits; 13 and 14 are checked, the table's checks and 15 are not.
use std::hint::black_box;
use std::io::{self, BufWriter, Read, Write};

const ROOM: usize = 262_144;
const HEAD: usize = 7;
const FILL: u32 = 7;
pub const ARRAYS: usize = 16;
const CALLERS: usize = 8;

// The table, decoded

#[derive(Clone, Copy)]
pub enum Node {
    Variable(usize),
    Uint(u32),
    Bool(bool),
    Cell(usize),
    Add(usize, usize),
    Subtract(usize, usize),
    Less(usize, usize),
    LessOrEqual(usize, usize),
    Equal(usize, usize),
    If(usize, usize, usize),
    Valid(usize),
    Choice(usize),
}

#[derive(Clone, Copy)]
pub enum Row {
    Skip,
    Assign(usize, usize),
    Write(usize, usize),
    Assert(usize),
    Assume(usize),
    New { variable: usize, length: usize, reduced: bool },
    Loop { iterator: usize, start: usize, end: usize, classes: bool, close: usize },
    Close,
    Call { from: usize, to: usize, argument: usize, result: usize },
    Return { from: usize, node: usize },
    /// Where main or a procedure ends: a 43, or past the last row.
    End { from: usize },
}

/// Main, the first of the parts, or a procedure: its first row, and its locals.
#[derive(Clone, Copy)]
pub struct Part {
    start: usize,
    first: usize,
    count: usize,
}

#[derive(Clone, Copy, PartialEq)]
pub enum Type {
    Bool,
    Uint,
    Pointer,
}

pub struct Declaration {
    pub sort: Type,
    marked: bool,
}

pub struct Table {
    pub variables: Vec<Declaration>,
    pub nodes: Vec<Node>,
    pub rows: Vec<Row>,
    parts: Vec<Part>,
    pub main_end: usize,
}

fn node(&[kind, a, b, c]: &[u32; 4]) -> Node {
    let (x, y, z) = (a as usize, b as usize, c as usize);
    match kind {
        16 => Node::Variable(x),
        17 => Node::Uint(a),
        18 => Node::Bool(a == 1),
        19 | 28 => Node::Cell(x),
        20 => Node::Add(x, y),
        21 => Node::Subtract(x, y),
        22 => Node::Less(x, y),
        23 => Node::LessOrEqual(x, y),
        24 => Node::Equal(x, y),
        25 => Node::If(x, y, z),
        26 | 29 => Node::Valid(x),
        _ => Node::Choice(x),
    }
}

fn row(&[kind, a, b, c]: &[u32; 4], close: usize, from: usize) -> Row {
    let (x, y, z) = (a as usize, b as usize, c as usize);
    match kind {
        32 => Row::Skip,
        33 => Row::Assign(x, y),
        34 | 40 => Row::Write(x, y),
        35 => Row::Assert(x),
        36 => Row::Assume(x),
        37 | 41 => Row::New { variable: x, length: y, reduced: kind == 41 },
        38 | 42 => Row::Loop { iterator: x, start: y, end: z, classes: kind == 42, close },
        43 => Row::End { from },
        44 => Row::Return { from, node: x },
        45 => Row::Call { from, to: 1 + x, argument: y, result: z },
        _ => Row::Close,
    }
}

/// The row that closes each row's loop; the row itself where it opens none.
fn closes(rows: &[[u32; 4]]) -> Vec<usize> {
    let mut closes: Vec<usize> = (0..rows.len()).collect();
    let mut open = Vec::new();
    for (r, line) in rows.iter().enumerate() {
        match line[0] {
            38 | 42 => open.push(r),
            39 => closes[open.pop().expect("an open loop")] = r,
            _ => {}
        }
    }
    closes
}

/// Main and the procedures, and of each row, with the one past the last, to which of them it belongs.
fn parts(rows: &[[u32; 4]]) -> (Vec<Part>, Vec<usize>) {
    let mut parts = vec![Part { start: 0, first: 0, count: 0 }];
    let mut homes = Vec::with_capacity(rows.len() + 1);
    for (r, &[kind, a, b, _]) in rows.iter().enumerate() {
        homes.push(parts.len() - 1);
        if kind == 43 {
            parts.push(Part { start: r + 1, first: a as usize, count: b as usize });
        }
    }
    homes.push(parts.len() - 1);
    (parts, homes)
}

pub fn decode(words: &[u32]) -> Table {
    let (lines, _) = words.as_chunks::<4>();
    let (variables, lines) = lines.split_at(lines.iter().take_while(|l| l[0] <= 3).count());
    let (nodes, rows) = lines.split_at(lines.iter().take_while(|l| l[0] <= 29).count());
    let sort = |kind| match kind {
        1 => Type::Bool,
        2 => Type::Uint,
        _ => Type::Pointer,
    };
    let (parts, homes) = parts(rows);
    let last = Row::End { from: homes[rows.len()] };
    let decoded = rows.iter().zip(closes(rows)).zip(homes).map(|((line, close), from)| row(line, close, from));
    Table {
        variables: variables.iter().map(|l| Declaration { sort: sort(l[0]), marked: l[1] == 1 }).collect(),
        nodes: nodes.iter().map(node).collect(),
        rows: decoded.chain([last]).collect(),
        main_end: parts.get(1).map_or(rows.len(), |procedure| procedure.start - 1),
        parts,
    }
}

// The machine

// Why a row failed.
#[derive(Clone, Copy)]
pub enum Reason {
    SumTooLarge,
    BelowZero,
    WithoutArray,
    PastLength,
    CounterTooLarge,
}

#[derive(Clone, Copy)]
pub enum End {
    Done,
    Assert,
    Assume,
    Fail(Reason),
    Room,
    Steps,
    BadChoice,
    NoChoice,
    Deep,
}

impl End {
    pub fn name(self) -> &'static str {
        match self {
            End::Done => "done",
            End::Assert => "assert",
            End::Assume => "assume",
            End::Fail(Reason::SumTooLarge) => "fail reason 1",
            End::Fail(Reason::BelowZero) => "fail reason 2",
            End::Fail(Reason::WithoutArray) => "fail reason 3",
            End::Fail(Reason::PastLength) => "fail reason 4",
            End::Fail(Reason::CounterTooLarge) => "fail reason 5",
            End::Room => "room",
            End::Steps => "steps",
            End::BadChoice => "badchoice",
            End::NoChoice => "nochoice",
            End::Deep => "deep",
        }
    }
}

#[derive(Clone, Copy)]
pub struct Open {
    pub row: usize,
    pub start: u32,
    pub end: u32,
}

#[derive(Clone, Copy)]
pub struct Array {
    pub first: usize,
    pub length: u32,
    pub cells: usize,
    pub reduced: bool,
}

#[derive(Clone, Copy)]
pub struct Pointer {
    pub base: u32,
    pub place: u32,
}

#[derive(Clone)]
struct Caller {
    row: usize,
    around: usize,
    locals: [u32; 4],
}

/// The open loops of the callers stand below those of what is at work, which begin at `around`; so do each caller's.
#[derive(Clone)]
pub struct Record {
    pub row: usize,
    pub loops: Vec<Open>,
    around: usize,
    pub numbers: [u32; 32],
    pub bases: [u32; 32],
    pub arrays: Vec<Array>,
    callers: Vec<Caller>,
}

impl Record {
    /// Puts the caller aside and starts a procedure with a number: whether there is room for the caller.
    pub fn call(&mut self, table: &Table, from: usize, to: usize, v: u32) -> bool {
        if self.callers.len() == CALLERS {
            return false;
        }
        let Part { first, count, .. } = table.parts[from];
        let own = &mut self.numbers[first..first + count];
        let mut locals = [0; 4];
        locals[..count].copy_from_slice(own);
        own.fill(0);
        self.callers.push(Caller { row: self.row, around: self.around, locals });
        self.around = self.loops.len();
        let Part { start, first, .. } = table.parts[to];
        self.numbers[first] = v;
        self.row = start;
        true
    }

    /// Returns a number to the last caller.
    pub fn give_back(&mut self, table: &Table, from: usize, v: u32) {
        let Part { first, count, .. } = table.parts[from];
        self.numbers[first..first + count].fill(0);
        let Caller { row, around, locals } = self.callers.pop().expect("a caller");
        self.loops.truncate(self.around);
        self.around = around;
        let Row::Call { from, result, .. } = table.rows[row] else { unreachable!() };
        let Part { first, count, .. } = table.parts[from];
        self.numbers[first..first + count].copy_from_slice(&locals[..count]);
        self.numbers[result] = v;
        self.row = row + 1;
    }

    /// Of each caller, the one in main first, its row, its locals, how many loops are open, and these.
    fn caller_words(&self, table: &Table) -> Vec<u32> {
        let mut words = vec![self.callers.len() as u32];
        for (d, caller) in self.callers.iter().enumerate() {
            let end = self.callers.get(d + 1).map_or(self.around, |next| next.around);
            let Row::Call { from, .. } = table.rows[caller.row] else { unreachable!() };
            words.push(caller.row as u32);
            words.extend(&caller.locals[..table.parts[from].count]);
            words.extend(loop_words(&self.loops[caller.around..end]));
        }
        words
    }
}

/// How many loops are open, and of each its row, start and end.
fn loop_words(loops: &[Open]) -> Vec<u32> {
    let mut words = vec![loops.len() as u32];
    words.extend(loops.iter().flat_map(|open| [open.row as u32, open.start, open.end]));
    words
}

#[derive(Clone, Copy)]
pub struct Pair {
    pub c1: u32,
    pub c2: u32,
}

impl Pair {
    fn class(self, v: u32) -> u32 {
        (v >= self.c1) as u32 + (v > self.c1) as u32 + (v >= self.c2) as u32 + (v > self.c2) as u32
    }

    pub fn tracks(self, v: u32) -> bool {
        v == self.c1 || v == self.c2
    }
}

pub struct Machine<'a> {
    pub table: &'a Table,
    pub pair: Pair,
    pub record: &'a mut Record,
    pub cells: &'a mut [u32],
    pub list: &'a [u32],
    pub used: usize,
}

impl Machine<'_> {
    fn choice(&mut self) -> Result<u32, End> {
        let v = *self.list.get(self.used).ok_or(End::NoChoice)?;
        self.used += 1;
        Ok(v)
    }

    fn choice_in(&mut self, class: u32) -> Result<u32, End> {
        let v = self.choice()?;
        if self.pair.class(v) == class { Ok(v) } else { Err(End::BadChoice) }
    }

    fn array(&self, p: Pointer) -> Option<Array> {
        self.record.arrays.get((p.base as usize).wrapping_sub(1)).copied()
    }

    fn cell(&mut self, p: Pointer) -> Result<u32, End> {
        let array = self.array(p).ok_or(End::Fail(Reason::WithoutArray))?;
        if p.place >= array.length {
            return Err(End::Fail(Reason::PastLength));
        }
        if !array.reduced {
            Ok(self.cells[array.first + p.place as usize])
        } else if self.pair.tracks(p.place) {
            Ok(self.cells[array.first + self.pair.class(p.place) as usize])
        } else {
            self.choice()
        }
    }

    /// A node that is a constant or a variable is answered in the place of the call.
    #[inline(always)]
    fn uint(&mut self, n: usize) -> Result<u32, End> {
        match self.table.nodes[n] {
            Node::Variable(v) => Ok(self.record.numbers[v]),
            Node::Uint(v) => Ok(v),
            _ => self.deep_uint(n),
        }
    }

    #[inline(always)]
    fn pointer(&mut self, n: usize) -> Result<Pointer, End> {
        match self.table.nodes[n] {
            Node::Variable(v) => Ok(Pointer { base: self.record.bases[v], place: self.record.numbers[v] }),
            _ => self.deep_pointer(n),
        }
    }

    fn deep_uint(&mut self, n: usize) -> Result<u32, End> {
        match self.table.nodes[n] {
            Node::Variable(v) => Ok(self.record.numbers[v]),
            Node::Uint(v) => Ok(v),
            Node::Cell(p) => {
                let p = self.pointer(p)?;
                self.cell(p)
            }
            Node::Add(a, b) => self.uint(a)?.checked_add(self.uint(b)?).ok_or(End::Fail(Reason::SumTooLarge)),
            Node::Subtract(a, b) => self.uint(a)?.checked_sub(self.uint(b)?).ok_or(End::Fail(Reason::BelowZero)),
            Node::If(a, b, c) => {
                if self.bool(a)? { self.uint(b) } else { self.uint(c) }
            }
            Node::Choice(v) => self.choice_in(self.record.numbers[v]),
            _ => unreachable!(),
        }
    }

    fn bool(&mut self, n: usize) -> Result<bool, End> {
        match self.table.nodes[n] {
            Node::Variable(v) => Ok(self.record.numbers[v] == 1),
            Node::Bool(v) => Ok(v),
            Node::Less(a, b) => Ok(self.uint(a)? < self.uint(b)?),
            Node::LessOrEqual(a, b) => Ok(self.uint(a)? <= self.uint(b)?),
            Node::Equal(a, b) => Ok(self.uint(a)? == self.uint(b)?),
            Node::If(a, b, c) => {
                if self.bool(a)? { self.bool(b) } else { self.bool(c) }
            }
            Node::Valid(p) => {
                let p = self.pointer(p)?;
                Ok(self.array(p).is_some_and(|array| p.place < array.length))
            }
            _ => unreachable!(),
        }
    }

    fn deep_pointer(&mut self, n: usize) -> Result<Pointer, End> {
        match self.table.nodes[n] {
            Node::Variable(v) => Ok(Pointer { base: self.record.bases[v], place: self.record.numbers[v] }),
            Node::Add(a, b) => {
                let Pointer { base, place } = self.pointer(a)?;
                let place = place.checked_add(self.uint(b)?).ok_or(End::Fail(Reason::SumTooLarge))?;
                Ok(Pointer { base, place })
            }
            Node::Subtract(a, b) => {
                let Pointer { base, place } = self.pointer(a)?;
                let place = place.checked_sub(self.uint(b)?).ok_or(End::Fail(Reason::BelowZero))?;
                Ok(Pointer { base, place })
            }
            Node::If(a, b, c) => {
                if self.bool(a)? { self.pointer(b) } else { self.pointer(c) }
            }
            _ => unreachable!(),
        }
    }

    fn assign(&mut self, variable: usize, n: usize) -> Result<(), End> {
        match self.table.variables[variable].sort {
            Type::Bool => self.record.numbers[variable] = self.bool(n)? as u32,
            Type::Uint => self.record.numbers[variable] = self.uint(n)?,
            Type::Pointer => {
                let Pointer { base, place } = self.pointer(n)?;
                self.record.bases[variable] = base;
                self.record.numbers[variable] = place;
            }
        }
        Ok(())
    }

    fn write(&mut self, p: usize, v: usize) -> Result<(), End> {
        let p = self.pointer(p)?;
        let v = self.uint(v)?;
        let array = self.array(p).ok_or(End::Fail(Reason::WithoutArray))?;
        if p.place >= array.length {
            return Err(End::Fail(Reason::PastLength));
        }
        if !array.reduced {
            self.cells[array.first + p.place as usize] = v;
        } else if self.pair.tracks(p.place) {
            self.cells[array.first + self.pair.class(p.place) as usize] = v;
        }
        Ok(())
    }

    fn new_array(&mut self, variable: usize, length: usize, reduced: bool) -> Result<(), End> {
        let length = self.uint(length)?;
        let first = self.record.arrays.last().map_or(0, |array| array.first + array.cells);
        let cells = if reduced { self.pair.class(length) } else { length } as usize;
        if self.record.arrays.len() == ARRAYS || self.cells.len() - first < cells {
            return Err(End::Room);
        }
        self.cells[first..first + cells].fill(0);
        self.record.arrays.push(Array { first, length, cells, reduced });
        self.record.bases[variable] = self.record.arrays.len() as u32;
        self.record.numbers[variable] = 0;
        Ok(())
    }

    /// Tests a loop at a start and an end, which choices replace where it is reduced, and sets its iterator.
    fn tested(&mut self, iterator: usize, start: u32, end: u32, classes: bool) -> Result<(u32, u32), End> {
        if !classes {
            self.record.numbers[iterator] = start;
            return Ok((start, end));
        }
        let start = self.choice_in(self.pair.class(start))?;
        let end = self.choice_in(self.pair.class(end))?;
        self.record.numbers[iterator] = self.pair.class(start);
        Ok((start, end))
    }

    fn close(&mut self) -> Result<(), End> {
        let Open { row, start, end } = *self.record.loops.last().expect("an open loop");
        let Row::Loop { iterator, classes, .. } = self.table.rows[row] else { unreachable!() };
        let start = start.checked_add(1).ok_or(End::Fail(Reason::CounterTooLarge))?;
        let (start, end) = self.tested(iterator, start, end, classes)?;
        if start <= end {
            *self.record.loops.last_mut().expect("an open loop") = Open { row, start, end };
            self.record.row = row + 1;
        } else {
            self.record.loops.pop();
            self.record.row += 1;
        }
        Ok(())
    }

    /// One row; an end leaves record and cells as they were.
    fn step(&mut self) -> Result<(), End> {
        match self.table.rows[self.record.row] {
            Row::Skip => {}
            Row::Assign(variable, n) => self.assign(variable, n)?,
            Row::Write(p, v) => self.write(p, v)?,
            Row::Assert(n) => {
                if !self.bool(n)? {
                    return Err(End::Assert);
                }
            }
            Row::Assume(n) => {
                if !self.bool(n)? {
                    return Err(End::Assume);
                }
            }
            Row::New { variable, length, reduced } => self.new_array(variable, length, reduced)?,
            Row::Loop { iterator, start, end, classes, close } => {
                let start = self.uint(start)?;
                let end = self.uint(end)?;
                let (start, end) = self.tested(iterator, start, end, classes)?;
                if start <= end {
                    self.record.loops.push(Open { row: self.record.row, start, end });
                } else {
                    self.record.row = close;
                }
            }
            Row::Close => return self.close(),
            Row::Call { from, to, argument, .. } => {
                let v = self.uint(argument)?;
                return if self.record.call(self.table, from, to, v) { Ok(()) } else { Err(End::Deep) };
            }
            Row::Return { from, node } => {
                let v = self.uint(node)?;
                self.record.give_back(self.table, from, v);
                return Ok(());
            }
            Row::End { from } => {
                self.record.give_back(self.table, from, 0);
                return Ok(());
            }
        }
        self.record.row += 1;
        Ok(())
    }

    /// A row of a procedure is past main's end.
    pub fn run(&mut self, limit: u32) -> (End, u32) {
        let mut steps = 0;
        while self.record.row != self.table.main_end {
            if steps == limit {
                return (End::Steps, steps);
            }
            let used = self.used;
            if let Err(end) = self.step() {
                if let End::BadChoice | End::NoChoice = end {
                    self.used = used;
                    return (end, steps);
                }
                return (end, steps + 1);
            }
            steps += 1;
        }
        (End::Done, steps)
    }
}

pub fn fresh(table: &Table, reduced: bool, pair: Pair) -> Record {
    let mut numbers = [0; 32];
    for (n, v) in numbers.iter_mut().zip(&table.variables) {
        if reduced && v.marked && v.sort == Type::Uint {
            *n = pair.class(0);
        }
    }
    let (loops, arrays, callers) = (Vec::with_capacity(8), Vec::with_capacity(ARRAYS), Vec::with_capacity(CALLERS));
    Record { row: 0, loops, around: 0, numbers, bases: [0; 32], arrays, callers }
}

// The cases

fn mix(h: u32, w: u32) -> u32 {
    h.wrapping_mul(31).wrapping_add(w)
}

fn record_check(table: &Table, record: &Record) -> u32 {
    let mut words = vec![record.row as u32];
    words.extend(loop_words(&record.loops[record.around..]));
    for (i, v) in table.variables.iter().enumerate() {
        words.push(record.numbers[i]);
        if v.sort == Type::Pointer {
            words.push(record.bases[i]);
        }
    }
    words.push(record.arrays.len() as u32);
    for array in &record.arrays {
        words.extend([array.first as u32, array.length, array.reduced as u32]);
    }
    words.extend(record.caller_words(table));
    words.into_iter().fold(0, mix)
}

fn refusal(reduced: bool, pair: Pair, lent: usize) -> Option<u32> {
    if reduced && pair.c1 >= pair.c2 {
        Some(13)
    } else if lent != if reduced { 4128 } else { 4096 } {
        Some(14)
    } else {
        None
    }
}

fn run_case(words: &[u32], output: &mut impl Write) -> io::Result<()> {
    let (head, rest) = words.split_at(HEAD);
    let &[machine, c1, c2, lent, table, list, times] = head else { unreachable!() };
    let (reduced, pair) = (machine == 1, Pair { c1, c2 });
    let (table_words, rest) = rest.split_at(table as usize);
    let (mut list, runs) = rest.split_at(list as usize);
    let mut cells = vec![FILL; lent as usize];
    let refused = refusal(reduced, pair, cells.len());
    let mut record = None;
    for run in runs.chunks_exact(2) {
        assert!(run[1] == 0, "a run with edits");
        if let Some(number) = refused {
            write!(output, "refused {number} line 0")?;
        } else {
            let first = record.is_none();
            let mut ran = (End::Done, 0, 0);
            for _ in 0..if first { times.max(1) } else { 1 } {
                let table = decode(black_box(table_words));
                if first {
                    cells.fill(0);
                    record = Some(fresh(&table, reduced, pair));
                }
                let record = record.as_mut().expect("a record");
                let mut machine = Machine { table: &table, pair, record, cells: &mut cells, list, used: 0 };
                let (end, steps) = black_box(machine.run(run[0]));
                ran = (end, steps, machine.used);
            }
            let (end, steps, used) = ran;
            list = &list[used..];
            let record = record.as_ref().expect("a record");
            let check = record_check(&decode(table_words), record);
            write!(output, "{} row {} steps {steps} choices {used} record {check}", end.name(), record.row)?;
        }
        writeln!(output, " cells {}", cells.iter().copied().fold(0, mix))?;
    }
    Ok(())
}

fn main() -> io::Result<()> {
    let mut input = io::stdin().lock();
    let mut output = BufWriter::new(io::stdout().lock());
    let mut length = [0; 4];
    while input.read_exact(&mut length).is_ok() {
        let n = u32::from_le_bytes(length) as usize;
        let mut case = vec![0; n];
        if n > ROOM || input.read_exact(&mut case).is_err() {
            break;
        }
        let words: Vec<u32> = case.chunks_exact(4).map(|w| u32::from_le_bytes(w.try_into().unwrap())).collect();
        run_case(&words, &mut output)?;
    }
    output.flush()
}

//! Does in plain Rust what test_checked_files does for each case of standard input, and prints the same lines.
use std::io::{self, BufWriter, Read, Write};

const ROOM: usize = 22_541;
const BLOCK: usize = 512;
const BLOCK_LINES: usize = 31;
const FILE_BYTES: usize = 22_016;
pub const TABLE_WORDS: usize = 5_248;
const TABLE_LINES: u64 = 1_312;

pub struct Refusal {
    pub number: u32,
    pub place: usize,
}

pub fn refuse<T>(number: u32, place: usize) -> Result<T, Refusal> {
    Err(Refusal { number, place })
}

// The file

pub fn word(bytes: &[u8], i: usize) -> u32 {
    u32::from_le_bytes(bytes[4 * i..4 * i + 4].try_into().unwrap())
}

fn sum(words: &[u8]) -> u32 {
    words.chunks_exact(4).fold(0, |s, w| s.wrapping_add(word(w, 0)))
}

/// Checks 1 to 3; fills the words and gives the number of lines.
pub fn read_file(bytes: &[u8], words: &mut [u32; TABLE_WORDS]) -> Result<usize, Refusal> {
    if bytes.len() % BLOCK != 0 || bytes.len() > FILE_BYTES {
        return refuse(1, 0);
    }
    let blocks = bytes.chunks_exact(BLOCK);
    if let Some(k) = blocks.clone().position(|b| sum(&b[..508]) != word(b, 127)) {
        return refuse(2, k);
    }
    let total: u64 = blocks.clone().map(|b| word(b, 125) as u64).sum();
    for (k, b) in blocks.clone().enumerate() {
        let count = word(b, 125) as usize;
        let last = k + 1 == blocks.len();
        if word(b, 124) as usize != k
            || !(1..=BLOCK_LINES).contains(&count)
            || !last && count != BLOCK_LINES
            || word(b, 126) as u64 != total
            || total > TABLE_LINES
            || b[16 * count..496].iter().any(|&x| x != 0)
        {
            return refuse(3, k);
        }
    }
    let lines = total as usize;
    let from = blocks.flat_map(|b| b[..496].chunks_exact(4));
    for (to, w) in words[..4 * lines].iter_mut().zip(from) {
        *to = word(w, 0);
    }
    words[4 * lines..].fill(0);
    Ok(lines)
}

/// Checks the table, fills the bytes and gives their number.
fn write_file(words: &[u32], out: &mut [u8; FILE_BYTES]) -> Result<usize, Refusal> {
    check_table(words, false)?;
    let lines = words.len() / 4;
    let mut end = 0;
    for (k, part) in words.chunks(4 * BLOCK_LINES).enumerate() {
        let block = &mut out[end..end + BLOCK];
        block.fill(0);
        for (to, w) in block.chunks_exact_mut(4).zip(part) {
            to.copy_from_slice(&w.to_le_bytes());
        }
        block[496..500].copy_from_slice(&(k as u32).to_le_bytes());
        block[500..504].copy_from_slice(&(part.len() as u32 / 4).to_le_bytes());
        block[504..508].copy_from_slice(&(lines as u32).to_le_bytes());
        let check = sum(&block[..508]);
        block[508..].copy_from_slice(&check.to_le_bytes());
        end += BLOCK;
    }
    out[end..].fill(0);
    Ok(end)
}

// The table

type Line = [u32; 4];

#[derive(Clone, Copy, PartialEq, PartialOrd)]
enum Sort {
    Declaration,
    Node,
    Row,
}

#[derive(Clone, Copy, PartialEq)]
enum Type {
    Bool,
    Uint,
    Pointer,
}

fn sort_of(kind: u32, reduced: bool) -> Option<Sort> {
    match kind {
        1..=3 => Some(Sort::Declaration),
        19 | 26 | 34 if reduced => None,
        16..=26 => Some(Sort::Node),
        27..=29 if reduced => Some(Sort::Node),
        32..=39 | 43..=45 => Some(Sort::Row),
        40..=42 if reduced => Some(Sort::Row),
        _ => None,
    }
}

/// Check 7 of a line.
fn suits(&[kind, a, b, c]: &Line) -> bool {
    match kind {
        1 | 32 | 39 => a == 0 && b == 0 && c == 0,
        2 | 3 | 18 => a <= 1 && b == 0 && c == 0,
        16 | 17 | 19 | 26..=29 | 35 | 36 | 44 => b == 0 && c == 0,
        20..=24 | 33 | 34 | 37 | 40 | 41 | 43 => c == 0,
        _ => true,
    }
}

/// Check 8 of a line that may use so many variables and nodes.
fn there(&[kind, a, b, c]: &Line, variables: usize, nodes: usize) -> bool {
    let variable = |x: u32| (x as usize) < variables;
    let node = |x: u32| (x as usize) < nodes;
    match kind {
        16 | 27 => variable(a),
        19 | 26 | 28 | 29 | 35 | 36 | 44 => node(a),
        20..=24 | 34 | 40 => node(a) && node(b),
        25 => node(a) && node(b) && node(c),
        33 | 37 | 41 => variable(a) && node(b),
        38 | 42 => variable(a) && node(b) && node(c),
        43 => b == 0 || a as u64 + b as u64 <= variables as u64,
        45 => node(b) && variable(c),
        _ => true,
    }
}

/// The type of a declaration's variable.
fn declared(&[kind, ..]: &Line) -> Type {
    match kind {
        1 => Type::Bool,
        2 => Type::Uint,
        _ => Type::Pointer,
    }
}

/// The type of a node, unless it breaks check 9.
fn node_type(&[kind, a, b, c]: &Line, variables: &[Line], types: &[Type]) -> Option<Type> {
    use Type::*;
    let of = |x: u32| types[x as usize];
    match kind {
        16 | 27 => Some(declared(&variables[a as usize])),
        17 => Some(Uint),
        18 => Some(Bool),
        19 | 28 if of(a) == Pointer => Some(Uint),
        20 | 21 if of(a) != Bool && of(b) == Uint => Some(of(a)),
        22..=24 if of(a) == Uint && of(b) == Uint => Some(Bool),
        25 if of(a) == Bool && of(b) == of(c) => Some(of(b)),
        26 | 29 if of(a) == Pointer => Some(Bool),
        _ => None,
    }
}

/// Check 9 of a row.
fn row_typed(&[kind, a, b, c]: &Line, variables: &[Line], types: &[Type]) -> bool {
    use Type::*;
    let of = |x: u32| types[x as usize];
    let variable = |x: u32| declared(&variables[x as usize]);
    match kind {
        33 => variable(a) == of(b),
        34 | 40 => of(a) == Pointer && of(b) == Uint,
        35 | 36 => of(a) == Bool,
        37 | 41 => variable(a) == Pointer && of(b) == Uint,
        38 | 42 => variable(a) == Uint && of(b) == Uint && of(c) == Uint,
        43 => (a..a.saturating_add(b)).all(|v| variable(v) == Uint),
        44 => of(a) == Uint,
        45 => of(b) == Uint && variable(c) == Uint,
        _ => true,
    }
}

fn node_depth(&[kind, a, b, c]: &Line, depths: &[u32]) -> u32 {
    let of = |x: u32| depths[x as usize];
    match kind {
        19 | 26 | 28 | 29 => 1 + of(a),
        20..=24 => 1 + of(a).max(of(b)),
        25 => 1 + of(a).max(of(b)).max(of(c)),
        _ => 1,
    }
}

/// The first row that breaks check 11.
fn first_unnested(rows: &[Line]) -> Option<usize> {
    let mut open = Vec::new();
    let mut wrong = None;
    for (i, row) in rows.iter().enumerate() {
        match row[0] {
            38 | 42 => {
                if open.len() >= 8 {
                    wrong.get_or_insert(i);
                }
                open.push(i);
            }
            39 if open.pop().is_none() => {
                wrong.get_or_insert(i);
            }
            _ => {}
        }
    }
    wrong.into_iter().chain(open.first().copied()).min()
}

fn marked(variables: &[Line], kind: u32, i: u32) -> bool {
    let [k, mark, ..] = variables[i as usize];
    k == kind && mark == 1
}

/// Whether a line breaks check 12.
fn wrong_mark(&[kind, a, ..]: &Line, variables: &[Line], reduced: bool) -> bool {
    match kind {
        33 => marked(variables, 2, a),
        16 | 38 => reduced && marked(variables, 2, a),
        27 | 42 => !marked(variables, 2, a),
        37 => reduced && marked(variables, 3, a),
        41 => !marked(variables, 3, a),
        _ => false,
    }
}

/// The first row that breaks check 16, the loops being closed; a 43 begins anew.
fn first_shared(rows: &[Line]) -> Option<usize> {
    let mut iterators = Vec::new();
    rows.iter().position(|&[kind, a, ..]| {
        match kind {
            38 | 42 if iterators.contains(&a) => return true,
            38 | 42 => iterators.push(a),
            39 => {
                iterators.pop();
            }
            43 => iterators.clear(),
            _ => {}
        }
        false
    })
}

/// Variables, a bit for each: those from a on, so many.
fn stretch(a: u32, b: u32) -> u32 {
    if b == 0 { 0 } else { (u32::MAX >> (32 - b)) << a }
}

/// The variables that each node reads, itself or in a node under it.
fn reads(nodes: &[Line]) -> Vec<u32> {
    let mut found: Vec<u32> = Vec::with_capacity(nodes.len());
    for &[kind, a, b, c] in nodes {
        let of = |x: u32| found[x as usize];
        found.push(match kind {
            16 | 27 => 1 << a,
            19 | 26 | 28 | 29 => of(a),
            20..=24 => of(a) | of(b),
            25 => of(a) | of(b) | of(c),
            _ => 0,
        });
    }
    found
}

/// The variables that a row uses.
fn uses(&[kind, a, b, c]: &Line, reads: &[u32]) -> u32 {
    let of = |x: u32| reads[x as usize];
    match kind {
        33 | 37 | 41 => 1 << a | of(b),
        34 | 40 => of(a) | of(b),
        35 | 36 | 44 => of(a),
        38 | 42 => 1 << a | of(b) | of(c),
        45 => of(b) | 1 << c,
        _ => 0,
    }
}

/// The first row that breaks check 17.
fn first_misplaced(variables: &[Line], nodes: &[Line], rows: &[Line]) -> Option<usize> {
    // the locals of each procedure, and of all
    let (mut owned, mut all) = (Vec::new(), 0);
    for &[_, a, b, _] in rows.iter().filter(|row| row[0] == 43) {
        owned.push(stretch(a, b) & !all);
        all |= stretch(a, b);
    }
    let marks = variables.iter().rev().fold(0, |bits, v| bits << 1 | u32::from(v[1] == 1));
    let reads = reads(nodes);
    let (mut opened, mut own, mut loops) = (0, 0, 0);
    rows.iter().position(|row| {
        let &[kind, a, b, c] = row;
        match kind {
            43 => {
                own = owned[opened];
                opened += 1;
                let listed = stretch(a, b);
                return opened > 16 || loops > 0 || !(1..=4).contains(&b) || listed & marks != 0 || listed != own;
            }
            38 | 42 => loops += 1,
            39 => loops -= 1,
            44 if opened == 0 => return true,
            45 if a as usize >= owned.len() || marks >> c & 1 == 1 => return true,
            _ => {}
        }
        uses(row, &reads) & all & !own != 0
    })
}

/// Checks 4 to 12, 16 and 17.
fn check_table(words: &[u32], reduced: bool) -> Result<(), Refusal> {
    let (lines, rest) = words.as_chunks::<4>();
    if !rest.is_empty() {
        return refuse(4, 0);
    }
    let mut counts = [0; 3];
    let mut highest = Sort::Declaration;
    for (i, line) in lines.iter().enumerate() {
        match sort_of(line[0], reduced) {
            Some(sort) if sort >= highest => {
                highest = sort;
                counts[sort as usize] += 1;
            }
            _ => return refuse(5, i),
        }
    }
    let [declarations, nodes, rows] = counts;
    let first_row = declarations + nodes;
    if declarations > 32 {
        return refuse(6, 32);
    }
    if nodes > 1024 {
        return refuse(6, declarations + 1024);
    }
    if rows > 256 {
        return refuse(6, first_row + 256);
    }
    if let Some(i) = lines.iter().position(|line| !suits(line)) {
        return refuse(7, i);
    }
    for (i, line) in lines.iter().enumerate().skip(declarations) {
        if !there(line, declarations, nodes.min(i - declarations)) {
            return refuse(8, i);
        }
    }
    let (variables, lines) = lines.split_at(declarations);
    let (nodes, rows) = lines.split_at(nodes);
    let mut types = Vec::with_capacity(nodes.len());
    for (i, node) in nodes.iter().enumerate() {
        match node_type(node, variables, &types) {
            Some(t) => types.push(t),
            None => return refuse(9, declarations + i),
        }
    }
    if let Some(i) = rows.iter().position(|row| !row_typed(row, variables, &types)) {
        return refuse(9, first_row + i);
    }
    let mut depths = Vec::with_capacity(nodes.len());
    for (i, node) in nodes.iter().enumerate() {
        let depth = node_depth(node, &depths);
        if depth > 12 {
            return refuse(10, declarations + i);
        }
        depths.push(depth);
    }
    if let Some(i) = first_unnested(rows) {
        return refuse(11, first_row + i);
    }
    if let Some(i) = lines.iter().position(|line| wrong_mark(line, variables, reduced)) {
        return refuse(12, declarations + i);
    }
    if let Some(i) = first_shared(rows) {
        return refuse(16, first_row + i);
    }
    if let Some(i) = first_misplaced(variables, nodes, rows) {
        return refuse(17, first_row + i);
    }
    Ok(())
}

// The reduction

/// Checks the table and the pair, and fills the lent words.
pub fn reduce_table(words: &[u32], c1: u32, c2: u32, lent: &mut [u32]) -> Result<(), Refusal> {
    check_table(words, false)?;
    if c1 >= c2 {
        return refuse(13, 0);
    }
    if lent.len() != words.len() {
        return refuse(14, 0);
    }
    let (lines, _) = words.as_chunks::<4>();
    let (out, _) = lent.as_chunks_mut::<4>();
    for (to, &[kind, a, b, c]) in out.iter_mut().zip(lines) {
        let reduced = match kind {
            16 if marked(lines, 2, a) => 27,
            19 => 28,
            26 => 29,
            34 => 40,
            37 if marked(lines, 3, a) => 41,
            38 if marked(lines, 2, a) => 42,
            _ => kind,
        };
        *to = [reduced, a, b, c];
    }
    Ok(())
}

// The cases

/// The number of lines and whether the table is written as the file it was read from.
fn run(case: &[u8]) -> Result<(usize, bool), Refusal> {
    if case.len() < 12 {
        return refuse(1, 0);
    }
    let (pair, file) = case.split_at(12);
    let mut words = [0; TABLE_WORDS];
    let lines = read_file(file, &mut words)?;
    let words = &words[..4 * lines];
    let mut lent = [0; TABLE_WORDS];
    let lent = &mut lent[..4 * lines];
    reduce_table(words, word(pair, 0), word(pair, 1), lent)?;
    check_table(lent, true)?;
    let mut out = [0; FILE_BYTES];
    let n = write_file(words, &mut out)?;
    Ok((lines, out[..n] == *file))
}

fn main() -> io::Result<()> {
    let mut input = io::stdin().lock();
    let mut output = BufWriter::new(io::stdout().lock());
    for _ in 0..1000 {
        let mut length = [0; 4];
        if input.read_exact(&mut length).is_err() {
            break;
        }
        let n = u32::from_le_bytes(length) as usize;
        let mut case = [0; ROOM];
        if n > ROOM || input.read_exact(&mut case[..n]).is_err() {
            break;
        }
        match run(&case[..n]) {
            Ok((lines, true)) => writeln!(output, "passes {lines}")?,
            Ok(_) => writeln!(output, "differs")?,
            Err(Refusal { number, place }) => writeln!(output, "refused {number} line {place}")?,
        }
    }
    output.flush()
}

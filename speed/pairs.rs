//! Does in plain Rust what pairrun does, and prints the same lines: the file, the checks and the reduction of files.rs, both machines of
//! machines.rs, and the choice writer.
use std::io::{self, Read, Write};

#[allow(dead_code)]
mod files;
#[allow(dead_code)]
mod machines;

use files::{Refusal, TABLE_WORDS, read_file, reduce_table, refuse, word};
use machines::{ARRAYS, Array, End, Machine, Node, Open, Pair, Pointer, Record, Row, Table, Type, decode, fresh};

const INPUT: usize = 22_029; // a byte more than the longest input that is not refused for its length
const LIST: usize = 8_192;
const PLAIN_CELLS: usize = 4_096;
const REDUCED_CELLS: usize = 4_128;

// The choice writer

/// Why the writer stops at a row: the row ends the run, and its numbers count; or they do not all fit, and the row is not taken.
enum Stop {
    Ended,
    Full,
}

/// A plain run over a reduced table, which says where the reduced run takes a choice: the true number is written there. The record holds
/// numbers, not classes, and all cells of an array, also where it is marked as reduced.
struct Writer<'a> {
    table: &'a Table,
    pair: Pair,
    record: Record,
    cells: [u32; PLAIN_CELLS],
    list: Vec<u32>,
}

impl Writer<'_> {
    fn written(&mut self, v: u32) -> Result<u32, Stop> {
        if self.list.len() == LIST {
            return Err(Stop::Full);
        }
        self.list.push(v);
        Ok(v)
    }

    fn array(&self, p: Pointer) -> Option<Array> {
        self.record.arrays.get((p.base as usize).wrapping_sub(1)).copied()
    }

    fn cell(&mut self, p: Pointer) -> Result<u32, Stop> {
        let array = self.array(p).filter(|array| p.place < array.length).ok_or(Stop::Ended)?;
        let v = self.cells[array.first + p.place as usize];
        if array.reduced && !self.pair.tracks(p.place) { self.written(v) } else { Ok(v) }
    }

    /// A node that is a constant or a variable is answered in the place of the call.
    #[inline(always)]
    fn uint(&mut self, n: usize) -> Result<u32, Stop> {
        match self.table.nodes[n] {
            Node::Variable(v) => Ok(self.record.numbers[v]),
            Node::Uint(v) => Ok(v),
            _ => self.deep_uint(n),
        }
    }

    #[inline(always)]
    fn pointer(&mut self, n: usize) -> Result<Pointer, Stop> {
        match self.table.nodes[n] {
            Node::Variable(v) => Ok(Pointer { base: self.record.bases[v], place: self.record.numbers[v] }),
            _ => self.deep_pointer(n),
        }
    }

    fn deep_uint(&mut self, n: usize) -> Result<u32, Stop> {
        match self.table.nodes[n] {
            Node::Variable(v) => Ok(self.record.numbers[v]),
            Node::Uint(v) => Ok(v),
            Node::Cell(p) => {
                let p = self.pointer(p)?;
                self.cell(p)
            }
            Node::Add(a, b) => self.uint(a)?.checked_add(self.uint(b)?).ok_or(Stop::Ended),
            Node::Subtract(a, b) => self.uint(a)?.checked_sub(self.uint(b)?).ok_or(Stop::Ended),
            Node::If(a, b, c) => {
                if self.bool(a)? { self.uint(b) } else { self.uint(c) }
            }
            Node::Choice(v) => self.written(self.record.numbers[v]),
            _ => unreachable!(),
        }
    }

    fn bool(&mut self, n: usize) -> Result<bool, Stop> {
        match self.table.nodes[n] {
            Node::Variable(v) => Ok(self.record.numbers[v] == 1),
            Node::Bool(v) => Ok(v),
            Node::Less(a, b) => Ok(self.uint(a)? < self.uint(b)?),
            Node::LessOrEqual(a, b) => Ok(self.uint(a)? <= self.uint(b)?),
            Node::Equal(a, b) => Ok(self.uint(a)? == self.uint(b)?),
            Node::If(a, b, c) => {
                if self.bool(a)? { self.bool(b) } else { self.bool(c) }
            }
            Node::Valid(p) => {
                let p = self.pointer(p)?;
                Ok(self.array(p).is_some_and(|array| p.place < array.length))
            }
            _ => unreachable!(),
        }
    }

    fn deep_pointer(&mut self, n: usize) -> Result<Pointer, Stop> {
        match self.table.nodes[n] {
            Node::Variable(v) => Ok(Pointer { base: self.record.bases[v], place: self.record.numbers[v] }),
            Node::Add(a, b) => {
                let Pointer { base, place } = self.pointer(a)?;
                let place = place.checked_add(self.uint(b)?).ok_or(Stop::Ended)?;
                Ok(Pointer { base, place })
            }
            Node::Subtract(a, b) => {
                let Pointer { base, place } = self.pointer(a)?;
                let place = place.checked_sub(self.uint(b)?).ok_or(Stop::Ended)?;
                Ok(Pointer { base, place })
            }
            Node::If(a, b, c) => {
                if self.bool(a)? { self.pointer(b) } else { self.pointer(c) }
            }
            _ => unreachable!(),
        }
    }

    fn assign(&mut self, variable: usize, n: usize) -> Result<(), Stop> {
        match self.table.variables[variable].sort {
            Type::Bool => self.record.numbers[variable] = self.bool(n)? as u32,
            Type::Uint => self.record.numbers[variable] = self.uint(n)?,
            Type::Pointer => {
                let Pointer { base, place } = self.pointer(n)?;
                self.record.bases[variable] = base;
                self.record.numbers[variable] = place;
            }
        }
        Ok(())
    }

    fn write(&mut self, p: usize, v: usize) -> Result<(), Stop> {
        let p = self.pointer(p)?;
        let v = self.uint(v)?;
        let array = self.array(p).ok_or(Stop::Ended)?;
        if p.place >= array.length {
            return Err(Stop::Ended);
        }
        self.cells[array.first + p.place as usize] = v;
        Ok(())
    }

    fn new_array(&mut self, variable: usize, length: usize, reduced: bool) -> Result<(), Stop> {
        let length = self.uint(length)?;
        let first = self.record.arrays.last().map_or(0, |array| array.first + array.cells);
        let cells = length as usize;
        if self.record.arrays.len() == ARRAYS || self.cells.len() - first < cells {
            return Err(Stop::Ended);
        }
        self.cells[first..first + cells].fill(0);
        self.record.arrays.push(Array { first, length, cells, reduced });
        self.record.bases[variable] = self.record.arrays.len() as u32;
        self.record.numbers[variable] = 0;
        Ok(())
    }

    /// Sets the iterator of a loop, whose start and end are written where the loop is reduced.
    fn tested(&mut self, iterator: usize, start: u32, end: u32, classes: bool) -> Result<(), Stop> {
        if classes {
            self.written(start)?;
            self.written(end)?;
        }
        self.record.numbers[iterator] = start;
        Ok(())
    }

    fn close(&mut self) -> Result<(), Stop> {
        let Open { row, start, end } = *self.record.loops.last().expect("an open loop");
        let Row::Loop { iterator, classes, .. } = self.table.rows[row] else { unreachable!() };
        let start = start.checked_add(1).ok_or(Stop::Ended)?;
        self.tested(iterator, start, end, classes)?;
        if start <= end {
            self.record.loops.last_mut().expect("an open loop").start = start;
            self.record.row = row + 1;
        } else {
            self.record.loops.pop();
            self.record.row += 1;
        }
        Ok(())
    }

    fn step(&mut self) -> Result<(), Stop> {
        match self.table.rows[self.record.row] {
            Row::Skip => {}
            Row::Assign(variable, n) => self.assign(variable, n)?,
            Row::Write(p, v) => self.write(p, v)?,
            Row::Assert(n) | Row::Assume(n) => {
                if !self.bool(n)? {
                    return Err(Stop::Ended);
                }
            }
            Row::New { variable, length, reduced } => self.new_array(variable, length, reduced)?,
            Row::Loop { iterator, start, end, classes, close } => {
                let start = self.uint(start)?;
                let end = self.uint(end)?;
                self.tested(iterator, start, end, classes)?;
                if start <= end {
                    self.record.loops.push(Open { row: self.record.row, start, end });
                } else {
                    self.record.row = close;
                }
            }
            Row::Close => return self.close(),
            Row::Call { from, to, argument, .. } => {
                let v = self.uint(argument)?;
                return if self.record.call(self.table, from, to, v) { Ok(()) } else { Err(Stop::Ended) };
            }
            Row::Return { from, node } => {
                let v = self.uint(node)?;
                self.record.give_back(self.table, from, v);
                return Ok(());
            }
            Row::End { from } => {
                self.record.give_back(self.table, from, 0);
                return Ok(());
            }
        }
        self.record.row += 1;
        Ok(())
    }

    /// The choices, and the plain run's line where the writer came to the end of the rows or to the limit.
    fn run(mut self, limit: u32) -> (Vec<u32>, Option<Line>) {
        let mut steps = 0;
        let mut end = End::Done;
        while self.record.row != self.table.main_end {
            if steps == limit {
                end = End::Steps;
                break;
            }
            let kept = self.list.len();
            match self.step() {
                Ok(()) => steps += 1,
                Err(Stop::Ended) => return (self.list, None),
                Err(Stop::Full) => {
                    self.list.truncate(kept);
                    return (self.list, None);
                }
            }
        }
        (self.list, Some(Line { end, row: self.record.row, steps, used: 0 }))
    }
}

/// The choices of a fresh run, for a reduced table, and its line.
fn write_choices(table: &Table, pair: Pair, limit: u32) -> (Vec<u32>, Option<Line>) {
    let record = fresh(table, false, pair);
    Writer { table, pair, record, cells: [0; PLAIN_CELLS], list: Vec::with_capacity(LIST) }.run(limit)
}

// Both runs

struct Line {
    end: End,
    row: usize,
    steps: u32,
    used: usize,
}

/// A fresh run, reduced where there is a list.
fn line(table: &Table, pair: Pair, cells: &mut [u32], list: Option<&[u32]>, limit: u32) -> Line {
    let mut record = fresh(table, list.is_some(), pair);
    let mut machine = Machine { table, pair, record: &mut record, cells, list: list.unwrap_or(&[]), used: 0 };
    let (end, steps) = machine.run(limit);
    Line { end, row: machine.record.row, steps, used: machine.used }
}

/// The plain run, and the reduced one under the written choices.
fn pair_run(input: &[u8]) -> Result<(Line, Line), Refusal> {
    if input.len() < 12 {
        return refuse(1, 0);
    }
    let (head, file) = input.split_at(12);
    let (c1, c2, limit) = (word(head, 0), word(head, 1), word(head, 2));
    let mut words = [0; TABLE_WORDS];
    let end = 4 * read_file(file, &mut words)?;
    let mut reduced = [0; TABLE_WORDS];
    reduce_table(&words[..end], c1, c2, &mut reduced[..end])?;
    let (table, reduced, pair) = (decode(&words[..end]), decode(&reduced[..end]), Pair { c1, c2 });
    let (list, plain) = write_choices(&reduced, pair, limit);
    let plain = plain.unwrap_or_else(|| line(&table, pair, &mut [0; PLAIN_CELLS], None, limit));
    Ok((plain, line(&reduced, pair, &mut [0; REDUCED_CELLS], Some(&list), limit)))
}

fn main() -> io::Result<()> {
    let mut input = Vec::with_capacity(INPUT);
    io::stdin().lock().take(INPUT as u64).read_to_end(&mut input)?;
    let output = match pair_run(&input) {
        Ok((plain, pair)) => format!(
            "plain {} row {} steps {}\npair {} row {} steps {} choices {}\n",
            plain.end.name(),
            plain.row,
            plain.steps,
            pair.end.name(),
            pair.row,
            pair.steps,
            pair.used
        ),
        Err(Refusal { number, place }) => format!("refused {number} line {place}\n"),
    };
    io::stdout().lock().write_all(output.as_bytes())
}

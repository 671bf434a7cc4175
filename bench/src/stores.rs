//! A record store in plain Rust, with a `Vec` of cells for each record, and the same work on it as
//! the program `store_bench` does on the proved stores: the measure that they are held to.

use std::hint::black_box;
use std::time::Instant;

#[allow(dead_code)]
#[derive(Clone, Copy)]
enum Value {
    Null,
    Int(i32),
    Float(f64),
    Boolean(bool),
    Record(u16),
    Text(u16),
}

struct Record {
    class: u16,
    cells: Vec<Value>,
}

struct Store {
    records: Vec<Record>,
    records_left: usize,
    cells_left: usize,
}

impl Store {
    const RECORDS: usize = 1000;
    const CELLS: usize = 2000;

    fn new() -> Store {
        Store {
            records: Vec::with_capacity(Self::RECORDS),
            records_left: Self::RECORDS,
            cells_left: Self::CELLS,
        }
    }

    fn clear(&mut self) {
        self.records.clear();
        self.records_left = Self::RECORDS;
        self.cells_left = Self::CELLS;
    }

    fn create(&mut self, class: u16, cells: usize) -> Option<u16> {
        if self.records_left == 0 || self.cells_left < cells {
            return None;
        }
        self.records.push(Record {
            class,
            cells: vec![Value::Null; cells],
        });
        self.records_left -= 1;
        self.cells_left -= cells;
        Some(self.records.len() as u16)
    }

    fn read(&self, record: u16, cell: usize) -> Option<Value> {
        let index = (record as usize).checked_sub(1)?;
        self.records.get(index)?.cells.get(cell).copied()
    }

    fn write(&mut self, record: u16, cell: usize, value: Value) -> bool {
        let Some(index) = (record as usize).checked_sub(1) else {
            return false;
        };
        match self.records.get_mut(index).and_then(|r| r.cells.get_mut(cell)) {
            Some(place) => {
                *place = value;
                true
            }
            None => false,
        }
    }
}

fn fill(store: &mut Store) -> u32 {
    store.clear();
    (0..1000u16)
        .filter(|n| store.create(n % 32, 2 + (n % 8) as usize).is_some())
        .count() as u32
}

fn write_all(store: &mut Store) -> u32 {
    let mut done = 0;
    for n in 0..360u16 {
        for cell in 0..2 + (n % 8) as usize {
            if store.write(n + 1, cell, Value::Record(n)) {
                done += 1;
            }
        }
    }
    done
}

fn read_all(store: &Store) -> u32 {
    let mut sum = 0u32;
    for n in 0..360u16 {
        for cell in 0..2 + (n % 8) as usize {
            if let Some(Value::Record(r)) = store.read(n + 1, cell) {
                sum = sum.wrapping_add(r as u32);
            }
        }
    }
    sum
}

fn main() {
    let rounds: u32 = std::env::args().nth(1).and_then(|w| w.parse().ok()).unwrap_or(1);
    let mut store = Store::new();
    let mut total = 0u32;
    let start = Instant::now();
    for _ in 0..rounds {
        total = total.wrapping_add(fill(black_box(&mut store)));
    }
    let filled = start.elapsed().as_nanos();
    let start = Instant::now();
    for _ in 0..rounds {
        total = total.wrapping_add(write_all(black_box(&mut store)));
    }
    let written = start.elapsed().as_nanos();
    let start = Instant::now();
    for _ in 0..rounds {
        total = total.wrapping_add(read_all(black_box(&store)));
    }
    let read = start.elapsed().as_nanos();
    let classes: u32 = store.records.iter().map(|r| r.class as u32).sum();
    black_box(classes);
    println!("plain {total}");
    eprintln!("plain fill {filled} write {written} read {read}");
}

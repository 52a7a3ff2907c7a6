// Times the leaves of ol_value (linked as libvalue_bench.a) beside the same operations in Rust. Run by bench/values.
use std::time::Instant;

extern "C" {
    fn ol_value_decode(cells: *const u8, length: usize) -> u64;
    fn ol_value_encode(cells: *mut u8, length: usize) -> u64;
    fn ol_value_add(cells: *const u8, length: usize) -> u64;
    fn ol_value_fit(cells: *const u8, length: usize) -> u64;
    fn ol_value_cast(cells: *const u8, length: usize) -> u64;
}

#[derive(Clone, Copy)]
enum Value {
    Bool(bool),
    Int(i64),
    Float(f64),
    Float32(f32),
    Enum(u16),
}

fn read(cells: &[u8], at: usize) -> Value {
    let p = u64::from_be_bytes(cells[at + 1..at + 9].try_into().unwrap());
    match cells[at] {
        0 => Value::Bool(p == 1),
        1 => Value::Int(p as i64),
        2 => Value::Float(f64::from_bits(p)),
        3 => Value::Float32(f32::from_bits(p as u32)),
        _ => Value::Enum(p as u16),
    }
}

fn tag(v: Value) -> u8 {
    match v {
        Value::Bool(_) => 0,
        Value::Int(_) => 1,
        Value::Float(_) => 2,
        Value::Float32(_) => 3,
        Value::Enum(_) => 4,
    }
}

fn payload(v: Value) -> u64 {
    match v {
        Value::Bool(b) => b as u64,
        Value::Int(i) => i as u64,
        Value::Float(x) => if x.is_nan() { 0x7ff8_0000_0000_0000 } else { x.to_bits() },
        Value::Float32(x) => if x.is_nan() { 0x7fc0_0000 } else { x.to_bits() as u64 },
        Value::Enum(v) => v as u64,
    }
}

fn write(v: Value, cells: &mut [u8], at: usize) {
    cells[at] = tag(v);
    cells[at + 1..at + 9].copy_from_slice(&payload(v).to_be_bytes());
}

// a value, or 1 for a failure of any cause and 2 for an overflow
fn add(v: Value, w: Value) -> Result<Value, u64> {
    match (v, w) {
        (Value::Int(a), Value::Int(b)) => a.checked_add(b).map(Value::Int).ok_or(2),
        (Value::Float(a), Value::Float(b)) => Ok(Value::Float(a + b)),
        (Value::Float32(a), Value::Float32(b)) => Ok(Value::Float32(a + b)),
        (Value::Float(a), Value::Float32(b)) => Ok(Value::Float(a + b as f64)),
        (Value::Float32(a), Value::Float(b)) => Ok(Value::Float(a as f64 + b)),
        _ => Err(1),
    }
}

fn fit16(v: Value) -> Value {
    match v {
        Value::Int(i) => Value::Int(i as i16 as i64),
        v => v,
    }
}

fn cast32(v: Value) -> Result<Value, u64> {
    match v {
        Value::Int(i) => Ok(Value::Int(i as i32 as i64)),
        Value::Float(x) => Ok(Value::Int(x as i64 as i32 as i64)),
        Value::Float32(x) => Ok(Value::Int(x as i64 as i32 as i64)),
        _ => Err(1),
    }
}

fn out(r: Result<Value, u64>) -> u64 {
    r.map_or_else(|e| e, payload)
}

// One operation on a cell, ours and the Rust's. Neither is inlined: both are timed with a call.
fn ours(op: usize, cell: &mut [u8]) -> u64 {
    let (p, n) = (cell.as_mut_ptr(), cell.len());
    unsafe {
        match op {
            0 => ol_value_decode(p, n),
            1 => ol_value_encode(p, n),
            2 => ol_value_add(p, n),
            3 => ol_value_fit(p, n),
            _ => ol_value_cast(p, n),
        }
    }
}

#[inline(never)]
fn rust(op: usize, cell: &mut [u8]) -> u64 {
    let v = read(cell, 0);
    match op {
        0 => payload(v),
        1 => {
            write(v, cell, 0);
            1
        }
        2 => out(add(v, v)),
        3 => payload(fit16(v)),
        _ => out(cast32(v)),
    }
}

// Nanoseconds per operation over eight cells in turn, and what the results come to together.
fn timed(cells: &mut [u8], turns: u64, run: impl Fn(&mut [u8]) -> u64) -> (f64, u64) {
    let t = Instant::now();
    let sum = (0..turns).fold(0u64, |sum, i| {
        let at = (i % 8) as usize * 9;
        sum.rotate_left(1) ^ run(&mut cells[at..at + 9])
    });
    (t.elapsed().as_nanos() as f64 / turns as f64, sum)
}

fn main() {
    let turns: u64 = std::env::args().nth(1).and_then(|a| a.parse().ok()).unwrap_or(20_000_000);
    let mut cells = [0u8; 72];
    let values = [Value::Int(40_000), Value::Float(1.5e9), Value::Float32(-2.25), Value::Int(-7), Value::Bool(true), Value::Enum(9), Value::Int(i64::MAX), Value::Float(-0.0)];
    for (k, v) in values.iter().enumerate() {
        write(*v, &mut cells, k * 9);
    }
    println!("{:<8} {:>10} {:>10}   nanoseconds per operation, {} turns", "", "ol_value", "Rust", turns);
    for (op, name) in ["decode", "encode", "add", "fit", "cast"].iter().enumerate() {
        let (mine, a) = timed(&mut cells, turns, |c| ours(op, c));
        let (theirs, b) = timed(&mut cells, turns, |c| rust(op, c));
        println!("{:<8} {:>10.2} {:>10.2}   {}", name, mine, theirs, if a == b { "same results" } else { "RESULTS DIFFER" });
        assert_eq!(a, b);
    }
}

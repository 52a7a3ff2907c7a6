// Times a cycle of the unchanged Rust (`Sim::step_full`, built with overflow checks), of ours (libol_sim_c.a) and, where bench/c has them, of the same equations written in C,
// on the same files, in one process on one thread: lines NAME HEX INPUTS on standard input. Run by bench/run.
use std::collections::BTreeMap;
use std::hint::black_box;
use std::io::BufRead;
use std::time::{Duration, Instant};

use driver::bridge::{node_name, to_cells, var_name};
use driver::file::File;
use driver::{bridge, cell, file, hex};
use ol_sim::{Sim, Value};

#[path = "../include/ol_sim.rs"]
mod ffi;
use ffi::{ol_sim_admit, ol_sim_cycle, ol_sim_lengths, ol_sim_start};

extern "C" {
    fn ol_read_bench(file: *const u8, file_len: usize) -> u64;
    fn c_counter(inputs: *const u8, inputs_len: usize, values: *mut u8, values_len: usize) -> u8;
    fn c_feeder30(inputs: *const u8, inputs_len: usize, values: *mut u8, values_len: usize) -> u8;
}

// The equations of a bench file in C (bench/c), which keep their own state.
type InC = unsafe extern "C" fn(*const u8, usize, *mut u8, usize) -> u8;

fn in_c(name: &str) -> Option<InC> {
    match name {
        "counter" => Some(c_counter),
        "feeder30" => Some(c_feeder30),
        _ => None,
    }
}

// Each time is that of the fastest of so many batches, each of about so long.
const BATCHES: usize = 400;
const BATCH: Duration = Duration::from_millis(1);
const COMPARED: usize = 200;

// What our side is lent.
struct Ours {
    file: Vec<u8>,
    inputs: Vec<u8>,
    old: Vec<u8>,
    new: Vec<u8>,
    values: Vec<u8>,
}

impl Ours {
    fn new(file: &[u8], inputs: &[u8]) -> Ours {
        let (mut place, mut length, mut given, mut values, mut equations) = (0, 0, 0, 0, 0);
        let number = unsafe { ol_sim_lengths(file.as_ptr(), file.len(), 0, &mut place, &mut length, &mut given, &mut values, &mut equations) };
        assert_eq!((number, place, given), (0, 0, inputs.len()), "lengths");
        let mut ours = Ours { file: file.to_vec(), inputs: inputs.to_vec(), old: vec![0; length], new: vec![0; length], values: vec![0; values] };
        let number = unsafe { ol_sim_start(file.as_ptr(), file.len(), ours.old.as_mut_ptr(), length, &mut place) };
        assert_eq!(number, 0, "start");
        ours
    }

    fn read(&self) -> u64 {
        unsafe { ol_read_bench(black_box(self.file.as_ptr()), self.file.len()) }
    }

    fn admit(&self) -> u8 {
        let (mut place, mut length) = (0, 0);
        unsafe { ol_sim_admit(black_box(self.file.as_ptr()), self.file.len(), &mut place, &mut length) }
    }

    // a cycle with values of so many bytes, and the exchange of the states
    fn cycle(&mut self, values: usize) -> u8 {
        let mut place = 0;
        let number = unsafe {
            ol_sim_cycle(
                black_box(self.file.as_ptr()),
                self.file.len(),
                self.old.as_ptr(),
                self.old.len(),
                self.inputs.as_ptr(),
                self.inputs.len(),
                self.new.as_mut_ptr(),
                self.new.len(),
                self.values.as_mut_ptr(),
                values,
                &mut place,
            )
        };
        if number == 0 {
            std::mem::swap(&mut self.old, &mut self.new);
        }
        number
    }

    fn step(&mut self) -> u8 {
        self.cycle(self.values.len())
    }

    // A cycle that ends with 17, after the file, the state and the inputs were judged.
    fn refused(&mut self) -> u8 {
        self.cycle(0)
    }
}

// Nanoseconds of a call, in the fastest batch.
fn timed(call: &mut dyn FnMut()) -> f64 {
    let t = Instant::now();
    call();
    let once = t.elapsed().max(Duration::from_nanos(20));
    let turns = (BATCH.as_nanos() / once.as_nanos()).clamp(1, 1_000_000) as u32;
    let mut least = f64::MAX;
    for _ in 0..BATCHES {
        let t = Instant::now();
        for _ in 0..turns {
            call();
        }
        least = least.min(t.elapsed().as_nanos() as f64 / turns as f64);
    }
    least
}

// The Rust's values of a cycle as cells.
fn cells(f: &File, all: &BTreeMap<String, Value>) -> Vec<u8> {
    let mut values = vec![];
    f.main().vars().for_each(|v| to_cells(v.ty, &all[&var_name(v.name.num)]).iter().for_each(|c| c.push(&mut values)));
    values
}

struct Row {
    name: String,
    bytes: usize,
    rust: f64,
    ours: f64,
    c: Option<f64>,
    // up to the end of reading, of admission, of the checks of state and inputs
    upto: [f64; 3],
}

fn measure(name: &str, bytes: &[u8], inputs: &[u8]) -> Row {
    let f = file::read(bytes).ok().expect("a file that reads");
    let project = bridge::project(&f);
    let main = node_name(f.nodes.len() - 1);
    let mut sim = Sim::new(&project, &main).ok().expect("Sim::new");
    let map = bridge::inputs(f.main(), &cell::read_inputs(inputs, &f).expect("fitting inputs"));
    let mut ours = Ours::new(bytes, inputs);
    let c = in_c(name);
    let mut written = vec![0u8; ours.values.len()];
    for k in 0..COMPARED {
        let wanted = cells(&f, &sim.step_full(&map).ok().expect("step_full"));
        assert_eq!((ours.step(), &ours.values), (0, &wanted), "{name}: cycle {k}");
        if let Some(step) = c {
            let number = unsafe { step(inputs.as_ptr(), inputs.len(), written.as_mut_ptr(), written.len()) };
            assert_eq!((number, &written), (0, &wanted), "{name} in C: cycle {k}");
        }
    }
    assert_eq!(ours.refused(), 17, "{name}: a refused cycle");
    let rust = timed(&mut || {
        let _ = black_box(sim.step_full(&map));
    });
    let cycle = timed(&mut || {
        black_box(ours.step());
    });
    let checked = timed(&mut || {
        black_box(ours.refused());
    });
    let admitted = timed(&mut || {
        black_box(ours.admit());
    });
    let read = timed(&mut || {
        black_box(ours.read());
    });
    assert_eq!(ours.step(), 0);
    let c = c.map(|step| {
        timed(&mut || {
            let inputs = black_box(inputs);
            black_box(unsafe { step(inputs.as_ptr(), inputs.len(), written.as_mut_ptr(), written.len()) });
        })
    });
    Row { name: name.to_string(), bytes: bytes.len(), rust, ours: cycle, c, upto: [read, admitted, checked] }
}

// The measures: counter at most 450 ns, K at most 950; feeder30 at most an eighth, large at most 0.3 of the Rust's time; the eight bays as arrays at most half of the Rust's time and 1.3 times
// the same with calls; with high names at most twice the file with low ones.
fn meets(r: &Row, low: &[Row]) -> &'static str {
    let met = match r.name.as_str() {
        "bays8" => 2.0 * r.ours <= r.rust && low.iter().any(|l| l.name == "bays8-calls" && r.ours <= 1.3 * l.ours),
        "counter" => r.ours <= 450.0,
        "K" => r.ours <= 950.0,
        "feeder30" => 8.0 * r.ours <= r.rust,
        "large" => r.ours <= 0.3 * r.rust,
        high => match low.iter().find(|l| high.strip_suffix("-high") == Some(&l.name)) {
            Some(l) => r.ours <= 2.0 * l.ours,
            None => return "",
        },
    };
    if met {
        "met"
    } else {
        "NOT met"
    }
}

fn main() {
    println!("nanoseconds a cycle, the fastest of {BATCHES} batches");
    println!("| file | bytes | Rust's step_full | in C | ours | Rust / ours | reading | admission | state and inputs | evaluation | measure |");
    println!("|---|---|---|---|---|---|---|---|---|---|---|");
    let mut rows: Vec<Row> = vec![];
    for line in std::io::stdin().lock().lines() {
        let line = line.expect("standard input");
        let w: Vec<&str> = line.split_whitespace().collect();
        let bytes = hex::dec(w[1]).expect("hexadecimal");
        let inputs = if w[2] == "-" { vec![] } else { hex::dec(w[2]).expect("hexadecimal") };
        let r = measure(w[0], &bytes, &inputs);
        let [read, admitted, checked] = r.upto;
        println!(
            "| {} | {} | {:.0} | {} | {:.0} | {:.2} | {:.0} | {:.0} | {:.0} | {:.0} | {} |",
            r.name,
            r.bytes,
            r.rust,
            r.c.map_or("".to_string(), |c| format!("{c:.1}")),
            r.ours,
            r.rust / r.ours,
            read,
            admitted - read,
            checked - admitted,
            r.ours - checked,
            meets(&r, &rows)
        );
        rows.push(r);
    }
}

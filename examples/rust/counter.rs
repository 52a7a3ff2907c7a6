//! The counter of document 01, v1 = 0 -> pre v1 + 1, stepped from Rust over libol_sim_c.a. examples/rust/run builds and runs it.

#[path = "../../include/ol_sim.rs"]
mod ffi;

/// A fault's number, 1 to 21, and its place (include/ol_sim.h).
#[derive(Debug, PartialEq)]
struct Fault {
    number: u8,
    place: usize,
}

impl Fault {
    /// Whether a cycle was begun and stopped; else it was refused.
    fn stopped(&self) -> bool {
        ffi::ol_sim_stopped(self.number)
    }

    /// Why a cycle stopped.
    fn reason(&self) -> &'static str {
        match self.number {
            ffi::OL_SIM_COLD_PRE => "pre in a first cycle",
            ffi::OL_SIM_OVERFLOW => "a 64-bit overflow",
            ffi::OL_SIM_RANGE => "a zero divisor, or a shift count outside 0 to 63",
            ffi::OL_SIM_KIND => "a value of a kind that the operation does not take",
            _ => "not stopped",
        }
    }
}

fn told(number: u8, place: usize) -> Result<(), Fault> {
    if number == 0 {
        Ok(())
    } else {
        Err(Fault { number, place })
    }
}

// Rust's references keep the header's rules: a slice is never null, and what is lent to be written overlaps nothing else.

/// The lengths that an admitted file's buffers need, in bytes, and how many equations a node has.
struct Lengths {
    state: usize,
    inputs: usize,
    values: usize,
    equations: usize,
}

fn lengths(file: &[u8], node: usize) -> Result<Lengths, Fault> {
    let (mut place, mut l) = (0, Lengths { state: 0, inputs: 0, values: 0, equations: 0 });
    let number = unsafe { ffi::ol_sim_lengths(file.as_ptr(), file.len(), node, &mut place, &mut l.state, &mut l.inputs, &mut l.values, &mut l.equations) };
    told(number, place).map(|()| l)
}

fn order(file: &[u8], node: usize, order: &mut [usize]) -> Result<(), Fault> {
    let mut place = 0;
    let number = unsafe { ffi::ol_sim_order(file.as_ptr(), file.len(), node, order.as_mut_ptr(), order.len(), &mut place) };
    told(number, place)
}

fn start(file: &[u8], state: &mut [u8]) -> Result<(), Fault> {
    let mut place = 0;
    let number = unsafe { ffi::ol_sim_start(file.as_ptr(), file.len(), state.as_mut_ptr(), state.len(), &mut place) };
    told(number, place)
}

fn cycle(file: &[u8], old: &[u8], inputs: &[u8], new: &mut [u8], values: &mut [u8]) -> Result<(), Fault> {
    let mut place = 0;
    let number = unsafe {
        ffi::ol_sim_cycle(
            file.as_ptr(),
            file.len(),
            old.as_ptr(),
            old.len(),
            inputs.as_ptr(),
            inputs.len(),
            new.as_mut_ptr(),
            new.len(),
            values.as_mut_ptr(),
            values.len(),
            &mut place,
        )
    };
    told(number, place)
}

/// A program with its state: what an embedding keeps.
struct Relay<'a> {
    file: &'a [u8],
    old: Vec<u8>,
    new: Vec<u8>,
    values: Vec<u8>,
}

impl<'a> Relay<'a> {
    fn new(file: &'a [u8]) -> Result<Self, Fault> {
        let l = lengths(file, 0)?;
        let mut old = vec![0; l.state];
        start(file, &mut old)?;
        Ok(Relay { file, old, new: vec![0; l.state], values: vec![0; l.values] })
    }

    /// Steps once. After an answer and after a stop the new state is the state; after a refusal the old one still is.
    fn step(&mut self, inputs: &[u8]) -> Result<(), Fault> {
        let r = cycle(self.file, &self.old, inputs, &mut self.new, &mut self.values);
        let refused = matches!(&r, Err(f) if !f.stopped());
        if !refused {
            std::mem::swap(&mut self.old, &mut self.new);
        }
        r
    }
}

const COUNTER: [u8; 40] = [
    0x01, 0x00, 0x00, 0x01, 0x01, 0x00, 0x01, 0x00, 0x01, 0x04, 0x00, 0x01, 0x01, 0x00, 0x01, 0x09, 0x01, 0, 0, 0, 0, 0, 0, 0, 0, 0x06, 0x0A, 0x08, 0x04, 0x00, 0x01,
    0x01, 0, 0, 0, 0, 0, 0, 0, 1,
];

/// Right sides, each of which stops the first cycle of a program like the counter: one for each number of a stop.
const STOPS: [(&str, &[u8]); 4] = [
    ("pre v1", &[0x08, 0x04, 0x00, 0x01]),
    ("9223372036854775807 + 1", &[0x06, 0x0A, 0x01, 0x7F, 0xFF, 0xFF, 0xFF, 0xFF, 0xFF, 0xFF, 0xFF, 0x01, 0, 0, 0, 0, 0, 0, 0, 1]),
    ("1 / 0", &[0x06, 0x0D, 0x01, 0, 0, 0, 0, 0, 0, 0, 1, 0x01, 0, 0, 0, 0, 0, 0, 0, 0]),
    ("not 1", &[0x05, 0x00, 0x01, 0, 0, 0, 0, 0, 0, 0, 1]),
];

fn int(cell: &[u8]) -> i64 {
    i64::from_be_bytes(cell[1..9].try_into().unwrap())
}

fn main() -> Result<(), Fault> {
    let l = lengths(&COUNTER, 0)?;
    println!("admitted; bytes of the state {}, of the inputs {}, of the values {}; equations {}", l.state, l.inputs, l.values, l.equations);
    let mut places = vec![0; l.equations];
    order(&COUNTER, 0, &mut places)?;
    println!("order: {}", places[0]);
    let mut relay = Relay::new(&COUNTER)?;
    for k in 0..5 {
        relay.step(&[])?;
        println!("cycle {k}: v1 = {}", int(&relay.values));
    }
    // nine bytes are no state of the counter: refused, and nothing is written
    let old = relay.old.clone();
    let f = cycle(&COUNTER, &old[..9], &[], &mut relay.new, &mut relay.values).unwrap_err();
    println!("a state of 9 bytes: {} at {}; v1 is still {}", f.number, f.place, int(&relay.values));
    let f = lengths(&COUNTER[..39], 0).err().unwrap();
    println!("the file without its last byte: {} at {}", f.number, f.place);
    for (text, right_side) in STOPS {
        let file = [&COUNTER[..15], right_side].concat();
        let f = Relay::new(&file)?.step(&[]).unwrap_err();
        assert!(f.stopped());
        println!("v1 = {text}: {} in equation {}, {}", f.number, f.place, f.reason());
    }
    Ok(())
}

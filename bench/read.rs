// Times the reader of ol_ir beside a plain sum of the same bytes (libread_bench.a), and admission, which reads a file and builds its rows,
// types, slots and record lengths before it answers 8, and the ordering (libol_sim_c.a). Run by bench/read.
use std::hint::black_box;
use std::time::Instant;

#[path = "../include/ol_sim.rs"]
mod ffi;
use ffi::{ol_sim_admit, ol_sim_order};

extern "C" {
    fn ol_read_bench(file: *const u8, length: usize) -> u64;
}

const LENGTH: usize = 32_768;

fn section(items: &[Vec<u8>]) -> Vec<u8> {
    let mut s = vec![items.len() as u8];
    items.iter().for_each(|i| s.extend(i));
    s
}

fn variable(name: u16) -> Vec<u8> {
    [&name.to_be_bytes()[..], &[4]].concat()
}

fn var(name: u16) -> Vec<u8> {
    [&[4][..], &name.to_be_bytes()].concat()
}

fn int(i: i64) -> Vec<u8> {
    [&[1][..], &i.to_be_bytes()].concat()
}

fn form(head: &[u8], parts: &[Vec<u8>]) -> Vec<u8> {
    [head, &parts.concat()].concat()
}

fn equation(name: u16, e: &[u8]) -> Vec<u8> {
    [&[1][..], &name.to_be_bytes(), e].concat()
}

fn node(equations: &[Vec<u8>]) -> Vec<u8> {
    let locals: Vec<_> = (2..62).map(variable).collect();
    [vec![1], section(&[]), section(&[variable(1)]), section(&locals), section(equations)].concat()
}

fn file(nodes: &[Vec<u8>]) -> Vec<u8> {
    [vec![1, 0, 0], section(nodes)].concat()
}

// A file of 32,768 bytes: nodes of so many equations, whose right sides are those of `item` in turn, and a last node of small
// equations, of five and six bytes, that fill what is left.
fn filled(each: usize, item: &dyn Fn(usize) -> Vec<u8>) -> Vec<u8> {
    let mut nodes = vec![vec![]];
    let length = |nodes: &[Vec<Vec<u8>>]| file(&nodes.iter().chain(&[vec![]]).map(|q| node(q)).collect::<Vec<_>>()).len();
    for k in 0.. {
        if nodes[nodes.len() - 1].len() == each {
            nodes.push(vec![]);
        }
        let last = nodes.len() - 1;
        nodes[last].push(equation(1 + (k % 60) as u16, &item(k)));
        if length(&nodes) + 20 > LENGTH {
            nodes[last].pop();
            break;
        }
    }
    let left = LENGTH - length(&nodes);
    let sixes = left % 5;
    nodes.push([vec![equation(1, &var(2)); sixes], vec![equation(1, &[3, 0]); (left - 6 * sixes) / 5]].concat());
    let f = file(&nodes.iter().map(|q| node(q)).collect::<Vec<_>>());
    assert_eq!(f.len(), LENGTH);
    f
}

// A file's name, the equations of each of its nodes, and their right sides.
type Shape<'a> = (&'a str, usize, &'a dyn Fn(usize) -> Vec<u8>);

// Right sides of the three sorts that relays have: counters, conditions and choices of reals.
fn mixed(k: usize) -> Vec<u8> {
    let x = 1 + (k % 60) as u16;
    match k % 3 {
        0 => form(&[9], &[int(k as i64), form(&[7], &[var(2), form(&[6, 10, 8], &[var(x), var(3)]), form(&[6, 17, 8], &[var(x), int(3)])])]),
        1 => form(&[6, 1], &[form(&[6, 0], &[var(2), form(&[6, 6], &[var(x), int(1000)])]), form(&[9, 0, 0, 5, 0, 8], &[var(x)])]),
        _ => form(&[7], &[var(2), form(&[6, 12], &[var(3), form(&[10, 9], &[int(5)])]), form(&[6, 10], &[var(3), form(&[10, 9], &[int(7)])])]),
    }
}

// A Tuple of five Tuples of sixteen Bools: expressions of two bytes.
fn bools(_: usize) -> Vec<u8> {
    form(&[12, 5], &vec![form(&[12, 16], &vec![vec![0, 0]; 16]); 5])
}

// The deepest expression: 23 Nots over a Bool.
fn nots(_: usize) -> Vec<u8> {
    form(&[5, 0].repeat(23), &[vec![0, 1]])
}

// The deepest expression that branches at each level: a sum to the left of a sum.
fn sums(_: usize) -> Vec<u8> {
    [[6, 10].repeat(23), vec![0, 0].repeat(24)].concat()
}

#[inline(never)]
fn byte_sum(file: &[u8]) -> u64 {
    file.iter().map(|b| *b as u64).sum()
}

// the least and the mean of so many runs, in microseconds
fn timed(turns: u64, run: &mut dyn FnMut() -> u64) -> (f64, f64) {
    let mut least = f64::MAX;
    let all = Instant::now();
    for _ in 0..turns {
        let t = Instant::now();
        black_box(run());
        least = least.min(t.elapsed().as_nanos() as f64 / 1000.0);
    }
    (least, all.elapsed().as_nanos() as f64 / 1000.0 / turns as f64)
}

// A file of one node, with a chain of 80 equations: each reads from the next in the file, or from the one before it.
fn chain(against: bool) -> Vec<u8> {
    let reads = |k: u16| if against && k < 80 { var(k + 1) } else if !against && k > 1 { var(k - 1) } else { vec![0, 1] };
    file(&[node(&(1..=80).map(|k| equation(k, &reads(k))).collect::<Vec<_>>())])
}

fn order(f: &[u8], order: &mut [usize]) -> u8 {
    let mut place = 0;
    unsafe { ol_sim_order(black_box(f.as_ptr()), f.len(), 0, order.as_mut_ptr(), order.len(), &mut place) }
}

// Ordering a chain of 80 equations in file order, and one against it.
fn time_chains(turns: u64) {
    println!("microseconds for the order of a chain of 80 equations");
    println!("{:<8} {:>9} {:>9}", "", "ordering", "mean");
    for (name, against) in [("in order", false), ("against", true)] {
        let (f, mut entries) = (chain(against), [0; 80]);
        assert_eq!(order(&f, &mut entries), 0);
        assert!((0..80).all(|k| entries[k] == if against { 79 - k } else { k }));
        let (ours, mean) = timed(turns, &mut || order(&f, &mut entries) as u64);
        println!("{:<8} {:>9.1} {:>9.1}", name, ours, mean);
    }
}

fn admit(f: &[u8]) -> u8 {
    let (mut place, mut size) = (0, 0);
    unsafe { ol_sim_admit(black_box(f.as_ptr()), f.len(), &mut place, &mut size) }
}

// Reading a file and building its rows, types, slots and record lengths; no orders. These files define names again: admission answers 8, and by then has built these tables.
fn time_tables(turns: u64, shapes: &[Shape]) {
    println!("microseconds for {} bytes, with the rows, types, slots and record lengths", LENGTH);
    println!("{:<8} {:>18} {:>9}", "", "reading and tables", "mean");
    for (name, each, item) in shapes {
        let f = filled(*each, item);
        assert_eq!(admit(&f), 8);
        let (ours, mean) = timed(turns, &mut || admit(&f) as u64);
        println!("{:<8} {:>18.1} {:>9.1}", name, ours, mean);
    }
}

fn main() {
    let turns: u64 = std::env::args().nth(1).and_then(|a| a.parse().ok()).unwrap_or(2000);
    println!("microseconds for {} bytes: the least and the mean of {} runs", LENGTH, turns);
    println!("{:<8} {:>9} {:>9}   {:>9} {:>9}", "", "reading", "mean", "byte sum", "mean");
    let shapes: [Shape; 4] = [("mixed", 35, &mixed), ("bools", 80, &bools), ("nots", 80, &nots), ("sums", 80, &sums)];
    for (name, each, item) in shapes {
        let f = filled(each, item);
        let read = || unsafe { ol_read_bench(black_box(f.as_ptr()), f.len()) };
        assert!((1..=32).contains(&read()), "fault {}", read());
        let (ours, mean) = timed(turns, &mut || read());
        let (sum, sum_mean) = timed(turns, &mut || byte_sum(black_box(&f)));
        println!("{:<8} {:>9.1} {:>9.1}   {:>9.1} {:>9.1}", name, ours, mean, sum, sum_mean);
    }
    time_tables(turns, &shapes);
    time_chains(turns);
}

// The judge without chains once more, in plain Rust, for bench/divide.py to measure against: shunted by a flood over the
// sets without windings, else a flood from the poles with each terminal from 0 up taken out. Reads numbers from standard
// input: the count of terminals, how many times to judge, how many pairs are wires, then the ends of each wire and of
// each winding, of which the first is judged. Prints the judgement.
use std::hint::black_box;
use std::io::Read;

const POLES: u64 = 3;

enum Judgement {
    Live,
    Shunted,
    Dead(usize),
}

// Joins the ends of each pair.
fn join(near: &mut [u64; 64], ends: &[usize]) {
    for pair in ends.chunks(2) {
        near[pair[0]] |= 1 << pair[1];
        near[pair[1]] |= 1 << pair[0];
    }
}

// The terminals reached from some, with others taken out.
fn flood(near: &[u64; 64], from: u64, out: u64) -> u64 {
    let mut seen = from & !out;
    let mut waiting = seen;
    while waiting != 0 {
        let next = waiting.trailing_zeros() as usize;
        let fresh = near[next] & !seen & !out;
        waiting = waiting & (waiting - 1) | fresh;
        seen |= fresh;
    }
    seen
}

fn judge(near: &[u64; 64], bare: &[u64; 64], terminals: usize, a: usize, b: usize) -> Judgement {
    if flood(bare, 1 << a, 0) & 1 << b != 0 {
        return Judgement::Shunted;
    }
    for x in 0..terminals {
        if flood(near, POLES, 1 << x) & (1 << a | 1 << b) == 0 {
            return Judgement::Dead(x);
        }
    }
    Judgement::Live
}

fn main() {
    let mut text = String::new();
    std::io::stdin().read_to_string(&mut text).unwrap();
    let numbers: Vec<usize> = text.split_whitespace().map(|word| word.parse().unwrap()).collect();
    let (wires, windings) = numbers[3..].split_at(2 * numbers[2]);
    let mut bare = [0; 64];
    join(&mut bare, wires);
    let mut near = bare;
    join(&mut near, windings);
    let again = || judge(black_box(&near), black_box(&bare), numbers[0], windings[0], windings[1]);
    for _ in 0..numbers[1] {
        black_box(again());
    }
    match again() {
        Judgement::Live => println!("live"),
        Judgement::Shunted => println!("shunted"),
        Judgement::Dead(x) => println!("dead {}", x),
    }
}

// The search of `judge` once more, in plain Rust, for bench/judge.py to measure against: depth first over sorted
// neighbours, marking a terminal on the way in and unmarking it on the way back. Reads numbers from standard input: the
// count of terminals, the winding's ends a and b, the allowance, how many times to search, then the ends of each
// conducting part. Prints the verdict and the effort of each search, a line each.
use std::io::Read;

const MINUS: usize = 1;

#[derive(PartialEq)]
enum Found {
    Live,
    Dead,
    Spent,
}

struct Search {
    near: Vec<Vec<usize>>,
    met: Vec<bool>,
    chain: Vec<usize>,
    a: usize,
    b: usize,
    effort: u32,
    allowance: u32,
}

impl Search {
    // Whether a and b stand side by side in the chain.
    fn shows(&self) -> bool {
        self.chain.windows(2).any(|pair| pair == [self.a, self.b] || pair == [self.b, self.a])
    }

    // Enters a terminal: counts the chain that ends there, and goes on from it.
    fn enter(&mut self, terminal: usize) -> Found {
        if self.effort == self.allowance {
            return Found::Spent;
        }
        self.effort += 1;
        self.chain.push(terminal);
        if terminal == MINUS {
            if self.shows() {
                return Found::Live;
            }
        } else {
            self.met[terminal] = true;
            for i in 0..self.near[terminal].len() {
                let next = self.near[terminal][i];
                if !self.met[next] {
                    let found = self.enter(next);
                    if found != Found::Dead {
                        return found;
                    }
                }
            }
            self.met[terminal] = false;
        }
        self.chain.pop();
        Found::Dead
    }
}

fn main() {
    let mut text = String::new();
    std::io::stdin().read_to_string(&mut text).unwrap();
    let numbers: Vec<usize> = text.split_whitespace().map(|word| word.parse().unwrap()).collect();
    let terminals = numbers[0];
    let mut near = vec![Vec::new(); terminals];
    for pair in numbers[5..].chunks(2) {
        near[pair[0]].push(pair[1]);
        near[pair[1]].push(pair[0]);
    }
    for own in &mut near {
        own.sort();
        own.dedup();
    }
    for _ in 0..numbers[4] {
        let mut search = Search {
            near: near.clone(),
            met: vec![false; terminals],
            chain: Vec::new(),
            a: numbers[1],
            b: numbers[2],
            effort: 0,
            allowance: numbers[3] as u32,
        };
        let word = match search.enter(0) {
            Found::Live => "live",
            Found::Dead => "dead",
            Found::Spent => "undecided",
        };
        println!("{} {}", word, search.effort);
    }
}

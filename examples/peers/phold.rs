//! PHOLD in plain Rust, with the heap of the standard library. It prints the report of `phold`.

use std::cmp::Reverse;
use std::collections::BinaryHeap;
use std::env;

/// What a run is. Times are in microseconds.
struct Settings {
    nodes: u32,
    jobs: u32,
    remote: u32,
    lookahead: u64,
    mean: u64,
    seed: u64,
    duration: u64,
}

fn quarter_round(s: &mut [u32; 16], a: usize, b: usize, c: usize, d: usize) {
    s[a] = s[a].wrapping_add(s[b]);
    s[d] = (s[d] ^ s[a]).rotate_left(16);
    s[c] = s[c].wrapping_add(s[d]);
    s[b] = (s[b] ^ s[c]).rotate_left(12);
    s[a] = s[a].wrapping_add(s[b]);
    s[d] = (s[d] ^ s[a]).rotate_left(8);
    s[c] = s[c].wrapping_add(s[d]);
    s[b] = (s[b] ^ s[c]).rotate_left(7);
}

/// Group `number` of the ChaCha8 stream of a node.
fn words(seed: u64, node: u32, number: u64) -> [u32; 4] {
    let counter = number / 4;
    let mut start = [0; 16];
    start[..6].copy_from_slice(&[
        0x6170_7865, 0x3320_646e, 0x7962_2d32, 0x6b20_6574,
        seed as u32, (seed >> 32) as u32,
    ]);
    start[12..15].copy_from_slice(&[counter as u32, (counter >> 32) as u32, node]);
    let mut s = start;
    for _ in 0..4 {
        for column in 0..4 {
            quarter_round(&mut s, column, column + 4, column + 8, column + 12);
        }
        for first in 0..4 {
            quarter_round(&mut s, first, (first + 1) % 4 + 4, (first + 2) % 4 + 8, (first + 3) % 4 + 12);
        }
    }
    let at = (number % 4) as usize * 4;
    [0, 1, 2, 3].map(|k| s[at + k].wrapping_add(start[at + k]))
}

/// A number below the bound, made of two words.
fn scaled(high: u32, low: u32, bound: u64) -> u64 {
    let fraction = u64::from(high) << 32 | u64::from(low);
    (u128::from(fraction) * u128::from(bound) >> 64) as u64
}

impl Settings {
    /// The delay and the receiver of the event of this number that a node makes.
    fn draw(&self, node: u32, number: u64) -> (u64, u32) {
        let [high, low, other_high, other_low] = words(self.seed, node, number);
        let others = u64::from(self.nodes) - 1;
        let way = scaled(other_high, other_low, 1_000_000 * others);
        let delay = self.lookahead + scaled(high, low, 2 * self.mean + 1);
        if way / others < u64::from(self.remote) {
            (delay, ((u64::from(node) + 1 + way % others) % u64::from(self.nodes)) as u32)
        } else {
            (delay, node)
        }
    }
}

fn main() {
    let given: Vec<u64> = env::args().skip(1).map(|word| word.parse().expect("a number")).collect();
    let number = |k: usize, default: u64| given.get(k).copied().unwrap_or(default);
    let p = Settings {
        nodes: number(0, 1024) as u32,
        jobs: number(1, 1) as u32,
        remote: number(2, 500_000) as u32,
        duration: number(3, 1_000_000),
        lookahead: 1000,
        mean: 9000,
        seed: 1,
    };
    let mut made = vec![u64::from(p.jobs); p.nodes as usize];
    let mut pending = BinaryHeap::new();
    for node in 0..p.nodes {
        for job in 1..=u64::from(p.jobs) {
            pending.push(Reverse((p.draw(node, job).0, 2 + node, job, node)));
        }
    }
    let (mut events, mut remote, mut time_sum) = (0u64, 0u64, 0u128);
    while let Some(Reverse((time, _, _, node))) = pending.pop() {
        if time >= p.duration {
            break;
        }
        made[node as usize] += 1;
        let number = made[node as usize];
        let (delay, receiver) = p.draw(node, number);
        events += 1;
        remote += u64::from(receiver != node);
        time_sum += u128::from(time);
        pending.push(Reverse((time + delay, 2 + node, number, receiver)));
    }
    println!("events {events}\nremote {remote}\ntime-sum {time_sum}");
}

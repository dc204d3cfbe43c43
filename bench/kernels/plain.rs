//! The graph kernels written by hand with 64-bit lengths, over the graphs of `main.rt.txt`.
use std::time::Instant;

struct Dag { weights: Vec<u64>, successors: Vec<Vec<u32>> }

fn dense(count: u32, seed: u64) -> Dag {
    let mut state = seed;
    let weights = (0..count).map(|_| { state = state.wrapping_mul(6_364_136_223_846_793_005).wrapping_add(1_442_695_040_888_963_407); state >> 34 }).collect();
    let successors = (0..count).map(|a| (a + 1..count).filter(|&b| ((a.wrapping_mul(2_654_435_761) ^ b.wrapping_mul(40_503)) >> 9) % 8 != 0).collect()).collect();
    Dag { weights, successors }
}

fn tails(dag: &Dag) -> Vec<u64> {
    let n = dag.weights.len();
    let mut tail = vec![0u64; n];
    for v in (0..n).rev() {
        let mut best = 0;
        for &s in &dag.successors[v] { best = best.max(tail[s as usize]); }
        tail[v] = best + dag.weights[v];
    }
    tail
}

fn critical(dag: &Dag) -> (Vec<u32>, u64) {
    let tail = tails(dag);
    let length = tail.iter().copied().max().unwrap_or(0);
    let mut chain = Vec::new();
    let mut left = length;
    if left > 0 {
        let mut v = tail.iter().position(|&t| t == left).unwrap() as u32;
        loop {
            chain.push(v);
            left -= dag.weights[v as usize];
            if left == 0 { break; }
            v = *dag.successors[v as usize].iter().find(|&&s| tail[s as usize] == left).unwrap();
        }
    }
    (chain, length)
}

fn slacks(dag: &Dag) -> (u64, Vec<u64>) {
    let tail = tails(dag);
    let n = dag.weights.len();
    let length = tail.iter().copied().max().unwrap_or(0);
    let mut into = vec![0u64; n];
    for v in 0..n {
        let through = into[v] + dag.weights[v];
        for &s in &dag.successors[v] { let x = &mut into[s as usize]; *x = (*x).max(through); }
    }
    (length, (0..n).map(|v| length - into[v] - tail[v]).collect())
}

fn reduce(dag: &Dag) -> Dag {
    let n = dag.weights.len();
    let w = n / 64 + 1;
    let mut reach = vec![0u64; n * w];
    let mut successors = vec![Vec::new(); n];
    for v in (0..n).rev() {
        let (row, rest) = reach[v * w..].split_at_mut(w);
        for &s in &dag.successors[v] {
            let s = s as usize;
            if row[s / 64] >> (s % 64) & 1 == 0 {
                successors[v].push(s as u32);
                row[s / 64] |= 1 << (s % 64);
                let other = &rest[(s - v - 1) * w..][..w];
                for (a, b) in row.iter_mut().zip(other) { *a |= b; }
            }
        }
    }
    Dag { weights: dag.weights.clone(), successors }
}

fn sum_of(dags: &[Dag], kernel: u32) -> u64 {
    let mut sum = 0u64;
    for dag in dags {
        if kernel == 0 || kernel == 1 {
            let (chain, length) = critical(dag);
            sum = sum.wrapping_add(length % 1_000_007).wrapping_add(chain.len() as u64);
        }
        if kernel == 0 || kernel == 2 {
            for slack in slacks(dag).1 { sum = sum.wrapping_add(slack % 1_000_007); }
        }
        if kernel == 3 {
            for list in reduce(dag).successors { sum = sum.wrapping_add(list.len() as u64); }
        }
        if kernel == 4 { sum = sum.wrapping_add(slacks(dag).0 % 1_000_007); }
    }
    sum
}

fn main() {
    for (count, graphs, runs) in [(500u32, 1u32, 201usize), (12, 20_000, 21)] {
        let dags: Vec<Dag> = (0..graphs).map(|seed| dense(count, seed as u64)).collect();
        for (kernel, name) in [(0, "critical and slacks"), (1, "critical"), (2, "slacks"), (3, "reduce"), (4, "longest_and_slacks")] {
            let mut times = Vec::new();
            let mut sum = 0;
            for _ in 0..runs {
                let start = Instant::now();
                sum = sum_of(std::hint::black_box(&dags), kernel);
                times.push(start.elapsed().as_nanos());
            }
            times.sort();
            println!("{graphs} graphs of {count} vertices: {name}: {} ns, checksum {sum}", times[times.len() / 2]);
        }
    }
}

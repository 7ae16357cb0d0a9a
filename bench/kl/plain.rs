// The Kazhdan-Lusztig table of an interval, from the definition, with the standard library alone. It shares no code with the crates and is
// proved in nothing.
//
// Reads lines `NAME RANK ENTRY .. / LETTER ..` and prints for each the number of vertices, the time of the table, and a checksum.
use std::collections::HashMap;
use std::io::{self, BufRead};
use std::time::Instant;

type Element = [i8; 36];

struct Interval {
    elements: Vec<Element>,
    lengths: Vec<u32>,
}

fn times(matrix: &[i64], rank: usize, x: &Element, k: usize) -> Element {
    let mut product = *x;
    for i in 0..rank {
        for j in 0..rank {
            product[i * 6 + j] = (x[i * 6 + j] as i64 - matrix[k * rank + j] * x[i * 6 + k] as i64) as i8;
        }
    }
    product
}

fn positive_roots(matrix: &[i64], rank: usize) -> Vec<Vec<i64>> {
    let mut roots: Vec<Vec<i64>> = (0..rank).map(|k| (0..rank).map(|j| (j == k) as i64).collect()).collect();
    let mut place = 0;
    while place < roots.len() {
        for k in 0..rank {
            let value: i64 = (0..rank).map(|j| matrix[k * rank + j] * roots[place][j]).sum();
            let mut image = roots[place].clone();
            image[k] -= value;
            if image.iter().all(|c| *c >= 0) && !roots.contains(&image) {
                roots.push(image);
            }
        }
        place += 1;
    }
    roots
}

fn length(x: &Element, rank: usize, roots: &[Vec<i64>]) -> u32 {
    let negative = |root: &Vec<i64>| (0..rank).any(|i| (0..rank).map(|j| x[i * 6 + j] as i64 * root[j]).sum::<i64>() < 0);
    roots.iter().filter(|root| negative(root)).count() as u32
}

fn interval(matrix: &[i64], rank: usize, word: &[usize]) -> Interval {
    let roots = positive_roots(matrix, rank);
    let mut identity = [0; 36];
    for i in 0..6 {
        identity[i * 7] = 1;
    }
    let mut found: HashMap<Element, u32> = HashMap::new();
    found.insert(identity, 0);
    for k in word {
        let moved: Vec<Element> = found.keys().map(|x| times(matrix, rank, x, *k)).collect();
        for x in moved {
            found.entry(x).or_insert_with(|| length(&x, rank, &roots));
        }
    }
    let mut sorted: Vec<(u32, Element)> = found.into_iter().map(|(x, l)| (l, x)).collect();
    sorted.sort();
    Interval { lengths: sorted.iter().map(|v| v.0).collect(), elements: sorted.into_iter().map(|v| v.1).collect() }
}

const ROW: usize = 19;
const PLACES: usize = 37;

struct Pair {
    low: u32,
    high: u32,
}

// The pairs x < xk of vertices, for each k, and of each vertex the least right descent with the shorter vertex.
fn products(matrix: &[i64], rank: usize, interval: &Interval) -> (Vec<Vec<Pair>>, Vec<(usize, usize)>) {
    let numbers: HashMap<&Element, usize> = interval.elements.iter().enumerate().map(|(i, x)| (x, i)).collect();
    let mut pairs: Vec<Vec<Pair>> = (0..rank).map(|_| Vec::new()).collect();
    let mut descents = vec![(0, 0); interval.elements.len()];
    for (x, element) in interval.elements.iter().enumerate() {
        for k in (0..rank).rev() {
            if let Some(y) = numbers.get(&times(matrix, rank, element, k)) {
                if x < *y {
                    pairs[k].push(Pair { low: x as u32, high: *y as u32 });
                } else {
                    descents[x] = (k, *y);
                }
            }
        }
    }
    (pairs, descents)
}

// The bar of y: row x has the coefficients at the powers len(y) - len(x) - 2 j of v - v^-1.
fn bar(rows: &mut [u64], live: &mut [bool], pairs: &[Vec<Pair>], descents: &[(usize, usize)], lengths: &[u32], y: usize) {
    for (x, is_live) in live.iter_mut().enumerate() {
        if *is_live {
            rows[x * ROW..(x + 1) * ROW].fill(0);
            *is_live = false;
        }
    }
    let mut word = [0; 36];
    let (mut count, mut rest) = (0, y);
    while lengths[rest] > 0 {
        word[count] = descents[rest].0;
        rest = descents[rest].1;
        count += 1;
    }
    rows[0] = 1;
    live[0] = true;
    for (done, k) in word[..count].iter().rev().enumerate() {
        for pair in &pairs[*k] {
            let (low, high) = (pair.low as usize, pair.high as usize);
            if lengths[low] as usize > done {
                break;
            }
            if !(live[low] || live[high]) {
                continue;
            }
            let width = (done + 1 - lengths[low] as usize) / 2 + 1;
            let (front, back) = rows.split_at_mut(high * ROW);
            let here = &mut front[low * ROW..low * ROW + width];
            let there = &mut back[..width];
            let mut carried = 0;
            for (a, b) in here.iter_mut().zip(there.iter_mut()) {
                let old = *b;
                *b = *a;
                *a += carried;
                carried = old;
            }
            live[low] = true;
            live[high] = true;
        }
    }
}

// v - v^-1 times a row, and the parts at one power added.
fn multiply(row: &mut [i128; 145], parts: &[i128], power: usize) {
    let mut before = 0;
    for i in 0..145 {
        let after = if i < 144 { row[i + 1] } else { 0 };
        let part = if (36..=72).contains(&i) { parts[(72 - i) * PLACES + power] } else { 0 };
        let here = row[i];
        row[i] = part + before - after;
        before = here;
    }
}

// The sums q_x, 73 coefficients each.
fn table(matrix: &[i64], rank: usize, interval: &Interval) -> Vec<i128> {
    let count = interval.elements.len();
    let lengths = &interval.lengths;
    let (pairs, descents) = products(matrix, rank, interval);
    let mut rows = vec![0_u64; count * ROW];
    let mut live = vec![false; count];
    let mut parts = vec![0_i128; count * PLACES * PLACES];
    let mut sums = vec![0_i128; count * 73];
    for y in (0..count).rev() {
        let mut row = [0_i128; 145];
        for power in (0..=(lengths[count - 1] - lengths[y]) as usize).rev() {
            multiply(&mut row, &parts[y * PLACES * PLACES..], power);
        }
        sums[y * 73..(y + 1) * 73].copy_from_slice(&row[36..109]);
        let mut tops = [0_i128; PLACES];
        if y + 1 == count {
            tops[0] = 1;
        } else {
            tops[1..].copy_from_slice(&row[73..109]);
        }
        bar(&mut rows, &mut live, &pairs, &descents, lengths, y);
        for (a, top) in tops.iter().enumerate() {
            if *top == 0 {
                continue;
            }
            for x in 0..y {
                if !live[x] {
                    continue;
                }
                let gap = (lengths[y] - lengths[x]) as usize;
                let start = (x * PLACES + a) * PLACES;
                for (j, number) in rows[x * ROW..x * ROW + gap / 2 + 1].iter().enumerate() {
                    parts[start + gap - 2 * j] += *number as i128 * *top;
                }
            }
        }
    }
    sums
}

fn main() {
    for line in io::stdin().lock().lines() {
        let line = line.unwrap();
        let (front, letters) = line.split_once('/').unwrap();
        let mut words = front.split_whitespace();
        let name = words.next().unwrap();
        let rank: usize = words.next().unwrap().parse().unwrap();
        let matrix: Vec<i64> = words.map(|w| w.parse().unwrap()).collect();
        let word: Vec<usize> = letters.split_whitespace().map(|w| w.parse::<usize>().unwrap() - 1).collect();
        let interval = interval(&matrix, rank, &word);
        let start = Instant::now();
        let sums = table(&matrix, rank, &interval);
        let spent = start.elapsed().as_micros();
        let count = interval.elements.len();
        let top = |x: usize, e: usize| if x + 1 == count { i128::from(e == 0) } else if e == 0 { 0 } else { sums[x * 73 + 36 + e] };
        let weight = |x: usize, e: usize| (x as i128 + 1) * (e as i128 + 1);
        let sum: i128 = (0..count).map(|x| (0..37).map(|e| top(x, e) * weight(x, e)).sum::<i128>()).sum();
        println!("{name}: {count} vertices, {spent} us, checksum {sum}");
    }
}

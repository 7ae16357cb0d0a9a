//! Reduces a matrix modulo a prime and prints how long that takes, without a trace and with one; then grows a basis by its rows, one at
//! a time, and reduces the chosen ones with a trace of these alone: a plain program to compare with.
//!
//! The matrix is read as bytes: the prime, two bytes each for how many rows and columns, and the numbers row after row.

use std::io::{self, Read};
use std::time::Instant;

/// Adds a row to another.
fn add_row(p: u8, row: &[u8], into: &mut [u8]) {
    for (number, term) in into.iter_mut().zip(row) {
        let sum = *number + *term;
        *number = sum.min(sum.wrapping_sub(p));
    }
}

/// The numbers c times, modulo p.
fn times(p: u8, c: u8, row: &[u8]) -> Vec<u8> {
    let products: Vec<u8> = (0..p).map(|number| (u16::from(c) * u16::from(number) % u16::from(p)) as u8).collect();
    row.iter().map(|number| products[usize::from(*number)]).collect()
}

/// The multiples of a row, from its first number that isn't 0 to its last, each by one sum more; and where those begin.
fn multiples(p: u8, row: &[u8]) -> (usize, Vec<Vec<u8>>) {
    let Some(start) = row.iter().position(|number| *number != 0) else {
        return (0, Vec::new());
    };
    let end = 1 + row.iter().rposition(|number| *number != 0).unwrap();
    let mut all = vec![vec![0; end - start]];
    for c in 1..usize::from(p) {
        let mut next = all[c - 1].clone();
        add_row(p, &row[start..end], &mut next);
        all.push(next);
    }
    (start, all)
}

/// Adds to each other row its factor times the row `from`.
fn add_to_rows(p: u8, rows: &mut [Vec<u8>], from: usize, factors: &[u8]) {
    let (start, multiples) = multiples(p, &rows[from]);
    if multiples.is_empty() {
        return;
    }
    let end = start + multiples[0].len();
    for (i, row) in rows.iter_mut().enumerate() {
        if i != from && factors[i] != 0 {
            add_row(p, &multiples[usize::from(factors[i])], &mut row[start..end]);
        }
    }
}

/// The reduced echelon form, in place, with each change made to the other rows too, and its rank.
fn reduce(p: u8, cols: usize, rows: &mut [Vec<u8>], others: &mut [Vec<u8>]) -> usize {
    let mut rank = 0;
    for col in 0..cols {
        let Some(found) = (rank..rows.len()).find(|i| rows[*i][col] != 0) else {
            continue;
        };
        rows.swap(rank, found);
        others.swap(rank, found);
        let inverse = (1..p)
            .find(|b| u16::from(rows[rank][col]) * u16::from(*b) % u16::from(p) == 1)
            .unwrap();
        rows[rank] = times(p, inverse, &rows[rank]);
        others[rank] = times(p, inverse, &others[rank]);
        let factors: Vec<u8> = rows.iter().map(|row| (p - row[col]) % p).collect();
        add_to_rows(p, rows, rank, &factors);
        if !others[rank].is_empty() {
            add_to_rows(p, others, rank, &factors);
        }
        rank += 1;
    }
    rank
}

fn time(name: &str, p: u8, cols: usize, rows: &[Vec<u8>], others: &[Vec<u8>]) {
    let mut rows = rows.to_vec();
    let mut others = others.to_vec();
    let start = Instant::now();
    let rank = reduce(p, cols, &mut rows, &mut others);
    let spent = start.elapsed().as_micros();
    println!("plain program, {name}: rank {rank}, {spent} us");
}

/// A row to which multiples of rows are added.
trait Sums {
    fn of(p: u8, row: &[u8]) -> Self;

    /// The number at a place, below p.
    fn at(&self, j: usize) -> u8;

    fn set(&mut self, j: usize, number: u8);

    /// Adds c times a row to the numbers from `start` on.
    fn add(&mut self, c: u8, start: usize, row: &[u8]);

    /// The numbers, below p.
    fn numbers(self) -> Vec<u8>;
}

/// Bytes below 3, for the sums modulo 2 and 3.
struct Small {
    p: u8,
    numbers: Vec<u8>,
}

impl Sums for Small {
    fn of(p: u8, row: &[u8]) -> Small {
        Small { p, numbers: row.to_vec() }
    }

    fn at(&self, j: usize) -> u8 {
        self.numbers[j]
    }

    fn set(&mut self, j: usize, number: u8) {
        self.numbers[j] = number;
    }

    fn add(&mut self, c: u8, start: usize, row: &[u8]) {
        let into = &mut self.numbers[start..];
        if c == 1 {
            add_row(self.p, row, into);
        } else {
            for (number, term) in into.iter_mut().zip(row) {
                let rest = number.wrapping_sub(*term);
                *number = rest.min(rest.wrapping_add(self.p));
            }
        }
    }

    fn numbers(self) -> Vec<u8> {
        self.numbers
    }
}

/// Sums of 16 bits, of which the remainders are taken only where they would grow longer.
struct Late {
    p: u16,
    numbers: Vec<u16>,
    products: u16,
}

impl Late {
    /// Takes the remainders. A reciprocal of 16 bits gives the quotient or one less.
    fn reduce(&mut self) {
        let (p, reciprocal) = (self.p, 65536 / u32::from(self.p));
        for number in &mut self.numbers {
            let quotient = (u32::from(*number) * reciprocal >> 16) as u16;
            let rest = *number - quotient * p;
            *number = rest.min(rest.wrapping_sub(p));
        }
        self.products = 1;
    }
}

impl Sums for Late {
    fn of(p: u8, row: &[u8]) -> Late {
        let numbers = row.iter().map(|number| u16::from(*number)).collect();
        Late { p: u16::from(p), numbers, products: 1 }
    }

    fn at(&self, j: usize) -> u8 {
        (self.numbers[j] % self.p) as u8
    }

    fn set(&mut self, j: usize, number: u8) {
        self.numbers[j] = u16::from(number);
    }

    fn add(&mut self, c: u8, start: usize, row: &[u8]) {
        if u32::from(self.products + 1) * u32::from(self.p - 1).pow(2) > 65535 {
            self.reduce();
        }
        for (sum, number) in self.numbers[start..].iter_mut().zip(row) {
            *sum += u16::from(c) * u16::from(*number);
        }
        self.products += 1;
    }

    fn numbers(mut self) -> Vec<u8> {
        self.reduce();
        self.numbers.iter().map(|number| *number as u8).collect()
    }
}

/// A basis of rows that come one at a time: the reduced rows, each from its pivot on, and the numbers by which the chosen rows combine
/// to each, of which there are as many as were chosen up to it.
#[derive(Default)]
struct Basis {
    rows: Vec<Vec<u8>>,
    pivots: Vec<usize>,
    trace: Vec<Vec<u8>>,
}

fn grow<S: Sums>(p: u8, basis: &mut Basis, row: &[u8]) {
    let rank = basis.rows.len();
    let mut sums = S::of(p, row);
    let mut factors = S::of(p, &vec![0; rank + 1]);
    for k in 0..rank {
        let number = sums.at(basis.pivots[k]);
        if number != 0 {
            sums.add(p - number, basis.pivots[k], &basis.rows[k]);
            factors.add(p - number, 0, &basis.trace[k]);
        }
    }
    let numbers = sums.numbers();
    if let Some(pivot) = numbers.iter().position(|number| *number != 0) {
        factors.set(rank, 1);
        let inverse = (1..p).find(|b| u16::from(numbers[pivot]) * u16::from(*b) % u16::from(p) == 1).unwrap();
        basis.rows.push(times(p, inverse, &numbers[pivot..]));
        basis.pivots.push(pivot);
        basis.trace.push(times(p, inverse, &factors.numbers()));
    }
}

/// The reduced rows and their trace, each with all its numbers.
fn whole(cols: usize, basis: &Basis) -> (Vec<Vec<u8>>, Vec<Vec<u8>>) {
    let rank = basis.rows.len();
    let mut rows = vec![vec![0; cols]; rank];
    let mut trace = vec![vec![0; rank]; rank];
    for k in 0..rank {
        rows[k][basis.pivots[k]..].copy_from_slice(&basis.rows[k]);
        trace[k][..=k].copy_from_slice(&basis.trace[k]);
    }
    (rows, trace)
}

fn time_growth(p: u8, cols: usize, rows: &[Vec<u8>]) {
    let start = Instant::now();
    let mut basis = Basis::default();
    for row in rows {
        if p <= 3 {
            grow::<Small>(p, &mut basis, row);
        } else {
            grow::<Late>(p, &mut basis, row);
        }
    }
    let spent = start.elapsed().as_micros();
    println!("plain program, grown: rank {}, {spent} us", basis.rows.len());
    let (mut rows, mut trace) = whole(cols, &basis);
    let rank = reduce(p, cols, &mut rows, &mut trace);
    let spent = start.elapsed().as_micros();
    println!("plain program, grown and reduced: rank {rank}, {spent} us");
}

fn main() -> io::Result<()> {
    let mut bytes = Vec::new();
    io::stdin().read_to_end(&mut bytes)?;
    let p = bytes[0];
    let count = usize::from(bytes[1]) * 256 + usize::from(bytes[2]);
    let cols = usize::from(bytes[3]) * 256 + usize::from(bytes[4]);
    let rows: Vec<Vec<u8>> = bytes[5..].chunks(cols).map(<[u8]>::to_vec).collect();
    let units: Vec<Vec<u8>> = (0..count).map(|i| (0..count).map(|j| u8::from(i == j)).collect()).collect();
    time("no trace", p, cols, &rows, &vec![Vec::new(); count]);
    time_growth(p, cols, &rows);
    time("with a trace", p, cols, &rows, &units);
    Ok(())
}

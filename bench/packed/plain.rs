//! Reduces a matrix of bits word by word and prints how long that takes: a plain program to compare with.
//!
//! The matrix is read as bytes 0 and 1, row after row, 4000 to a row.

use std::io::{self, Read};
use std::time::Instant;

const COLS: usize = 4000;

/// The numbers as words, of which the lowest bit stands first.
fn packed(numbers: &[u8]) -> Vec<u64> {
    numbers
        .chunks(64)
        .map(|chunk| {
            let bits = chunk.iter().enumerate();
            bits.fold(0, |word, (j, bit)| word | u64::from(*bit) << j)
        })
        .collect()
}

/// The reduced echelon form, in place, and its rank.
fn reduce(rows: &mut [Vec<u64>]) -> usize {
    let mut rank = 0;
    for col in 0..COLS {
        let (word, bit) = (col / 64, col % 64);
        let Some(found) = (rank..rows.len()).find(|i| rows[*i][word] >> bit & 1 == 1) else {
            continue;
        };
        rows.swap(rank, found);
        let pivot = std::mem::take(&mut rows[rank]);
        for (i, row) in rows.iter_mut().enumerate() {
            if i != rank && row[word] >> bit & 1 == 1 {
                for (number, term) in row[word..].iter_mut().zip(&pivot[word..]) {
                    *number ^= term;
                }
            }
        }
        rows[rank] = pivot;
        rank += 1;
    }
    rank
}

fn main() -> io::Result<()> {
    let mut bytes = Vec::new();
    io::stdin().read_to_end(&mut bytes)?;
    let mut rows: Vec<Vec<u64>> = bytes.chunks(COLS).map(packed).collect();
    let start = Instant::now();
    let rank = reduce(&mut rows);
    let spent = start.elapsed().as_micros();
    println!("plain program: rank {rank}, {spent} us");
    Ok(())
}

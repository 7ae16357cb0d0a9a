//! Families of sections by levels, kept coordinate by coordinate, and the maps that act on all members at once.
use crate::job::Graph;
use crate::tables::{count, Tables};
use crate::Entry;

/// What the members of a family are at one vertex: a run of `members` numbers for each coordinate. Later members are 0.
#[derive(Default)]
pub struct Run {
    pub members: usize,
    pub numbers: Vec<u8>,
}

/// The family of one degree: its members so far, and what they are at each vertex that was reached.
pub struct Family {
    pub members: usize,
    pub runs: Vec<Run>,
}

impl Family {
    pub fn top(n: usize, monomials: usize) -> Family {
        let mut runs: Vec<Run> = (0..n).map(|_| Run::default()).collect();
        let mut numbers = vec![0; monomials * monomials];
        (0..monomials).for_each(|i| numbers[i * monomials + i] = 1);
        runs[n - 1] = Run {
            members: monomials,
            numbers,
        };
        Family {
            members: monomials,
            runs,
        }
    }

    pub fn coordinate(&self, y: usize, c: usize) -> &[u8] {
        let run = &self.runs[y];
        &run.numbers[c * run.members..(c + 1) * run.members]
    }

    pub fn number(&self, y: usize, c: usize, member: usize) -> u8 {
        self.coordinate(y, c).get(member).copied().unwrap_or(0)
    }
}

/// Sums of multiples of runs, kept below 2^16 by being reduced before they could pass it.
pub struct Sums {
    p: u32,
    bound: u32,
    pub numbers: Vec<u16>,
}

impl Sums {
    pub fn new(p: u32) -> Sums {
        Sums {
            p,
            bound: 0,
            numbers: Vec::new(),
        }
    }

    pub fn clear(&mut self, len: usize) {
        self.numbers.clear();
        self.numbers.resize(len, 0);
        self.bound = 0;
    }

    pub fn add(&mut self, c: u32, run: &[u8]) {
        let step = c * (self.p - 1);
        if self.bound + step > 65_535 {
            self.reduce();
        }
        self.bound += step;
        let c = c as u16;
        self.numbers.iter_mut().zip(run).for_each(|(sum, &n)| *sum += c * u16::from(n));
    }

    /// Afterwards the numbers are below 2 p.
    fn reduce(&mut self) {
        let inverse = 65_536 / self.p;
        for sum in &mut self.numbers {
            let n = u32::from(*sum);
            *sum = (n - self.p * ((n * inverse) >> 16)) as u16;
        }
        self.bound = 2 * self.p - 1;
    }

    /// The first place with a number that isn't 0 modulo the prime.
    pub fn first(&mut self) -> Option<usize> {
        self.reduce();
        let p = self.p as u16;
        let wrong = |n: u16| u16::from(n != 0) & u16::from(n != p);
        let any = self.numbers.iter().fold(0, |any, &n| any | wrong(n)) != 0;
        any.then(|| self.numbers.iter().position(|&n| wrong(n) != 0).unwrap())
    }

    /// Appends the numbers modulo the prime.
    pub fn append_to(&mut self, out: &mut Vec<u8>) {
        self.reduce();
        let p = self.p as u16;
        out.extend(self.numbers.iter().map(|&n| if n < p { n as u8 } else { (n - p) as u8 }));
    }
}

/// A sheaf above a vertex, with the numbers that its maps need.
pub struct Stalks<'a> {
    pub graph: &'a Graph,
    pub tables: &'a Tables,
    pub r: usize,
    /// By edge the normal forms by its label.
    pub normal: Vec<&'a Vec<Vec<Vec<Entry>>>>,
}

impl<'a> Stalks<'a> {
    pub fn new(graph: &'a Graph, tables: &'a Tables, r: usize) -> Stalks<'a> {
        let normal = graph.edges.iter().map(|e| &tables.normal[&e.label]).collect();
        Stalks {
            graph,
            tables,
            r,
            normal,
        }
    }

    pub fn up(&self, x: usize) -> std::ops::Range<usize> {
        self.graph.starts[x]..self.graph.starts[x + 1]
    }

    pub fn coordinates(&self, degrees: &[usize], r: usize, d: usize) -> usize {
        degrees.iter().filter(|&&e| e <= d).map(|&e| count(r, d - e)).sum()
    }

    /// Adds to a column the normal form of monomial m of degree `d - degree` times an element of that degree.
    pub fn add_lift(&self, e: usize, lift: &[Entry], degree: usize, m: usize, d: usize, above: &[usize], out: &mut [u8]) {
        let (mut from, mut start) = (0, 0);
        let normal = self.normal[e];
        for &h in above.iter().filter(|h| **h <= d) {
            if h <= degree {
                let monomials = self.tables.listing[degree - h].len();
                let products = &self.tables.products[d - degree][degree - h][m * monomials..];
                for entry in lift {
                    let place = (entry.place as usize).wrapping_sub(from);
                    if place < monomials {
                        for f in &normal[d - h][products[place] as usize] {
                            let n = &mut out[start + f.place as usize];
                            let sum = u32::from(*n) + u32::from(entry.value) * u32::from(f.value);
                            *n = (sum % self.tables.p) as u8;
                        }
                    }
                }
                from += monomials;
            }
            start += count(self.r - 1, d - h);
        }
    }

    /// Calls with (coordinate of the upper stalk, coordinate of the edge module, number) for the map from above.
    pub fn each_upper(&self, e: usize, d: usize, above: &[usize], mut each: impl FnMut(usize, usize, u32)) {
        let (mut coordinate, mut start) = (0, 0);
        for &h in above.iter().filter(|h| **h <= d) {
            for form in &self.normal[e][d - h] {
                form.iter().for_each(|f| each(coordinate, start + f.place as usize, u32::from(f.value)));
                coordinate += 1;
            }
            start += count(self.r - 1, d - h);
        }
    }
}

/// The boundary map of a vertex in one degree: a column of bytes for each stalk coordinate.
#[derive(Default)]
pub struct BoundaryMap {
    pub rows: usize,
    pub columns: usize,
    pub numbers: Vec<u8>,
    /// By edge going up its first row; last the number of rows.
    pub starts: Vec<usize>,
}

impl BoundaryMap {
    pub fn clear(&mut self, starts: Vec<usize>) {
        self.rows = *starts.last().unwrap();
        self.starts = starts;
        self.columns = 0;
        self.numbers.clear();
    }

    pub fn column(&self, k: usize) -> &[u8] {
        &self.numbers[k * self.rows..(k + 1) * self.rows]
    }

    pub fn push(&mut self) -> &mut [u8] {
        self.columns += 1;
        self.numbers.resize(self.columns * self.rows, 0);
        let from = self.numbers.len() - self.rows;
        &mut self.numbers[from..]
    }
}

//! Stalks from the top down, one level after another.
use crate::cert::Job;
use crate::families::{BoundaryMap, Family, Run, Stalks, Sums};
use crate::job::Graph;
use crate::tables::Tables;
use crate::Entry;

#[derive(Default)]
pub struct Block {
    pub pivots: Vec<usize>,
    pub covers: Vec<Vec<Entry>>,
    pub sources: Vec<Vec<Entry>>,
    pub duals: Vec<Vec<Entry>>,
    pub basis: Vec<Vec<Entry>>,
    pub rows: Vec<Vec<Entry>>,
}

#[derive(Default)]
pub struct Part {
    pub degrees: Vec<usize>,
    /// By edge going up and generator.
    pub lifts: Vec<Vec<Vec<Entry>>>,
    pub blocks: Vec<Block>,
}

/// Chosen columns in reduced form: row i is 1 at its pivot and 0 at those of the others, and is the sum of the chosen
/// columns with the numbers of `trace[i]`.
#[derive(Default)]
struct Echelon {
    pivots: Vec<usize>,
    rows: Vec<Vec<u8>>,
    trace: Vec<Vec<u8>>,
    chosen: Vec<usize>,
}

struct Prime {
    p: u32,
    inverses: Vec<u32>,
}

impl Prime {
    fn new(p: u32) -> Prime {
        let inverse = |a: u32| (1..p).find(|b| a * b % p == 1).unwrap_or(0);
        Prime {
            p,
            inverses: (0..p).map(inverse).collect(),
        }
    }

    fn add(&self, sums: &mut [u8], c: u32, row: &[u8]) {
        let p = self.p;
        sums.iter_mut().zip(row).for_each(|(sum, &n)| *sum = ((u32::from(*sum) + c * u32::from(n)) % p) as u8);
    }

    fn scale(&self, row: &mut [u8], c: u32) {
        row.iter_mut().for_each(|n| *n = (u32::from(*n) * c % self.p) as u8);
    }

    fn minus(&self, c: u8) -> u32 {
        (self.p - u32::from(c)) % self.p
    }
}

impl Echelon {
    /// Takes in a column with its number, or gives the numbers that write it by the chosen ones.
    fn take(&mut self, prime: &Prime, number: usize, column: &[u8]) -> Option<Vec<u8>> {
        let mut rest = column.to_vec();
        let mut sums = vec![0; self.chosen.len()];
        for (i, &pivot) in self.pivots.iter().enumerate() {
            let c = column[pivot];
            if c != 0 {
                prime.add(&mut rest, prime.minus(c), &self.rows[i]);
                prime.add(&mut sums, u32::from(c), &self.trace[i]);
            }
        }
        let Some(pivot) = rest.iter().position(|&n| n != 0) else {
            return Some(sums);
        };
        let inverse = prime.inverses[usize::from(rest[pivot])];
        let mut trace: Vec<u8> = sums.iter().map(|&c| prime.minus(c) as u8).collect();
        trace.push(1);
        prime.scale(&mut trace, inverse);
        prime.scale(&mut rest, inverse);
        for i in 0..self.rows.len() {
            let c = prime.minus(self.rows[i][pivot]);
            self.trace[i].push(0);
            if c != 0 {
                prime.add(&mut self.rows[i], c, &rest);
                prime.add(&mut self.trace[i], c, &trace);
            }
        }
        self.pivots.push(pivot);
        self.rows.push(rest);
        self.trace.push(trace);
        self.chosen.push(number);
        None
    }

    /// The linear form that is 1 on chosen column j and 0 on the others.
    fn form(&self, j: usize) -> Vec<Entry> {
        let mut entries: Vec<Entry> = (0..self.pivots.len())
            .filter(|&i| self.trace[i][j] != 0)
            .map(|i| Entry {
                place: self.pivots[i] as u32,
                value: self.trace[i][j],
            })
            .collect();
        entries.sort_by_key(|e| e.place);
        entries
    }
}

pub struct Builder<'a> {
    job: &'a Job,
    stalks: Stalks<'a>,
    prime: Prime,
    n: usize,
    parts: Vec<Part>,
    sums: Sums,
}

/// What is found at a vertex and degree for all members of the family: boundaries by boundary coordinate, and covers by
/// chosen column.
#[derive(Default)]
struct Members {
    count: usize,
    boundaries: Vec<u8>,
    covers: Vec<Vec<u8>>,
}

impl<'a> Builder<'a> {
    pub fn new(job: &'a Job, graph: &'a Graph, tables: &'a Tables) -> Builder<'a> {
        let n = graph.lengths.len();
        let p = u32::from(job.prime);
        Builder {
            job,
            stalks: Stalks::new(graph, tables, job.rank),
            prime: Prime::new(p),
            n,
            parts: (0..n).map(|_| Part::default()).collect(),
            sums: Sums::new(p),
        }
    }

    pub fn build(mut self) -> Vec<Part> {
        let degrees = self.job.degree + 1;
        let tables = self.stalks.tables;
        let mut families: Vec<Family> = (0..degrees).map(|d| Family::top(self.n, tables.listing[d].len())).collect();
        self.parts[self.n - 1].degrees = vec![0];
        let graph = self.stalks.graph;
        let mut next = self.n - 1;
        while next > 0 {
            let level = graph.lengths[next - 1];
            let before: Vec<usize> = families.iter().map(|f| f.members).collect();
            while next > 0 && graph.lengths[next - 1] == level {
                next -= 1;
                let mut part = Part {
                    lifts: self.stalks.up(next).map(|_| Vec::new()).collect(),
                    ..Part::default()
                };
                for d in 0..degrees {
                    let block = self.block(next, d, before[d], &mut families[d], &mut part);
                    part.blocks.push(block);
                }
                self.parts[next] = part;
            }
        }
        self.parts
    }

    fn block(&mut self, x: usize, d: usize, count: usize, family: &mut Family, part: &mut Part) -> Block {
        let mut map = BoundaryMap::default();
        self.fill_map(x, d, part, &mut map);
        let mut echelon = Echelon::default();
        let mut block = Block::default();
        let kernel: Vec<(usize, Vec<u8>)> = (0..map.columns)
            .filter_map(|k| echelon.take(&self.prime, k, map.column(k)).map(|sums| (k, sums)))
            .collect();
        let mut members = Members {
            count,
            boundaries: self.boundaries(x, d, count, family, &map),
            covers: Vec::new(),
        };
        while let Some(j) = self.cover(&map, &echelon, &mut members) {
            self.add_generator(x, d, j, family, part, &members, &mut map);
            echelon.take(&self.prime, map.columns - 1, map.column(map.columns - 1));
            block.sources.push(vec![Entry {
                place: j as u32,
                value: 1,
            }]);
            block.duals.push(Vec::new());
        }
        let (rank, fresh) = (echelon.chosen.len(), block.duals.len());
        (0..fresh).for_each(|t| block.duals[t] = echelon.form(rank - fresh + t));
        block.rows = (0..rank).map(|j| echelon.form(j)).collect();
        block.basis = kernel.iter().map(|(k, sums)| self.kernel_vector(&echelon, *k, sums)).collect();
        self.write_covers(&echelon, &members, &mut block);
        self.extend(x, map.columns, family, &echelon, &members, &block);
        block.pivots = echelon.chosen;
        block
    }

    fn fill_map(&self, x: usize, d: usize, part: &Part, map: &mut BoundaryMap) {
        let stalks = &self.stalks;
        let uppers = || stalks.up(x).map(|e| (e, &self.parts[stalks.graph.edges[e].upper].degrees));
        let mut starts = vec![0];
        uppers().for_each(|(_, above)| starts.push(starts[starts.len() - 1] + stalks.coordinates(above, stalks.r - 1, d)));
        map.clear(starts);
        for (g, &degree) in part.degrees.iter().enumerate() {
            for m in 0..stalks.tables.listing[d - degree].len() {
                map.push();
                let from = map.numbers.len() - map.rows;
                for (i, (e, above)) in uppers().enumerate() {
                    let column = &mut map.numbers[from + map.starts[i]..from + map.starts[i + 1]];
                    stalks.add_lift(e, &part.lifts[i][g], degree, m, d, above, column);
                }
            }
        }
    }

    /// The boundaries of all members, a run for each boundary coordinate.
    fn boundaries(&mut self, x: usize, d: usize, count: usize, family: &Family, map: &BoundaryMap) -> Vec<u8> {
        let mut out = Vec::with_capacity(map.rows * count);
        for (i, e) in self.stalks.up(x).enumerate() {
            let y = self.stalks.graph.edges[e].upper;
            let mut upper = vec![Vec::new(); map.starts[i + 1] - map.starts[i]];
            self.stalks.each_upper(e, d, &self.parts[y].degrees, |c, row, value| upper[row].push((c, value)));
            for entries in &upper {
                self.sums.clear(count);
                entries.iter().for_each(|&(c, value)| self.sums.add(value, family.coordinate(y, c)));
                self.sums.append_to(&mut out);
            }
        }
        out
    }

    /// The members' covers by the chosen columns; or the first member that these do not reach.
    fn cover(&mut self, map: &BoundaryMap, echelon: &Echelon, members: &mut Members) -> Option<usize> {
        let count = members.count;
        let run = |place: usize| &members.boundaries[place * count..(place + 1) * count];
        members.covers.clear();
        for j in 0..echelon.chosen.len() {
            self.sums.clear(count);
            for (i, &pivot) in echelon.pivots.iter().enumerate() {
                if echelon.trace[i][j] != 0 {
                    self.sums.add(u32::from(echelon.trace[i][j]), run(pivot));
                }
            }
            let mut cover = Vec::with_capacity(count);
            self.sums.append_to(&mut cover);
            members.covers.push(cover);
        }
        let mut first = None;
        for place in 0..map.rows {
            self.sums.clear(count);
            self.sums.add(1, run(place));
            for (cover, &k) in members.covers.iter().zip(&echelon.chosen) {
                let c = map.column(k)[place];
                if c != 0 {
                    self.sums.add(self.prime.minus(c), cover);
                }
            }
            first = first.into_iter().chain(self.sums.first()).min();
        }
        first
    }

    /// A generator of degree d whose boundary is that of member j.
    fn add_generator(
        &self,
        x: usize,
        d: usize,
        j: usize,
        family: &Family,
        part: &mut Part,
        members: &Members,
        map: &mut BoundaryMap,
    ) {
        part.degrees.push(d);
        for (i, e) in self.stalks.up(x).enumerate() {
            let y = self.stalks.graph.edges[e].upper;
            let stalk = self.stalks.coordinates(&self.parts[y].degrees, self.job.rank, d);
            let numbers: Vec<u8> = (0..stalk).map(|c| family.number(y, c, j)).collect();
            part.lifts[i].push(sparse(&numbers));
        }
        let numbers: Vec<u8> = (0..map.rows).map(|place| members.boundaries[place * members.count + j]).collect();
        map.push().copy_from_slice(&numbers);
    }

    fn kernel_vector(&self, echelon: &Echelon, k: usize, sums: &[u8]) -> Vec<Entry> {
        let minus = |(&value, &place): (&u8, &usize)| Entry {
            place: place as u32,
            value: self.prime.minus(value) as u8,
        };
        let mut entries: Vec<Entry> = sums.iter().zip(&echelon.chosen).filter(|(v, _)| **v != 0).map(minus).collect();
        entries.push(Entry {
            place: k as u32,
            value: 1,
        });
        entries
    }

    fn write_covers(&self, echelon: &Echelon, members: &Members, block: &mut Block) {
        block.covers = vec![Vec::new(); members.count];
        for (cover, &k) in members.covers.iter().zip(&echelon.chosen) {
            for (j, &value) in cover.iter().enumerate().filter(|(_, value)| **value != 0) {
                block.covers[j].push(Entry {
                    place: k as u32,
                    value,
                });
            }
        }
    }

    fn extend(&self, x: usize, stalk: usize, family: &mut Family, echelon: &Echelon, members: &Members, block: &Block) {
        let run = family.members + block.basis.len();
        let mut numbers = vec![0; stalk * run];
        for (cover, &k) in members.covers.iter().zip(&echelon.chosen) {
            numbers[k * run..k * run + members.count].copy_from_slice(cover);
        }
        for (b, vector) in block.basis.iter().enumerate() {
            vector.iter().for_each(|e| numbers[e.place as usize * run + family.members + b] = e.value);
        }
        family.runs[x] = Run {
            members: run,
            numbers,
        };
        family.members = run;
    }
}

fn sparse(numbers: &[u8]) -> Vec<Entry> {
    let entries = numbers.iter().enumerate().filter(|(_, n)| **n != 0);
    entries
        .map(|(place, &value)| Entry {
            place: place as u32,
            value,
        })
        .collect()
}

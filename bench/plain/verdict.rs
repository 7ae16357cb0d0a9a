//! The comparisons of a certificate, in their order.
use crate::cert::{Block, Cert, Part, Run, MOST};
use crate::families::Stalks;
use crate::job::Graph;
use crate::levels::{LevelChecker, LevelSizes};
use crate::tables::{count, Rows, Tables};
use crate::{Entry, Exponents, Fault};

pub struct Checker<'a> {
    pub cert: &'a Cert,
    pub graph: &'a Graph,
    pub tables: Tables,
    /// By vertex which vertices are above it, where the version needs it.
    pub above: Vec<Vec<bool>>,
    pub r: usize,
    pub n: usize,
}

pub fn refused<T>(
    x: usize,
    d: usize,
    kind: &str,
    index: u64,
    place: u64,
    left: u64,
    right: u64,
) -> Result<T, Fault> {
    Err(Fault(1, format!("refused vertex {x} degree {d} kind {kind} index {index} place {place} left {left} right {right}")))
}

pub fn need(vector: &[Entry]) -> u64 {
    vector.last().map_or(0, |e| u64::from(e.place) + 1)
}

/// Sizes of a vertex and degree: positions, equations, stalk and boundary coordinates.
pub struct Sizes {
    pub positions: u64,
    pub equations: u64,
    pub stalk: u64,
    pub boundary: u64,
}

impl<'a> Checker<'a> {
    pub fn coordinates(&self, degrees: &[usize], r: usize, d: usize) -> u64 {
        degrees
            .iter()
            .filter(|&&e| e <= d)
            .map(|&e| count(r, d - e) as u64)
            .sum()
    }

    pub fn stalk(&self, x: usize, d: usize) -> u64 {
        self.coordinates(&self.cert.part(x).degrees, self.r, d)
    }

    pub fn module(&self, e: usize, d: usize) -> u64 {
        self.coordinates(
            &self.cert.part(self.graph.edges[e].upper).degrees,
            self.r - 1,
            d,
        )
    }

    pub fn up(&self, x: usize) -> std::ops::Range<usize> {
        self.graph.starts[x]..self.graph.starts[x + 1]
    }

    pub fn levels(&self) -> LevelChecker<'_> {
        LevelChecker {
            cert: self.cert,
            stalks: Stalks::new(self.graph, &self.tables, self.r),
            n: self.n,
            p: self.tables.p,
        }
    }

    pub fn shape(&self) -> Result<Vec<Vec<Sizes>>, Fault> {
        let (cert, n) = (self.cert, self.n);
        if cert.parts.len() != n {
            return refused(0, 0, "Shape", 0, 0, cert.parts.len() as u64, n as u64);
        }
        let degrees = cert.job.degree + 1;
        let stalks: Vec<Vec<u64>> = (0..n)
            .map(|x| (0..degrees).map(|d| self.stalk(x, d)).collect())
            .collect();
        let boundaries: Vec<Vec<u64>> = (0..n)
            .map(|x| {
                (0..degrees)
                    .map(|d| self.up(x).map(|e| self.module(e, d)).sum())
                    .collect()
            })
            .collect();
        let levels = self.levels();
        let mut members: Vec<u64> = (0..degrees).map(|d| count(self.r, d) as u64).collect();
        let mut fresh = vec![0; degrees];
        let mut all: Vec<Vec<Sizes>> = Vec::new();
        for x in (0..n.saturating_sub(1)).rev() {
            let part = cert.part(x);
            let mut index = self.vertex_shape(x, part)?;
            let mut row = Vec::new();
            if x + 1 < n && self.graph.lengths[x] < self.graph.lengths[x + 1] {
                (0..degrees).for_each(|d| members[d] += std::mem::take(&mut fresh[d]));
            }
            for d in 0..degrees {
                if cert.version > 1 {
                    let sizes = LevelSizes {
                        members: members[d],
                        stalk: stalks[x][d],
                        boundary: boundaries[x][d],
                    };
                    levels.block_shape(x, d, index, &part.blocks[d], &sizes)?;
                    fresh[d] += (part.blocks[d].basis.to - part.blocks[d].basis.from) as u64;
                    index = 0;
                    continue;
                }
                let over = |table: &Vec<Vec<u64>>| {
                    (0..n)
                        .filter(|&y| self.above[x][y])
                        .map(|y| table[y][d])
                        .sum()
                };
                let sizes = Sizes {
                    positions: over(&stalks),
                    equations: over(&boundaries),
                    stalk: stalks[x][d],
                    boundary: boundaries[x][d],
                };
                self.block_shape(x, d, index, &part.blocks[d], &sizes)?;
                index = 0;
                row.push(sizes);
            }
            all.push(row);
        }
        all.reverse();
        Ok(all)
    }

    pub fn vertex_shape(&self, x: usize, part: &Part) -> Result<u64, Fault> {
        let up = self.up(x);
        if part.edges as usize != up.len() {
            return refused(x, 0, "Shape", 0, 0, u64::from(part.edges), up.len() as u64);
        }
        let mut index = 1;
        for (e, edge) in up.enumerate() {
            for (g, &degree) in part.degrees.iter().enumerate() {
                let lift = self
                    .cert
                    .vector(part.lifts.from + e * part.degrees.len() + g);
                let room = self.stalk(self.graph.edges[edge].upper, degree);
                if need(lift) > room {
                    return refused(x, 0, "Shape", index, 0, need(lift), room);
                }
                index += 1;
            }
        }
        Ok(index)
    }

    pub fn block_shape(
        &self,
        x: usize,
        d: usize,
        first: u64,
        block: &Block,
        sizes: &Sizes,
    ) -> Result<(), Fault> {
        let free = (block.basis.to - block.basis.from) as u64;
        let total = block.pivots.len() as u64 + free;
        if total != sizes.positions {
            return refused(x, d, "Shape", first, 0, total, sizes.positions);
        }
        let mut index = first + 1;
        let last_pivot = block.pivots.last().map_or(0, |&p| u64::from(p) + 1);
        let vectors = |run: Run| (run.from..run.to).map(|i| need(self.cert.vector(i)));
        let largest = sizes
            .positions
            .max(sizes.equations)
            .max(sizes.stalk)
            .max(sizes.boundary);
        let runs = [
            (block.basis, sizes.positions),
            (block.rows, sizes.equations),
            (block.covers, sizes.stalk),
            (block.sources, free),
            (block.duals, sizes.boundary),
        ];
        let needs = std::iter::once((last_pivot, sizes.positions))
            .chain(
                runs.into_iter()
                    .flat_map(|(run, room)| vectors(run).map(move |n| (n, room))),
            )
            .chain(std::iter::once((largest, MOST as u64)));
        for (needed, room) in needs {
            if needed > room {
                return refused(x, d, "Shape", index, 0, needed, room);
            }
            index += 1;
        }
        Ok(())
    }

    pub fn top(&self) -> Result<(), Fault> {
        let degrees = &self.cert.part(self.n - 1).degrees;
        if degrees.len() != 1 {
            return refused(self.n - 1, 0, "Top", 0, 0, degrees.len() as u64, 1);
        }
        if degrees[0] != 0 {
            return refused(self.n - 1, 0, "Top", 1, 0, degrees[0] as u64, 0);
        }
        Ok(())
    }

    /// The maps to the edge module of an edge in one degree, from the lower and from the upper stalk.
    pub fn maps(&self, e: usize, d: usize) -> (Rows, Rows) {
        let edge = &self.graph.edges[e];
        let (part, above) = (self.cert.part(edge.lower), self.cert.part(edge.upper));
        let rows = self.module(e, d) as usize;
        let normal = &self.tables.normal[&edge.label];
        let mut lower = vec![0; rows * self.stalk(edge.lower, d) as usize];
        let mut at = 0;
        for (g, &degree) in part
            .degrees
            .iter()
            .enumerate()
            .filter(|(_, degree)| **degree <= d)
        {
            let lift = self.cert.vector(
                part.lifts.from + (e - self.graph.starts[edge.lower]) * part.degrees.len() + g,
            );
            for m in &self.tables.listing[d - degree] {
                self.add_lift(
                    lift,
                    degree,
                    m,
                    d,
                    &above.degrees,
                    normal,
                    &mut lower[at..at + rows],
                );
                at += rows;
            }
        }
        let mut upper = vec![0; rows * self.stalk(edge.upper, d) as usize];
        let (mut column, mut start) = (0, 0);
        for &degree in above.degrees.iter().filter(|degree| **degree <= d) {
            for form in &normal[d - degree] {
                form.iter()
                    .for_each(|f| upper[column + start + f.place as usize] = u32::from(f.value));
                column += rows;
            }
            start += count(self.r - 1, d - degree);
        }
        (
            Rows::of_columns(&lower, rows),
            Rows::of_columns(&upper, rows),
        )
    }

    /// Adds the normal form of the monomial times the lift.
    pub fn add_lift(
        &self,
        lift: &[Entry],
        degree: usize,
        m: &Exponents,
        d: usize,
        above: &[usize],
        normal: &[Vec<Vec<Entry>>],
        column: &mut [u32],
    ) {
        let (mut from, mut start) = (0, 0);
        for &h in above.iter().filter(|h| **h <= d) {
            if h <= degree {
                let list = &self.tables.listing[degree - h];
                for entry in lift
                    .iter()
                    .filter(|e| (from..from + list.len()).contains(&(e.place as usize)))
                {
                    let other = &list[entry.place as usize - from];
                    let product = std::array::from_fn(|k| m[k] + other[k]);
                    for f in &normal[d - h][self.tables.number[&product]] {
                        let n = &mut column[start + f.place as usize];
                        *n = (*n + u32::from(entry.value) * u32::from(f.value)) % self.tables.p;
                    }
                }
                from += list.len();
            }
            start += count(self.r - 1, d - h);
        }
    }

    pub fn blocks(&self, sizes: &[Vec<Sizes>]) -> Result<(), Fault> {
        let degrees = self.cert.job.degree + 1;
        let maps: Vec<Vec<(Rows, Rows)>> = (0..degrees)
            .map(|d| {
                (0..self.graph.edges.len())
                    .map(|e| self.maps(e, d))
                    .collect()
            })
            .collect();
        let most = sizes
            .iter()
            .flatten()
            .map(|s| s.positions.max(s.boundary).max(s.stalk).max(s.equations))
            .max();
        let mut work = Work {
            sums: vec![0; most.unwrap_or(0) as usize],
            other: vec![0; most.unwrap_or(0) as usize],
            starts: vec![0; self.n],
            equations: Vec::new(),
        };
        for x in (0..self.n - 1).rev() {
            for d in 0..degrees {
                self.block(x, d, &sizes[x][d], &maps[d], &mut work)?;
            }
        }
        Ok(())
    }

    pub fn block(
        &self,
        x: usize,
        d: usize,
        sizes: &Sizes,
        maps: &[(Rows, Rows)],
        work: &mut Work,
    ) -> Result<(), Fault> {
        let block = &self.cert.part(x).blocks[d];
        work.equations.clear();
        let mut start = 0;
        for y in (0..self.n).filter(|&y| self.above[x][y]) {
            work.starts[y] = start;
            start += self.stalk(y, d) as usize;
            for e in self.up(y) {
                work.equations
                    .extend((0..maps[e].0.ends.len()).map(|i| (e as u32, i as u32)));
            }
        }
        self.sections(x, d, sizes, block, maps, work)?;
        self.rows(x, d, sizes, block, maps, work)?;
        self.covers(x, d, block, maps, work)
    }

    pub fn sections(
        &self,
        x: usize,
        d: usize,
        sizes: &Sizes,
        block: &Block,
        maps: &[(Rows, Rows)],
        work: &mut Work,
    ) -> Result<(), Fault> {
        let p = self.tables.p;
        let mut marks = vec![false; sizes.positions as usize];
        block.pivots.iter().for_each(|&k| marks[k as usize] = true);
        for index in 0..block.basis.to - block.basis.from {
            let tuple = self.cert.vector(block.basis.from + index);
            let sums = &mut work.sums[..sizes.positions as usize];
            sums.fill(0);
            tuple
                .iter()
                .for_each(|e| sums[e.place as usize] = u32::from(e.value));
            for (k, j) in (0..marks.len()).filter(|&j| !marks[j]).enumerate() {
                let want = u32::from(k == index);
                if sums[j] != want {
                    return refused(
                        x,
                        d,
                        "Section",
                        index as u64,
                        k as u64,
                        u64::from(sums[j]),
                        u64::from(want),
                    );
                }
            }
            let free = (block.basis.to - block.basis.from) as u64;
            for (k, &(e, i)) in work.equations.iter().enumerate() {
                let edge = &self.graph.edges[e as usize];
                let (lower, upper) = &maps[e as usize];
                let value = dot(lower.row(i as usize), &sums[work.starts[edge.lower]..]) % p
                    + (p - dot(upper.row(i as usize), &sums[work.starts[edge.upper]..]) % p);
                if value % p != 0 {
                    return refused(
                        x,
                        d,
                        "Section",
                        index as u64,
                        free + k as u64,
                        u64::from(value % p),
                        0,
                    );
                }
            }
        }
        Ok(())
    }

    pub fn rows(
        &self,
        x: usize,
        d: usize,
        sizes: &Sizes,
        block: &Block,
        maps: &[(Rows, Rows)],
        work: &mut Work,
    ) -> Result<(), Fault> {
        let p = self.tables.p;
        for index in 0..block.rows.to - block.rows.from {
            let sums = &mut work.sums[..sizes.positions as usize];
            sums.fill(0);
            for entry in self.cert.vector(block.rows.from + index) {
                let (e, i) = work.equations[entry.place as usize];
                let edge = &self.graph.edges[e as usize];
                let (lower, upper) = &maps[e as usize];
                let c = u32::from(entry.value);
                add(
                    c,
                    lower.row(i as usize),
                    &mut sums[work.starts[edge.lower]..],
                );
                add(
                    p - c,
                    upper.row(i as usize),
                    &mut sums[work.starts[edge.upper]..],
                );
            }
            for (k, &pivot) in block.pivots.iter().enumerate() {
                let (left, want) = (sums[pivot as usize] % p, u32::from(k == index));
                if left != want {
                    return refused(
                        x,
                        d,
                        "Row",
                        index as u64,
                        u64::from(pivot),
                        u64::from(left),
                        u64::from(want),
                    );
                }
            }
        }
        Ok(())
    }

    /// The boundary at x of a combination of tuples.
    pub fn tuple_boundary(
        &self,
        x: usize,
        d: usize,
        block: &Block,
        terms: &[Entry],
        maps: &[(Rows, Rows)],
        work: &mut Work,
    ) -> Vec<u32> {
        work.sums.fill(0);
        for term in terms {
            let tuple = self.cert.vector(block.basis.from + term.place as usize);
            tuple.iter().for_each(|e| {
                work.sums[e.place as usize] += u32::from(term.value) * u32::from(e.value)
            });
        }
        work.sums.iter_mut().for_each(|n| *n %= self.tables.p);
        let _ = d;
        self.up(x)
            .flat_map(|e| {
                let upper = &maps[e].1;
                let value = &work.sums[work.starts[self.graph.edges[e].upper]..];
                (0..upper.ends.len()).map(move |i| dot(upper.row(i), value) % self.tables.p)
            })
            .collect()
    }

    pub fn boundary(
        &self,
        x: usize,
        element: &[Entry],
        maps: &[(Rows, Rows)],
        other: &mut [u32],
    ) -> Vec<u32> {
        other.fill(0);
        element
            .iter()
            .for_each(|e| other[e.place as usize] = u32::from(e.value));
        let rows = self
            .up(x)
            .flat_map(|e| (0..maps[e].0.ends.len()).map(move |i| (e, i)));
        rows.map(|(e, i)| dot(maps[e].0.row(i), other) % self.tables.p)
            .collect()
    }

    pub fn covers(
        &self,
        x: usize,
        d: usize,
        block: &Block,
        maps: &[(Rows, Rows)],
        work: &mut Work,
    ) -> Result<(), Fault> {
        for index in 0..block.covers.to - block.covers.from {
            let left = self.boundary(
                x,
                self.cert.vector(block.covers.from + index),
                maps,
                &mut work.other,
            );
            let one = [Entry {
                place: index as u32,
                value: 1,
            }];
            let right = self.tuple_boundary(x, d, block, &one, maps, work);
            compare(x, d, "Cover", index, &left, &right)?;
        }
        let degrees = &self.cert.part(x).degrees;
        let mut own = 0;
        let mut generators = Vec::new();
        for (g, &degree) in degrees
            .iter()
            .enumerate()
            .filter(|(_, degree)| **degree <= d)
        {
            if degree == d {
                generators.push((g, own));
            }
            own += count(self.r, d - degree);
        }
        for (t, &(g, place)) in generators.iter().enumerate() {
            let unit = [Entry {
                place: place as u32,
                value: 1,
            }];
            let left = self.boundary(x, &unit, maps, &mut work.other);
            let right = self.tuple_boundary(
                x,
                d,
                block,
                self.cert.vector(block.sources.from + t),
                maps,
                work,
            );
            compare(x, d, "Source", g, &left, &right)?;
        }
        let rows: Vec<(usize, usize)> = self
            .up(x)
            .flat_map(|e| (0..maps[e].0.ends.len()).map(move |i| (e, i)))
            .collect();
        for (t, &(g, place)) in generators.iter().enumerate() {
            let mut form = vec![0; own];
            for entry in self.cert.vector(block.duals.from + t) {
                let (e, i) = rows[entry.place as usize];
                add(u32::from(entry.value), maps[e].0.row(i), &mut form);
            }
            form.iter_mut().for_each(|n| *n %= self.tables.p);
            let want: Vec<u32> = (0..own).map(|j| u32::from(j == place)).collect();
            compare(x, d, "Dual", g, &form, &want)?;
        }
        Ok(())
    }
}

pub struct Work {
    pub sums: Vec<u32>,
    pub other: Vec<u32>,
    pub starts: Vec<usize>,
    pub equations: Vec<(u32, u32)>,
}

pub fn dot(row: &[Entry], numbers: &[u32]) -> u32 {
    row.iter()
        .map(|e| u32::from(e.value) * numbers[e.place as usize])
        .sum()
}

pub fn add(c: u32, row: &[Entry], sums: &mut [u32]) {
    row.iter()
        .for_each(|e| sums[e.place as usize] += c * u32::from(e.value));
}

pub fn compare(
    x: usize,
    d: usize,
    kind: &str,
    index: usize,
    left: &[u32],
    right: &[u32],
) -> Result<(), Fault> {
    match (0..left.len()).find(|&i| left[i] != right[i]) {
        Some(i) => refused(
            x,
            d,
            kind,
            index as u64,
            i as u64,
            u64::from(left[i]),
            u64::from(right[i]),
        ),
        None => Ok(()),
    }
}

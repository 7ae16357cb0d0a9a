//! The comparisons of versions 2 and 3, a level at a time.
use crate::cert::{Block, Cert, MOST};
use crate::families::{BoundaryMap, Family, Run, Stalks, Sums};
use crate::tables::count;
use crate::verdict::{compare, need, refused};
use crate::{Entry, Fault};

/// The sizes that a block by levels is compared with.
pub struct LevelSizes {
    pub members: u64,
    pub stalk: u64,
    pub boundary: u64,
}

pub struct LevelChecker<'a> {
    pub cert: &'a Cert,
    pub stalks: Stalks<'a>,
    pub n: usize,
    pub p: u32,
}

impl LevelChecker<'_> {
    fn degrees(&self, x: usize) -> &[usize] {
        &self.cert.part(x).degrees
    }

    pub fn block_shape(&self, x: usize, d: usize, first: u64, block: &Block, sizes: &LevelSizes) -> Result<(), Fault> {
        let count_of = |run: crate::cert::Run| (run.to - run.from) as u64;
        let members = count_of(block.covers);
        let total = block.pivots.len() as u64 + count_of(block.basis);
        let equals = [(members, sizes.members), (total, sizes.stalk)];
        let mut index = first;
        for (left, right) in equals {
            if left != right {
                return refused(x, d, "Shape", index, 0, left, right);
            }
            index += 1;
        }
        let last_pivot = block.pivots.last().map_or(0, |&p| u64::from(p) + 1);
        let runs = [
            (block.covers, sizes.stalk),
            (block.sources, members),
            (block.duals, sizes.boundary),
            (block.basis, sizes.stalk),
            (block.rows, sizes.boundary),
        ];
        let vectors = |run: crate::cert::Run| (run.from..run.to).map(|i| need(self.cert.vector(i)));
        let needs = std::iter::once((last_pivot, sizes.stalk))
            .chain(runs.into_iter().flat_map(|(run, room)| vectors(run).map(move |n| (n, room))))
            .chain(std::iter::once((sizes.stalk.max(sizes.boundary), MOST as u64)));
        for (needed, room) in needs {
            if needed > room {
                return refused(x, d, "Shape", index, 0, needed, room);
            }
            index += 1;
        }
        Ok(())
    }

    /// All blocks, level by level; in each degree the family grows by the blocks of a level once these were compared.
    pub fn blocks(&self) -> Result<(), Fault> {
        let degrees = self.cert.job.degree + 1;
        let tables = self.stalks.tables;
        let mut families: Vec<Family> = (0..degrees).map(|d| Family::top(self.n, tables.listing[d].len())).collect();
        let mut work = Work {
            map: BoundaryMap::default(),
            covers: Vec::new(),
            sums: Sums::new(self.p),
        };
        let lengths = &self.stalks.graph.lengths;
        let mut next = self.n - 1;
        while next > 0 {
            let level = lengths[next - 1];
            let before: Vec<usize> = families.iter().map(|f| f.members).collect();
            while next > 0 && lengths[next - 1] == level {
                next -= 1;
                for d in 0..degrees {
                    self.block(next, d, before[d], &mut families[d], &mut work)?;
                }
            }
        }
        Ok(())
    }

    fn block(&self, x: usize, d: usize, members: usize, family: &mut Family, work: &mut Work) -> Result<(), Fault> {
        let block = &self.cert.part(x).blocks[d];
        self.fill_map(x, d, &mut work.map);
        let stalk = work.map.columns;
        let free = block.basis.to - block.basis.from;
        // the covers, and behind them the new members that are not 0 at this vertex
        let run = family.members + free;
        work.covers.clear();
        work.covers.resize(stalk * run, 0);
        for j in 0..members {
            let cover = self.cert.vector(block.covers.from + j);
            cover.iter().for_each(|e| work.covers[e.place as usize * run + j] = e.value);
        }
        self.covers(x, d, members, run, family, work)?;
        self.sources(x, d, block, family, &work.map)?;
        self.duals(x, d, block, &work.map)?;
        self.kernel(x, d, block, &work.map)?;
        for k in 0..free {
            let vector = self.cert.vector(block.basis.from + k);
            vector.iter().for_each(|e| work.covers[e.place as usize * run + family.members + k] = e.value);
        }
        family.runs[x] = Run {
            members: run,
            numbers: work.covers.clone(),
        };
        family.members = run;
        Ok(())
    }

    fn fill_map(&self, x: usize, d: usize, map: &mut BoundaryMap) {
        let (stalks, degrees) = (&self.stalks, self.degrees(x));
        let uppers = || stalks.up(x).map(|e| (e, self.degrees(stalks.graph.edges[e].upper)));
        let mut starts = vec![0];
        uppers().for_each(|(_, above)| starts.push(starts[starts.len() - 1] + stalks.coordinates(above, stalks.r - 1, d)));
        map.clear(starts);
        let lifts = self.cert.part(x).lifts.from;
        for (g, &degree) in degrees.iter().enumerate().filter(|(_, degree)| **degree <= d) {
            for m in 0..stalks.tables.listing[d - degree].len() {
                map.push();
                let from = map.numbers.len() - map.rows;
                for (i, (e, above)) in uppers().enumerate() {
                    let lift = self.cert.vector(lifts + i * degrees.len() + g);
                    let column = &mut map.numbers[from + map.starts[i]..from + map.starts[i + 1]];
                    stalks.add_lift(e, lift, degree, m, d, above, column);
                }
            }
        }
    }

    /// For each boundary coordinate the members' numbers less the covers', all members at once.
    fn covers(&self, x: usize, d: usize, members: usize, run: usize, family: &Family, work: &mut Work) -> Result<(), Fault> {
        let mut worst: Option<(usize, usize)> = None;
        for (i, e) in self.stalks.up(x).enumerate() {
            let y = self.stalks.graph.edges[e].upper;
            let rows = work.map.starts[i + 1] - work.map.starts[i];
            let mut upper = vec![Vec::new(); rows];
            self.stalks.each_upper(e, d, self.degrees(y), |c, row, value| upper[row].push((c, value)));
            for (row, entries) in upper.iter().enumerate() {
                work.sums.clear(members);
                entries.iter().for_each(|&(c, value)| work.sums.add(value, family.coordinate(y, c)));
                let place = work.map.starts[i] + row;
                for k in 0..work.map.columns {
                    let n = u32::from(work.map.numbers[k * work.map.rows + place]);
                    if n != 0 {
                        work.sums.add(self.p - n, &work.covers[k * run..k * run + members]);
                    }
                }
                if let Some(j) = work.sums.first() {
                    worst = worst.filter(|w| *w < (j, place)).or(Some((j, place)));
                }
            }
        }
        match worst {
            None => Ok(()),
            Some((j, place)) => {
                let element = |k: usize| work.covers[k * run + j];
                let left = self.combined(&work.map, place, element);
                let right = self.member_boundary(x, d, family, &work.map, place, &[(j, 1)]);
                refused(x, d, "Cover", j as u64, place as u64, u64::from(left), u64::from(right))
            }
        }
    }

    fn combined(&self, map: &BoundaryMap, place: usize, element: impl Fn(usize) -> u8) -> u32 {
        let row = (0..map.columns).map(|k| u32::from(map.column(k)[place]) * u32::from(element(k)));
        row.sum::<u32>() % self.p
    }

    /// One boundary coordinate of a combination of members.
    fn member_boundary(
        &self,
        x: usize,
        d: usize,
        family: &Family,
        map: &BoundaryMap,
        place: usize,
        terms: &[(usize, u32)],
    ) -> u32 {
        let i = map.starts.partition_point(|&s| s <= place) - 1;
        let e = self.stalks.graph.starts[x] + i;
        let y = self.stalks.graph.edges[e].upper;
        let mut sum = 0;
        self.stalks.each_upper(e, d, self.degrees(y), |c, row, value| {
            if row == place - map.starts[i] {
                let number = |&(j, v): &(usize, u32)| v * u32::from(family.number(y, c, j));
                sum = (sum + value * (terms.iter().map(number).sum::<u32>() % self.p)) % self.p;
            }
        });
        sum
    }

    /// Generators of degree d with their coordinates.
    fn generators(&self, x: usize, d: usize) -> Vec<(usize, usize)> {
        let mut start = 0;
        let mut out = Vec::new();
        for (g, &degree) in self.degrees(x).iter().enumerate().filter(|(_, degree)| **degree <= d) {
            if degree == d {
                out.push((g, start));
            }
            start += count(self.stalks.r, d - degree);
        }
        out
    }

    fn sources(&self, x: usize, d: usize, block: &Block, family: &Family, map: &BoundaryMap) -> Result<(), Fault> {
        for (t, (g, place)) in self.generators(x, d).into_iter().enumerate() {
            let source = self.cert.vector(block.sources.from + t);
            let terms: Vec<(usize, u32)> = source.iter().map(|e| (e.place as usize, u32::from(e.value))).collect();
            let left: Vec<u32> = map.column(place).iter().map(|&n| u32::from(n)).collect();
            let right: Vec<u32> =
                (0..map.rows).map(|i| self.member_boundary(x, d, family, map, i, &terms)).collect();
            compare(x, d, "Source", g, &left, &right)?;
        }
        Ok(())
    }

    fn form(&self, vector: &[Entry], column: &[u8]) -> u32 {
        vector.iter().map(|e| u32::from(e.value) * u32::from(column[e.place as usize])).sum::<u32>() % self.p
    }

    fn duals(&self, x: usize, d: usize, block: &Block, map: &BoundaryMap) -> Result<(), Fault> {
        for (t, (g, place)) in self.generators(x, d).into_iter().enumerate() {
            let dual = self.cert.vector(block.duals.from + t);
            let left: Vec<u32> = (0..map.columns).map(|k| self.form(dual, map.column(k))).collect();
            let right: Vec<u32> = (0..map.columns).map(|k| u32::from(k == place)).collect();
            compare(x, d, "Dual", g, &left, &right)?;
        }
        Ok(())
    }

    fn kernel(&self, x: usize, d: usize, block: &Block, map: &BoundaryMap) -> Result<(), Fault> {
        let mut is_pivot = vec![false; map.columns];
        block.pivots.iter().for_each(|&k| is_pivot[k as usize] = true);
        let free: Vec<usize> = (0..map.columns).filter(|&k| !is_pivot[k]).collect();
        let basis = block.basis.to - block.basis.from;
        let refuse = |index: usize, place: usize, left: u32, right: bool| {
            refused(x, d, "Kernel", index as u64, place as u64, u64::from(left), u64::from(right))
        };
        for index in 0..basis {
            let mut element = vec![0; map.columns];
            let vector = self.cert.vector(block.basis.from + index);
            vector.iter().for_each(|e| element[e.place as usize] = e.value);
            for (k, &place) in free.iter().enumerate() {
                if u32::from(element[place]) != u32::from(k == index) {
                    return refuse(index, k, u32::from(element[place]), k == index);
                }
            }
            for place in 0..map.rows {
                let left = self.combined(map, place, |k| element[k]);
                if left != 0 {
                    return refuse(index, basis + place, left, false);
                }
            }
        }
        for index in 0..block.pivots.len() {
            let row = self.cert.vector(block.rows.from + index);
            for (k, &pivot) in block.pivots.iter().enumerate() {
                let left = self.form(row, map.column(pivot as usize));
                if left != u32::from(k == index) {
                    return refuse(basis + index, pivot as usize, left, k == index);
                }
            }
        }
        Ok(())
    }
}

struct Work {
    map: BoundaryMap,
    covers: Vec<u8>,
    sums: Sums,
}

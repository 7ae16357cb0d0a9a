//! The rules of a job, and its moment graph.
use crate::cert::{Job, Lattice};
use crate::tables::count;
use crate::{Exponents, Fault};
use std::collections::{HashMap, HashSet};

/// The primes of the fields that a job may name.
const PRIMES: [u8; 18] = [2, 3, 5, 7, 11, 13, 17, 19, 23, 29, 31, 37, 41, 43, 47, 53, 59, 61];

pub type Root = [i32; 6];
pub type Matrix = [i32; 36];

pub fn job_fault<T>(line: String) -> Result<T, Fault> {
    Err(Fault(3, format!("job {line}")))
}

pub fn check_cartan(job: &Job) -> Result<(), Fault> {
    let r = job.rank;
    if r == 0 || r > 6 {
        return job_fault("cartan rank".into());
    }
    let places = || (0..r).flat_map(|i| (0..r).map(move |j| (i, j)));
    if let Some(i) = (0..r).find(|&i| job.cartan[i * r + i] != 2) {
        return job_fault(format!("cartan diagonal {}", i + 1));
    }
    if let Some((i, j)) =
        places().find(|&(i, j)| i != j && !(-32..=0).contains(&job.cartan[i * r + j]))
    {
        return job_fault(format!("cartan off-diagonal {} {}", i + 1, j + 1));
    }
    if let Some((i, j)) =
        places().find(|&(i, j)| job.cartan[i * r + j] == 0 && job.cartan[j * r + i] != 0)
    {
        return job_fault(format!("cartan unpaired-zero {} {}", i + 1, j + 1));
    }
    Ok(())
}

pub fn close_roots(job: &Job) -> Result<Vec<(Root, Root)>, Fault> {
    let r = job.rank;
    let unit = |k: usize| std::array::from_fn(|i| i32::from(i == k));
    let mut list: Vec<(Root, Root)> = (0..r).map(|k| (unit(k), unit(k))).collect();
    let mut at = 0;
    while at < list.len() {
        let (root, coroot) = list[at];
        for k in 0..r {
            let (mut b, mut c) = (root, coroot);
            for j in 0..r {
                b[k] -= job.cartan[k * r + j] as i32 * root[j];
                c[k] -= job.cartan[j * r + k] as i32 * coroot[j];
            }
            if list.contains(&(b, c)) {
                continue;
            }
            let kind = if b.iter().chain(&c).any(|x| x.abs() > 32) {
                "coordinate"
            } else if b.iter().any(|&x| x > 0) && b.iter().any(|&x| x < 0) {
                "sign"
            } else if list.len() == 72 {
                "pairs"
            } else {
                list.push((b, c));
                continue;
            };
            let coordinates: Vec<String> = b[..r].iter().map(|x| x.to_string()).collect();
            return job_fault(format!("finite {kind} {}", coordinates.join(" ")));
        }
        at += 1;
    }
    Ok(list
        .into_iter()
        .filter(|(b, _)| b.iter().all(|&x| x >= 0))
        .collect())
}

pub fn length(e: &Matrix, positive: &[(Root, Root)], r: usize) -> u32 {
    let negative = |b: &Root| (0..r).any(|i| (0..r).map(|j| e[i * 6 + j] * b[j]).sum::<i32>() < 0);
    positive.iter().filter(|(b, _)| negative(b)).count() as u32
}

pub fn times(a: &Matrix, b: &Matrix, r: usize) -> Matrix {
    let mut c = [0; 36];
    for i in 0..r {
        for j in 0..r {
            c[i * 6 + j] = (0..r).map(|k| a[i * 6 + k] * b[k * 6 + j]).sum();
        }
    }
    c
}

pub fn reflection(job: &Job, root: &Root, coroot: &Root) -> Matrix {
    let r = job.rank;
    let mut t = [0; 36];
    for j in 0..r {
        let value: i32 = (0..r)
            .map(|k| coroot[k] * job.cartan[k * r + j] as i32)
            .sum();
        for i in 0..r {
            t[i * 6 + j] = i32::from(i == j) - value * root[i];
        }
    }
    t
}

pub struct Edge {
    pub lower: usize,
    pub upper: usize,
    pub label: Exponents,
}

pub struct Graph {
    pub lengths: Vec<u32>,
    pub edges: Vec<Edge>,
    /// By vertex the first edge that goes up from it; last the number of edges.
    pub starts: Vec<usize>,
}

pub fn accept(job: &Job) -> Result<Graph, Fault> {
    check_cartan(job)?;
    let positive = close_roots(job)?;
    if !PRIMES.contains(&job.prime) {
        return job_fault(format!("prime {}", job.prime));
    }
    let r = job.rank;
    if let Some(place) = job.word.iter().position(|&c| c == 0 || c as usize > r) {
        return job_fault(format!("letter {place}"));
    }
    let mut identity = [0; 36];
    (0..r).for_each(|i| identity[i * 6 + i] = 1);
    let simple: Vec<Matrix> = positive[..r]
        .iter()
        .map(|(b, c)| reflection(job, b, c))
        .collect();
    let w = job
        .word
        .iter()
        .fold(identity, |e, &c| times(&e, &simple[c as usize - 1], r));
    let reached = length(&w, &positive, r);
    if reached as usize != job.word.len() {
        return job_fault(format!("reduced {reached}"));
    }
    let mut found: HashSet<Matrix> = HashSet::from([identity]);
    for &c in &job.word {
        let more: Vec<Matrix> = found
            .iter()
            .map(|e| times(e, &simple[c as usize - 1], r))
            .collect();
        found.extend(more);
        if found.len() > 4096 {
            return job_fault("vertices 4097".into());
        }
    }
    if job.degree > 6 {
        return job_fault(format!("degree {}", job.degree));
    }
    let size = found.len() * count(r, job.degree);
    if size > 400_000 {
        return job_fault(format!("size {size}"));
    }
    let mut vertices: Vec<(u32, Matrix)> = found
        .into_iter()
        .map(|e| (length(&e, &positive, r), e))
        .collect();
    vertices.sort();
    let graph = graph_of(job, &positive, &vertices);
    if let Some(edge) = graph.edges.iter().find(|e| e.label == [0; 6]) {
        return job_fault(format!("label {} {}", edge.lower, edge.upper));
    }
    check_gkm(job, &graph)?;
    Ok(graph)
}

/// Coordinate i of a root's linear form: by simple roots, or by fundamental weights.
pub fn form_of(job: &Job, root: &Root, i: usize) -> i32 {
    match job.lattice {
        Lattice::Weight if i < job.rank => {
            (0..job.rank).map(|j| job.cartan[i * job.rank + j] as i32 * root[j]).sum()
        }
        _ => root[i],
    }
}

pub fn graph_of(job: &Job, positive: &[(Root, Root)], vertices: &[(u32, Matrix)]) -> Graph {
    let (r, p) = (job.rank, i32::from(job.prime));
    let numbers: HashMap<Matrix, usize> =
        vertices.iter().enumerate().map(|(x, v)| (v.1, x)).collect();
    let mut edges = Vec::new();
    for (root, coroot) in positive {
        let t = reflection(job, root, coroot);
        let label = std::array::from_fn(|i| form_of(job, root, i).rem_euclid(p) as u8);
        for (x, v) in vertices.iter().enumerate() {
            match numbers.get(&times(&t, &v.1, r)) {
                Some(&y) if vertices[y].0 > v.0 => edges.push(Edge {
                    lower: x,
                    upper: y,
                    label,
                }),
                _ => {}
            }
        }
    }
    edges.sort_by_key(|e| (e.lower, e.upper));
    let n = vertices.len();
    let starts = (0..=n)
        .map(|x| edges.partition_point(|e| e.lower < x))
        .collect::<Vec<_>>();
    Graph {
        lengths: vertices.iter().map(|v| v.0).collect(),
        edges,
        starts,
    }
}

impl Graph {
    /// By vertex which vertices are above it.
    pub fn above(&self) -> Vec<Vec<bool>> {
        let n = self.lengths.len();
        let mut above = vec![vec![false; n]; n];
        for x in (0..n).rev() {
            for edge in &self.edges[self.starts[x]..self.starts[x + 1]] {
                let upper = std::mem::take(&mut above[edge.upper]);
                above[x].iter_mut().zip(&upper).for_each(|(a, b)| *a |= b);
                above[x][edge.upper] = true;
                above[edge.upper] = upper;
            }
        }
        above
    }
}

pub fn check_gkm(job: &Job, graph: &Graph) -> Result<(), Fault> {
    let (r, p) = (job.rank, u32::from(job.prime));
    let parallel = |a: &Exponents, b: &Exponents| {
        (0..r).all(|i| {
            (0..r).all(|j| {
                u32::from(a[i]) * u32::from(b[j]) % p == u32::from(a[j]) * u32::from(b[i]) % p
            })
        })
    };
    let mut ends = vec![Vec::new(); graph.lengths.len()];
    for (e, edge) in graph.edges.iter().enumerate() {
        ends[edge.lower].push(e);
        ends[edge.upper].push(e);
    }
    for (x, ends) in ends.iter().enumerate() {
        for (i, &a) in ends.iter().enumerate() {
            for &b in &ends[i + 1..] {
                if parallel(&graph.edges[a].label, &graph.edges[b].label) {
                    return Err(Fault(4, format!("gkm vertex {x} edges {a} {b}")));
                }
            }
        }
    }
    Ok(())
}

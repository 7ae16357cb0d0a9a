//! Monomials and normal forms, made once, and rows of entries.
use crate::cert::Job;
use crate::job::Graph;
use crate::{Entry, Exponents};
use std::collections::HashMap;

pub fn count(r: usize, d: usize) -> usize {
    if r == 0 {
        return usize::from(d == 0);
    }
    (0..=d).map(|rest| count(r - 1, rest)).sum()
}

pub fn monomials(r: usize, d: usize) -> Vec<Exponents> {
    fn fill(m: &mut Exponents, k: usize, r: usize, rest: usize, out: &mut Vec<Exponents>) {
        if k + 1 == r {
            m[k] = rest as u8;
            out.push(*m);
            return;
        }
        for first in (0..=rest).rev() {
            m[k] = first as u8;
            fill(m, k + 1, r, rest - first, out);
        }
        m[k] = 0;
    }
    let mut out = Vec::new();
    fill(&mut [0; 6], 0, r, d, &mut out);
    out
}

/// Monomials by degree with their numbers, and the normal forms by each label.
pub struct Tables {
    pub p: u32,
    pub listing: Vec<Vec<Exponents>>,
    pub number: HashMap<Exponents, usize>,
    /// By label and degree, for each monomial its normal form's coefficients by pure monomials.
    pub normal: HashMap<Exponents, Vec<Vec<Vec<Entry>>>>,
    /// By two degrees, for each two monomials of these the number of their product.
    pub products: Vec<Vec<Vec<u32>>>,
}

impl Tables {
    pub fn new(job: &Job, graph: &Graph) -> Tables {
        let listing: Vec<Vec<Exponents>> =
            (0..=job.degree).map(|d| monomials(job.rank, d)).collect();
        let number = listing
            .iter()
            .flat_map(|l| l.iter().enumerate().map(|(i, m)| (*m, i)))
            .collect();
        let mut tables = Tables {
            p: u32::from(job.prime),
            listing,
            number,
            normal: HashMap::new(),
            products: Vec::new(),
        };
        tables.products = (0..=job.degree)
            .map(|a| (0..=job.degree - a).map(|b| tables.product_numbers(a, b)).collect())
            .collect();
        for edge in &graph.edges {
            if !tables.normal.contains_key(&edge.label) {
                let forms = (0..=job.degree)
                    .map(|d| tables.normal_forms(&edge.label, d))
                    .collect();
                tables.normal.insert(edge.label, forms);
            }
        }
        tables
    }

    fn product_numbers(&self, a: usize, b: usize) -> Vec<u32> {
        let times = |m: &Exponents, n: &Exponents| self.number[&std::array::from_fn(|k| m[k] + n[k])] as u32;
        let (left, right) = (&self.listing[a], &self.listing[b]);
        left.iter().flat_map(|m| right.iter().map(move |n| times(m, n))).collect()
    }

    pub fn normal_forms(&self, label: &Exponents, d: usize) -> Vec<Vec<Entry>> {
        let p = self.p;
        let lead = label.iter().position(|&c| c != 0).unwrap();
        let inverse = (1..p)
            .find(|n| n * u32::from(label[lead]) % p == 1)
            .unwrap();
        let list = &self.listing[d];
        let mut pure = 0;
        let mut forms: Vec<Vec<u32>> = vec![Vec::new(); list.len()];
        let pures = list.iter().filter(|m| m[lead] == 0).count();
        for (t, m) in list.iter().enumerate() {
            if m[lead] == 0 {
                forms[t] = vec![0; pures];
                forms[t][pure] = 1;
                pure += 1;
            }
        }
        let mut order: Vec<usize> = (0..list.len()).collect();
        order.sort_by_key(|&t| list[t][lead]);
        for t in order {
            let mut m = list[t];
            if m[lead] == 0 {
                continue;
            }
            m[lead] -= 1;
            let mut form = vec![0; pures];
            for k in lead + 1..6 {
                if label[k] != 0 {
                    let factor = (p - u32::from(label[k])) * inverse % p;
                    m[k] += 1;
                    let other = &forms[self.number[&m]];
                    form.iter_mut()
                        .zip(other)
                        .for_each(|(a, b)| *a = (*a + factor * b) % p);
                    m[k] -= 1;
                }
            }
            forms[t] = form;
        }
        forms.iter().map(|f| sparse(f)).collect()
    }
}

pub fn sparse(numbers: &[u32]) -> Vec<Entry> {
    let entries = numbers.iter().enumerate().filter(|(_, n)| **n != 0);
    entries
        .map(|(i, &n)| Entry {
            place: i as u32,
            value: n as u8,
        })
        .collect()
}

/// Rows of entries, one behind the other.
#[derive(Default)]
pub struct Rows {
    pub entries: Vec<Entry>,
    pub ends: Vec<usize>,
}

impl Rows {
    pub fn row(&self, i: usize) -> &[Entry] {
        let from = if i == 0 { 0 } else { self.ends[i - 1] };
        &self.entries[from..self.ends[i]]
    }

    /// From dense columns of `rows` numbers each.
    pub fn of_columns(columns: &[u32], rows: usize) -> Rows {
        let mut out = Rows::default();
        for i in 0..rows {
            for (j, &n) in columns[i..].iter().step_by(rows.max(1)).enumerate() {
                if n != 0 {
                    out.entries.push(Entry {
                        place: j as u32,
                        value: n as u8,
                    });
                }
            }
            out.ends.push(out.entries.len());
        }
        out
    }
}

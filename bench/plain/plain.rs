//! A plain checker and builder of certificates, std only and unproved: what the proved program is timed and compared with.
//!     plain check|build|ranks
//! reads a certificate (`check`) or a job on standard input, writes what the proved program would or the one line of the
//! first fault, and ends with the status. What is built has version 2, or 3 where the lattice isn't plain.
mod builder;
mod cert;
mod families;
mod job;
mod levels;
mod tables;
mod text;
mod verdict;
mod writer;

use builder::Builder;
use cert::{read_cert, read_job_text, Job};
use job::accept;
use std::io::{Read, Write};
use tables::Tables;
use verdict::Checker;

pub type Exponents = [u8; 6];

#[derive(Clone, Copy)]
pub struct Entry {
    pub place: u32,
    pub value: u8,
}

/// What ends a run: a status and the line that is written with it.
pub struct Fault(pub i32, pub String);

fn rank_lines<'a>(degree: usize, stalks: impl Iterator<Item = &'a [usize]>) -> Vec<u8> {
    let mut lines = String::new();
    for (x, degrees) in stalks.enumerate() {
        let counts = (0..=degree).map(|d| degrees.iter().filter(|&&e| e == d).count());
        lines += &format!("rank {x}{}\n", counts.map(|n| format!(" {n}")).collect::<String>());
    }
    lines.into_bytes()
}

fn check(bytes: &[u8]) -> Result<Vec<u8>, Fault> {
    let cert = read_cert(bytes)?;
    let graph = accept(&cert.job)?;
    let tables = Tables::new(&cert.job, &graph);
    let checker = Checker {
        cert: &cert,
        graph: &graph,
        tables,
        above: if cert.version == 1 { graph.above() } else { Vec::new() },
        r: cert.job.rank,
        n: graph.lengths.len(),
    };
    let sizes = checker.shape()?;
    checker.top()?;
    match cert.version {
        1 => checker.blocks(&sizes)?,
        _ => checker.levels().blocks()?,
    }
    Ok(rank_lines(cert.job.degree, (0..checker.n).map(|x| &cert.part(x).degrees[..])))
}

fn built(bytes: &[u8]) -> Result<(Job, Vec<builder::Part>), Fault> {
    let job = read_job_text(bytes)?;
    let graph = accept(&job)?;
    let tables = Tables::new(&job, &graph);
    let parts = Builder::new(&job, &graph, &tables).build();
    Ok((job, parts))
}

fn answer(command: &str, bytes: &[u8]) -> Result<Vec<u8>, Fault> {
    match command {
        "check" => check(bytes),
        "build" => built(bytes).map(|(job, parts)| writer::text_of(&job, &parts)),
        "ranks" => built(bytes).map(|(job, parts)| rank_lines(job.degree, parts.iter().map(|p| &p.degrees[..]))),
        _ => Err(Fault(64, "usage".into())),
    }
}

fn main() {
    let command = std::env::args().nth(1).unwrap_or_default();
    let mut bytes = Vec::new();
    std::io::stdin().lock().read_to_end(&mut bytes).unwrap();
    let (status, text) = match answer(&command, &bytes) {
        Ok(text) => (0, text),
        Err(Fault(status, line)) => (status, (line + "\n").into_bytes()),
    };
    std::io::stdout().lock().write_all(&text).unwrap();
    std::process::exit(status);
}

//! Certificates, read.
use crate::text::{text_fault, Text};
use crate::{Entry, Fault};

pub const MOST: i64 = 4_294_967_295;

#[derive(Clone, Copy, PartialEq)]
pub enum Lattice {
    Plain,
    Root,
    Weight,
}

pub struct Job {
    pub lattice: Lattice,
    pub rank: usize,
    pub cartan: Vec<i64>,
    pub prime: u8,
    pub word: Vec<u8>,
    pub degree: usize,
}

/// A run of vectors, each a run of entries.
#[derive(Default, Clone, Copy)]
pub struct Run {
    pub from: usize,
    pub to: usize,
}

#[derive(Default)]
pub struct Block {
    pub pivots: Vec<u32>,
    /// Tuples in version 1, kernel vectors of the boundary map in the others.
    pub basis: Run,
    pub rows: Run,
    pub covers: Run,
    pub sources: Run,
    pub duals: Run,
}

#[derive(Default)]
pub struct Part {
    pub degrees: Vec<usize>,
    pub edges: u32,
    pub lifts: Run,
    pub blocks: Vec<Block>,
}

/// All vectors stand one behind the other.
pub struct Cert {
    pub version: i64,
    pub job: Job,
    pub parts: Vec<Part>,
    pub entries: Vec<Entry>,
    pub ends: Vec<usize>,
}

impl Cert {
    pub fn vector(&self, i: usize) -> &[Entry] {
        let from = if i == 0 { 0 } else { self.ends[i - 1] };
        &self.entries[from..self.ends[i]]
    }

    pub fn part(&self, x: usize) -> &Part {
        &self.parts[self.parts.len() - 1 - x]
    }
}

/// The line `lattice`, which a job text 2 and a certificate of version 3 have.
pub fn read_lattice(text: &mut Text, there: bool) -> Result<Lattice, Fault> {
    Ok(match there {
        false => Lattice::Plain,
        true if text.single(b"lattice", 0, 1)? == 0 => Lattice::Root,
        true => Lattice::Weight,
    })
}

pub fn read_job(text: &mut Text, lattice: Lattice) -> Result<Job, Fault> {
    let rank = text.single(b"rank", 0, 16)? as usize;
    let mut cartan = Vec::new();
    for _ in 0..rank {
        let mut line = text.line(b"row")?;
        for _ in 0..rank {
            cartan.push(line.number(-1000, 1000)?);
        }
        line.finish()?;
    }
    let prime = text.single(b"prime", 0, 255)? as u8;
    let mut line = text.line(b"word")?;
    let letters = line.number(0, 255)?;
    let mut word = Vec::new();
    for _ in 0..letters {
        word.push(line.number(0, 255)? as u8);
    }
    line.finish()?;
    let degree = text.single(b"degree", 0, 255)? as usize;
    Ok(Job {
        lattice,
        rank,
        cartan,
        prime,
        word,
        degree,
    })
}

pub fn read_vectors(
    text: &mut Text,
    cert: &mut Cert,
    keyword: &[u8],
    count: u64,
) -> Result<Run, Fault> {
    let from = cert.ends.len();
    let most = i64::from(cert.job.prime) - 1;
    for _ in 0..count {
        let mut line = text.line(keyword)?;
        let entries = line.number(0, MOST)?;
        let mut next = 0;
        for _ in 0..entries {
            let place = line.number(next, MOST)?;
            let value = line.number(1, most)?;
            cert.entries.push(Entry {
                place: place as u32,
                value: value as u8,
            });
            next = place + 1;
        }
        line.finish()?;
        cert.ends.push(cert.entries.len());
    }
    Ok(Run {
        from,
        to: cert.ends.len(),
    })
}

pub fn read_pivots(text: &mut Text, rank: u64) -> Result<Vec<u32>, Fault> {
    let mut line = text.line(b"pivots")?;
    let mut pivots = Vec::new();
    let mut next = 0;
    for _ in 0..rank {
        let place = line.number(next, MOST)?;
        pivots.push(place as u32);
        next = place + 1;
    }
    line.finish()?;
    Ok(pivots)
}

/// A block by whole section spaces.
pub fn read_space_block(text: &mut Text, cert: &mut Cert, d: i64, generators: u64) -> Result<Block, Fault> {
    let mut line = text.line(b"block")?;
    line.number(d, d)?;
    let rank = line.number(0, MOST)? as u64;
    let free = line.number(0, MOST)? as u64;
    line.finish()?;
    Ok(Block {
        pivots: read_pivots(text, rank)?,
        basis: read_vectors(text, cert, b"tuple", free)?,
        rows: read_vectors(text, cert, b"row", rank)?,
        covers: read_vectors(text, cert, b"cover", free)?,
        sources: read_vectors(text, cert, b"source", generators)?,
        duals: read_vectors(text, cert, b"dual", generators)?,
    })
}

/// A block by levels.
pub fn read_level_block(text: &mut Text, cert: &mut Cert, d: i64, generators: u64) -> Result<Block, Fault> {
    let mut line = text.line(b"block")?;
    line.number(d, d)?;
    let members = line.number(0, MOST)? as u64;
    let rank = line.number(0, MOST)? as u64;
    let free = line.number(0, MOST)? as u64;
    line.finish()?;
    Ok(Block {
        pivots: read_pivots(text, rank)?,
        covers: read_vectors(text, cert, b"cover", members)?,
        sources: read_vectors(text, cert, b"source", generators)?,
        duals: read_vectors(text, cert, b"dual", generators)?,
        basis: read_vectors(text, cert, b"basis", free)?,
        rows: read_vectors(text, cert, b"row", rank)?,
    })
}

pub fn read_part(text: &mut Text, cert: &mut Cert, x: i64, last: bool) -> Result<Part, Fault> {
    let bound = cert.job.degree as i64;
    let mut line = text.line(b"vertex")?;
    line.number(x, x)?;
    let count = line.number(0, MOST)?;
    let mut degrees = Vec::new();
    let mut least = 0;
    for _ in 0..count {
        least = line.number(least, bound)?;
        degrees.push(least as usize);
    }
    line.finish()?;
    if last {
        return Ok(Part {
            degrees,
            ..Part::default()
        });
    }
    let edges = text.single(b"edges", 0, MOST)? as u32;
    let lifts = read_vectors(text, cert, b"lift", u64::from(edges) * degrees.len() as u64)?;
    let mut blocks = Vec::new();
    for d in 0..=cert.job.degree {
        let generators = degrees.iter().filter(|&&e| e == d).count() as u64;
        blocks.push(match cert.version {
            1 => read_space_block(text, cert, d as i64, generators)?,
            _ => read_level_block(text, cert, d as i64, generators)?,
        });
    }
    Ok(Part {
        degrees,
        edges,
        lifts,
        blocks,
    })
}

pub fn read_job_text(bytes: &[u8]) -> Result<Job, Fault> {
    let mut text = Text {
        bytes,
        at: 0,
        line: 0,
    };
    let lattice = text.single(b"bmp-job", 1, 2)? == 2;
    let lattice = read_lattice(&mut text, lattice)?;
    let job = read_job(&mut text, lattice)?;
    read_end(&mut text)?;
    Ok(job)
}

pub fn read_end(text: &mut Text) -> Result<(), Fault> {
    text.line(b"end")?.finish()?;
    if text.at < text.bytes.len() {
        return text_fault(text.line + 1, "TrailingText");
    }
    Ok(())
}

pub fn read_cert(bytes: &[u8]) -> Result<Cert, Fault> {
    let mut text = Text {
        bytes,
        at: 0,
        line: 0,
    };
    let version = text.single(b"bmp-cert", 1, 3)?;
    let lattice = read_lattice(&mut text, version == 3)?;
    let job = read_job(&mut text, lattice)?;
    let mut cert = Cert {
        version,
        job,
        parts: Vec::new(),
        entries: Vec::new(),
        ends: Vec::new(),
    };
    let vertices = text.single(b"vertices", 1, MOST)?;
    for x in (0..vertices).rev() {
        let part = read_part(&mut text, &mut cert, x, x == vertices - 1)?;
        cert.parts.push(part);
    }
    read_end(&mut text)?;
    Ok(cert)
}

//! The text of a certificate by levels.
use crate::builder::{Block, Part};
use crate::cert::{Job, Lattice};
use crate::Entry;

struct Writer {
    out: Vec<u8>,
}

impl Writer {
    fn word(&mut self, word: &str) {
        self.out.extend_from_slice(word.as_bytes());
    }

    fn number(&mut self, n: i64) {
        self.out.push(b' ');
        if n < 0 {
            self.out.push(b'-');
        }
        let mut digits = [0; 20];
        let (mut at, mut rest) = (20, n.unsigned_abs());
        while at == 20 || rest > 0 {
            at -= 1;
            digits[at] = b'0' + (rest % 10) as u8;
            rest /= 10;
        }
        self.out.extend_from_slice(&digits[at..]);
    }

    fn line(&mut self, word: &str, numbers: impl IntoIterator<Item = i64>) {
        self.word(word);
        numbers.into_iter().for_each(|n| self.number(n));
        self.out.push(b'\n');
    }

    fn vectors(&mut self, word: &str, vectors: &[Vec<Entry>]) {
        for vector in vectors {
            let entries = vector.iter().flat_map(|e| [i64::from(e.place), i64::from(e.value)]);
            self.line(word, std::iter::once(vector.len() as i64).chain(entries));
        }
    }

    fn job(&mut self, job: &Job) {
        self.line("rank", [job.rank as i64]);
        job.cartan.chunks(job.rank.max(1)).for_each(|row| self.line("row", row.iter().copied()));
        self.line("prime", [i64::from(job.prime)]);
        let letters = job.word.iter().map(|&c| i64::from(c));
        self.line("word", std::iter::once(job.word.len() as i64).chain(letters));
        self.line("degree", [job.degree as i64]);
    }

    fn block(&mut self, d: usize, block: &Block) {
        let counts = [d, block.covers.len(), block.pivots.len(), block.basis.len()];
        self.line("block", counts.map(|n| n as i64));
        self.line("pivots", block.pivots.iter().map(|&p| p as i64));
        self.vectors("cover", &block.covers);
        self.vectors("source", &block.sources);
        self.vectors("dual", &block.duals);
        self.vectors("basis", &block.basis);
        self.vectors("row", &block.rows);
    }

    fn part(&mut self, x: usize, part: &Part, last: bool) {
        let degrees = part.degrees.iter().map(|&e| e as i64);
        self.line("vertex", [x as i64, part.degrees.len() as i64].into_iter().chain(degrees));
        if last {
            return;
        }
        self.line("edges", [part.lifts.len() as i64]);
        part.lifts.iter().for_each(|lifts| self.vectors("lift", lifts));
        part.blocks.iter().enumerate().for_each(|(d, block)| self.block(d, block));
    }
}

pub fn text_of(job: &Job, parts: &[Part]) -> Vec<u8> {
    let mut writer = Writer { out: Vec::new() };
    match job.lattice {
        Lattice::Plain => writer.line("bmp-cert", [2]),
        lattice => {
            writer.line("bmp-cert", [3]);
            writer.line("lattice", [i64::from(lattice == Lattice::Weight)]);
        }
    }
    writer.job(job);
    writer.line("vertices", [parts.len() as i64]);
    for (x, part) in parts.iter().enumerate().rev() {
        writer.part(x, part, x + 1 == parts.len());
    }
    writer.line("end", []);
    writer.out
}

//! Writes a certificate text, and reads one with no proof: what `read_cert` is timed beside.
//!
//!     plain make MEGABYTES    writes a text in the grammar, whose sections mean nothing
//!     plain read < TEXT       reads a text three times, and prints the least time that reading took
use std::fmt::Write as _;
use std::io::{self, Read as _, Write as _};
use std::time::{Duration, Instant};

const TRIES: u8 = 3;

fn main() -> io::Result<()> {
    let words: Vec<String> = std::env::args().collect();
    let words: Vec<&str> = words.iter().map(String::as_str).collect();
    match words[1..] {
        ["make", megabytes] => {
            let size = megabytes.parse().map_err(io::Error::other)?;
            io::stdout().write_all(text(size).as_bytes())
        }
        ["read"] => {
            let mut bytes = Vec::new();
            io::stdin().read_to_end(&mut bytes)?;
            let mut least = Duration::MAX;
            let mut entries = 0;
            for _ in 0..TRIES {
                let start = Instant::now();
                let read = read(&bytes);
                least = least.min(start.elapsed());
                match read {
                    Ok(parts) => entries = parts.iter().map(|part| part.vectors.places.len()).sum(),
                    Err(fault) => println!("line {}: {}", fault.line, fault.kind),
                }
            }
            let rate = bytes.len() as f64 / least.as_micros() as f64;
            println!("plain: {entries} entries, {} us, {rate:.0} MB a second", least.as_micros());
            Ok(())
        }
        _ => Err(io::Error::other("make MEGABYTES, or read")),
    }
}

// ---- a text

/// Numbers that look random, the same in each run.
struct Dice(u64);

impl Dice {
    /// A number from 1 to `most`.
    fn roll(&mut self, most: u64) -> u64 {
        self.0 ^= self.0 << 13;
        self.0 ^= self.0 >> 7;
        self.0 ^= self.0 << 17;
        1 + self.0 % most
    }
}

/// Lines of tuples with so many entries each, about `size` bytes of them.
fn tuples(dice: &mut Dice, size: usize, entries: usize) -> String {
    let mut out = String::new();
    while out.len() < size {
        write!(out, "tuple {entries}").unwrap();
        let mut place = 0;
        for _ in 0..entries {
            place += dice.roll(900);
            write!(out, " {place} {}", dice.roll(4)).unwrap();
        }
        out.push('\n');
    }
    out
}

/// Four vertices with two blocks each below the last one; half of the tuples' bytes stand in long lines,
/// and half in short ones.
fn text(megabytes: usize) -> String {
    let mut dice = Dice(88_172_645_463_325_252);
    let share = megabytes * 1_000_000 / 20;
    let mut out = String::from(
        "bmp-cert 1\nrank 2\nrow 2 -1\nrow -1 2\nprime 5\nword 3 1 2 1\ndegree 1\nvertices 5\nvertex 4 1 0\n",
    );
    for vertex in (0..4).rev() {
        writeln!(out, "vertex {vertex} 2 0 1\nedges 1\nlift 1 0 1\nlift 0").unwrap();
        for degree in 0..2 {
            let lines = tuples(&mut dice, share, 500) + &tuples(&mut dice, share, 2);
            let count = lines.lines().count();
            writeln!(out, "block {degree} 0 {count}\npivots").unwrap();
            out += &lines;
            out += &"cover 0\n".repeat(count);
            out += "source 0\ndual 0\n";
        }
    }
    out + "end\n"
}

// ---- reading

/// The greatest count and the greatest place.
const GREATEST: u64 = u32::MAX as u64;

struct Fault {
    line: u64,
    kind: &'static str,
}

/// A text, and the place in it.
struct Cursor<'a> {
    rest: &'a [u8],
    line: u64,
}

impl Cursor<'_> {
    fn fault<T>(&self, kind: &'static str) -> Result<T, Fault> {
        let line = self.line;
        Err(Fault { line, kind })
    }

    /// Whether this text comes next, and then it is passed.
    fn passes(&mut self, text: &str) -> bool {
        let rest = self.rest.strip_prefix(text.as_bytes());
        self.rest = rest.unwrap_or(self.rest);
        rest.is_some()
    }

    fn keyword(&mut self, word: &str) -> Result<(), Fault> {
        if self.passes(word) { Ok(()) } else { self.fault("keyword") }
    }

    /// A number in its one form.
    fn digits(&mut self) -> Result<u64, Fault> {
        let mut n = 0u64;
        let mut size = 0;
        while let Some(byte) = self.rest.get(size) {
            let digit = byte.wrapping_sub(b'0');
            if digit > 9 {
                break;
            }
            n = n.wrapping_mul(10).wrapping_add(u64::from(digit));
            size += 1;
        }
        if size == 0 || size > 18 || (size > 1 && self.rest[0] == b'0') {
            return self.fault("digits");
        }
        self.rest = &self.rest[size..];
        Ok(n)
    }

    /// A space, and a number from `low` to `high`.
    fn number(&mut self, low: u64, high: u64) -> Result<u64, Fault> {
        if !self.passes(" ") {
            return self.fault("count");
        }
        let n = self.digits()?;
        if low <= n && n <= high { Ok(n) } else { self.fault("range") }
    }

    /// A space, and an entry of a matrix.
    fn signed(&mut self) -> Result<i64, Fault> {
        if !self.passes(" -") {
            return Ok(self.number(0, 1_000)? as i64);
        }
        let n = self.digits()?;
        if 1 <= n && n <= 1_000 { Ok(-(n as i64)) } else { self.fault("range") }
    }

    fn end_of_line(&mut self) -> Result<(), Fault> {
        if !self.passes("\n") {
            return self.fault("end of line");
        }
        self.line += 1;
        Ok(())
    }

    /// A line of a keyword and one number.
    fn single(&mut self, word: &str, low: u64, high: u64) -> Result<u64, Fault> {
        self.keyword(word)?;
        let n = self.number(low, high)?;
        self.end_of_line()?;
        Ok(n)
    }

    /// Appends `count` lines of a keyword and a vector with values up to `most`.
    fn vectors(&mut self, word: &str, count: u64, most: u64, into: &mut Vectors) -> Result<(), Fault> {
        for _ in 0..count {
            self.keyword(word)?;
            let mut next = 0;
            for _ in 0..self.number(0, GREATEST)? {
                let place = self.number(next, GREATEST)?;
                next = place + 1;
                into.places.push(place as u32);
                into.values.push(self.number(1, most)? as u8);
            }
            self.end_of_line()?;
            into.ends.push(into.places.len());
        }
        Ok(())
    }

    /// Appends a block's pivots and vectors; `own` generators have its degree.
    fn block(&mut self, degree: u64, own: u64, most: u64, part: &mut Part) -> Result<(), Fault> {
        self.keyword("block")?;
        self.number(degree, degree)?;
        let rank = self.number(0, GREATEST)?;
        let tuples = self.number(0, GREATEST)?;
        self.end_of_line()?;
        self.keyword("pivots")?;
        let mut next = 0;
        for _ in 0..rank {
            let place = self.number(next, GREATEST)?;
            next = place + 1;
            part.pivots.push(place as u32);
        }
        self.end_of_line()?;
        let kinds = [("tuple", tuples), ("row", rank), ("cover", tuples), ("source", own), ("dual", own)];
        for (word, count) in kinds {
            self.vectors(word, count, most, &mut part.vectors)?;
        }
        Ok(())
    }

    fn part(&mut self, vertex: u64, is_last: bool, job: &Job) -> Result<Part, Fault> {
        let mut part = Part::default();
        self.keyword("vertex")?;
        self.number(vertex, vertex)?;
        let mut low = 0;
        for _ in 0..self.number(0, GREATEST)? {
            low = self.number(low, job.degree)?;
            part.degrees.push(low);
        }
        self.end_of_line()?;
        if is_last {
            return Ok(part);
        }
        let most = job.prime.saturating_sub(1);
        let lifts = self.single("edges", 0, GREATEST)? * part.degrees.len() as u64;
        self.vectors("lift", lifts, most, &mut part.vectors)?;
        for degree in 0..=job.degree {
            let own = part.degrees.iter().filter(|&&d| d == degree).count() as u64;
            self.block(degree, own, most, &mut part)?;
        }
        Ok(part)
    }

    fn job(&mut self) -> Result<Job, Fault> {
        let mut job = Job::default();
        let rank = self.single("rank", 0, 16)?;
        for _ in 0..rank {
            self.keyword("row")?;
            for _ in 0..rank {
                job.cartan.push(self.signed()?);
            }
            self.end_of_line()?;
        }
        job.prime = self.single("prime", 0, 255)?;
        self.keyword("word")?;
        for _ in 0..self.number(0, 255)? {
            job.word.push(self.number(0, 255)? as u8);
        }
        self.end_of_line()?;
        job.degree = self.single("degree", 0, 255)?;
        Ok(job)
    }
}

#[derive(Default)]
struct Job {
    cartan: Vec<i64>,
    prime: u64,
    word: Vec<u8>,
    degree: u64,
}

/// Vectors one behind the other.
#[derive(Default)]
struct Vectors {
    ends: Vec<usize>,
    places: Vec<u32>,
    values: Vec<u8>,
}

#[derive(Default)]
struct Part {
    degrees: Vec<u64>,
    pivots: Vec<u32>,
    vectors: Vectors,
}

fn read(bytes: &[u8]) -> Result<Vec<Part>, Fault> {
    let mut text = Cursor { rest: bytes, line: 1 };
    text.single("bmp-cert", 1, 1)?;
    let job = text.job()?;
    let count = text.single("vertices", 1, GREATEST)?;
    let mut parts = Vec::new();
    for vertex in (0..count).rev() {
        parts.push(text.part(vertex, vertex + 1 == count, &job)?);
    }
    text.keyword("end")?;
    text.end_of_line()?;
    if text.rest.is_empty() { Ok(parts) } else { text.fault("trailing text") }
}

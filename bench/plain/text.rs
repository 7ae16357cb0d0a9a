//! Lines of a text, word by word, and its first fault.
use crate::Fault;

pub struct Text<'a> {
    pub bytes: &'a [u8],
    pub at: usize,
    pub line: u64,
}

pub struct Line<'a> {
    pub rest: Option<&'a [u8]>,
    pub number: u64,
}

pub fn text_fault<T>(line: u64, kind: &str) -> Result<T, Fault> {
    Err(Fault(2, format!("text line {line} kind {kind}")))
}

impl<'a> Text<'a> {
    pub fn line(&mut self, keyword: &[u8]) -> Result<Line<'a>, Fault> {
        self.line += 1;
        let rest = &self.bytes[self.at..];
        let Some(end) = rest.iter().position(|&b| b == b'\n') else {
            return text_fault(self.line, "MissingLine");
        };
        let line = &rest[..end];
        if line.iter().any(|&b| !(32..=126).contains(&b)) {
            return text_fault(self.line, "NotAscii");
        }
        self.at += end + 1;
        let (first, rest) = split(line);
        if first != keyword {
            return text_fault(self.line, "WrongKeyword");
        }
        Ok(Line {
            rest,
            number: self.line,
        })
    }

    pub fn single(&mut self, keyword: &[u8], low: i64, high: i64) -> Result<i64, Fault> {
        let mut line = self.line(keyword)?;
        let n = line.number(low, high)?;
        line.finish()?;
        Ok(n)
    }
}

pub fn split(line: &[u8]) -> (&[u8], Option<&[u8]>) {
    match line.iter().position(|&b| b == b' ') {
        Some(i) => (&line[..i], Some(&line[i + 1..])),
        None => (line, None),
    }
}

impl Line<'_> {
    pub fn number(&mut self, low: i64, high: i64) -> Result<i64, Fault> {
        let Some(rest) = self.rest else {
            return text_fault(self.number, "WrongCount");
        };
        // the quick way: up to 18 digits in place
        let mut n = 0i64;
        let mut i = 0;
        while i < rest.len() && i < 18 && rest[i].is_ascii_digit() {
            n = n * 10 + i64::from(rest[i] - b'0');
            i += 1;
        }
        let canonical = i > 0 && (rest[0] != b'0' || i == 1);
        if canonical && (i == rest.len() || rest[i] == b' ') {
            if n < low || n > high {
                return text_fault(self.number, "OutOfRange");
            }
            self.rest = if i == rest.len() {
                None
            } else {
                Some(&rest[i + 1..])
            };
            return Ok(n);
        }
        let (word, after) = split(rest);
        let digits = word.strip_prefix(b"-").unwrap_or(word);
        let is_number = word == b"0"
            || (!digits.is_empty() && digits[0] != b'0' && digits.iter().all(u8::is_ascii_digit));
        if !is_number {
            return text_fault(self.number, "NotANumber");
        }
        match std::str::from_utf8(word).unwrap().parse::<i64>() {
            Ok(n) if low <= n && n <= high => {
                self.rest = after;
                Ok(n)
            }
            _ => text_fault(self.number, "OutOfRange"),
        }
    }

    pub fn finish(&self) -> Result<(), Fault> {
        match self.rest {
            None => Ok(()),
            Some(_) => text_fault(self.number, "WrongCount"),
        }
    }
}

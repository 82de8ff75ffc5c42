//! Reads cases from their text (FORMAT.md) as the program `booth` does: crates/text and crates/casefile of the port say the same. What booth
//! refuses is refused, but for its limits and for further cases behind the first.

use crate::{Case, Mesh, Row, Settings};

type Read<T> = Result<T, String>;

fn is_blank(b: u8) -> bool {
    matches!(b, b' ' | b'\n' | b'\t' | b'\r')
}

fn is_decimal(word: &[u8]) -> bool {
    !word.is_empty() && word.iter().all(u8::is_ascii_digit)
}

/// A whole number below 2^32: digits alone.
pub fn whole_of(word: &[u8]) -> Option<u32> {
    if !is_decimal(word) {
        return None;
    }
    word.iter().try_fold(0u32, |n, b| n.checked_mul(10)?.checked_add((b - b'0') as u32))
}

fn is_hex(word: &[u8]) -> bool {
    word.iter().all(|b| matches!(b, b'0'..=b'9' | b'a'..=b'f'))
}

/// A float: `0x` and eight hexadecimal digits in lower case are its bits, and anything else is a decimal.
pub fn float_of(word: &[u8]) -> Option<f32> {
    if let Some(digits) = word.strip_prefix(b"0x").filter(|d| d.len() == 8) {
        let digit = |b: u8| if b <= b'9' { b - b'0' } else { b - b'a' + 10 };
        return is_hex(digits).then(|| f32::from_bits(digits.iter().fold(0, |n, &b| n << 4 | digit(b) as u32)));
    }
    match word.strip_prefix(b"-") {
        Some(rest) => unsigned_of(rest).map(|x| -x),
        None => unsigned_of(word),
    }
}

/// One to seven digits; or digits, a point and up to nine digits, which make a number below 2^24 without the point: the digits as a float, divided by a
/// power of ten as a float. Both are exact, so that this is the nearest float.
fn unsigned_of(word: &[u8]) -> Option<f32> {
    let (whole, decimals) = match word.iter().position(|&b| b == b'.') {
        Some(p) if is_decimal(&word[p + 1..]) => (&word[..p], &word[p + 1..]),
        Some(_) => return None,
        None if word.len() > 7 => return None,
        None => (word, &word[..0]),
    };
    if !is_decimal(whole) || decimals.len() > 9 {
        return None;
    }
    let digits = whole.iter().chain(decimals).fold(0u64, |n, b| (10 * n + (b - b'0') as u64).min(1 << 32));
    (digits < 1 << 24).then(|| digits as f32 / 10u32.pow(decimals.len() as u32) as f32)
}

/// What to write in place of a word that is no float.
fn advice(word: &[u8]) -> String {
    let shown = String::from_utf8_lossy(word);
    match word {
        _ if word.len() == 8 && is_hex(word) => format!("write 0x{shown} for a float's bits; a decimal without a point has at most seven digits"),
        [b'0', b'x', ..] => "bits are 0x and eight digits, 0 to 9 and a to f".into(),
        [b'+', ..] => "write it without the plus".into(),
        [b'.', ..] | [.., b'.'] => "write a digit on each side of the point".into(),
        _ if word.iter().any(|b| matches!(b, b'e' | b'E')) => "write it without an exponent, as 1000 for 1e3".into(),
        _ => "write a decimal of at most seven digits, as -0.25, or a float's bits, as 0xbe800000".into(),
    }
}

struct Reader<'a> {
    text: &'a [u8],
    last: &'a [u8],
    at: usize,
    line: usize,
}

impl<'a> Reader<'a> {
    /// To the next token, over white space and remarks; false at the text's end.
    fn more(&mut self) -> bool {
        let mut remark = false;
        while let Some(&b) = self.text.get(self.at) {
            if !remark && !is_blank(b) && b != b'#' {
                return true;
            }
            remark = b == b'#' || remark && b != b'\n';
            self.line += (b == b'\n') as usize;
            self.at += 1;
        }
        false
    }

    /// The next token, empty at the text's end.
    fn token(&mut self) -> &'a [u8] {
        self.more();
        let rest = &self.text[self.at..];
        let n = rest.iter().position(|&b| is_blank(b) || b == b'#').unwrap_or(rest.len());
        self.at += n;
        self.last = &rest[..n];
        self.last
    }

    /// What was expected in place of the last token.
    fn fault<T>(&self, expected: &str) -> Read<T> {
        match self.last {
            b"" => Err(format!("line {}: expected {expected}, and the text ends", self.line)),
            last => Err(format!("line {}: expected {expected}, and found '{}'", self.line, String::from_utf8_lossy(last))),
        }
    }

    fn no_float<T>(&self) -> Read<T> {
        match self.last {
            b"" => self.fault("a float"),
            last => Err(format!("line {}: '{}' is no number that this program reads: {}", self.line, String::from_utf8_lossy(last), advice(last))),
        }
    }

    /// Whether the next token is this word, which is then read.
    fn reads(&mut self, word: &str) -> bool {
        let (at, line) = (self.at, self.line);
        let found = self.token() == word.as_bytes();
        if !found {
            (self.at, self.line) = (at, line);
        }
        found
    }

    fn word(&mut self, word: &str) -> Read<()> {
        if self.token() == word.as_bytes() { Ok(()) } else { self.fault(&format!("`{word}`")) }
    }

    fn name(&mut self) -> Read<String> {
        match self.token() {
            b"" => self.fault("a name"),
            name => Ok(String::from_utf8_lossy(name).into_owned()),
        }
    }

    fn whole(&mut self) -> Read<u32> {
        whole_of(self.token()).map_or_else(|| self.fault("a whole number below 4,294,967,296"), Ok)
    }

    fn flag(&mut self) -> Read<bool> {
        match self.whole()? {
            0 => Ok(false),
            1 => Ok(true),
            _ => self.fault("0 or 1"),
        }
    }

    fn floats<const N: usize>(&mut self) -> Read<[f32; N]> {
        let mut a = [0.0; N];
        for x in &mut a {
            *x = float_of(self.token()).map_or_else(|| self.no_float(), Ok)?;
        }
        Ok(a)
    }

    /// `inverse` or `linear`; true for the second.
    fn linear(&mut self) -> Read<bool> {
        match self.token() {
            b"inverse" => Ok(false),
            b"linear" => Ok(true),
            _ => self.fault("`inverse` or `linear`"),
        }
    }

    fn settings(&mut self) -> Read<Settings> {
        self.word("counts")?;
        let (order, max_reflections, planes, room) = (self.whole()?, self.whole()?, self.whole()?, self.whole()?);
        self.word("floats")?;
        let [fade, max_distance, temperature, rate, merge_cos, merge_offset, buried] = self.floats()?;
        self.word("merge")?;
        let merge_on = self.flag()?;
        self.word("curve")?;
        let linear = self.linear()?;
        let [reference, rolloff, min_distance, far_distance] = self.floats()?;
        let (crossing_limit, probe_radius) = self.probes()?;
        let air = self.air()?;
        Ok(Settings {
            order, max_reflections, planes, fade, max_distance, temperature, rate, merge_cos, merge_on, merge_offset, buried, linear, reference, rolloff,
            min_distance, far_distance, crossing_limit, probe_radius, air, room,
        })
    }

    /// The line `probes` may be left out: the Rust's constants.
    fn probes(&mut self) -> Read<(u32, f32)> {
        if !self.reads("probes") {
            let s = Settings::default();
            return Ok((s.crossing_limit, s.probe_radius));
        }
        let limit = self.whole()?;
        let [radius] = self.floats()?;
        Ok((limit, radius))
    }

    /// The line `air` may be left out: the air takes nothing.
    fn air(&mut self) -> Read<[u32; 8]> {
        let mut air = [0; 8];
        if self.reads("air") {
            for a in &mut air {
                *a = self.whole()?;
            }
        }
        Ok(air)
    }

    fn row(&mut self) -> Read<Row> {
        self.word("m")?;
        Ok(Row { absorption: self.floats()?, transmission: self.floats()? })
    }

    fn position(&mut self) -> Read<[f32; 3]> {
        self.word("p")?;
        self.floats()
    }

    fn mesh(&mut self) -> Read<Mesh> {
        self.word("mesh")?;
        let (handle, vertices, count) = (self.whole()?, self.whole()?, self.whole()?);
        self.word("t")?;
        let transform = self.floats()?;
        let positions = (0..vertices).map(|_| self.position()).collect::<Read<_>>()?;
        let mut indices = Vec::new();
        for j in 0..count {
            if j % 3 == 0 {
                self.word("i")?;
            }
            indices.push(self.whole()?);
        }
        Ok(Mesh { positions, indices, handle, transform })
    }

    fn case(&mut self) -> Read<Case> {
        self.word("case")?;
        let name = self.name()?;
        let settings = self.settings()?;
        self.word("materials")?;
        let rows = self.whole()?;
        let materials = (0..rows).map(|_| self.row()).collect::<Read<_>>()?;
        self.word("meshes")?;
        let count = self.whole()?;
        let meshes = (0..count).map(|_| self.mesh()).collect::<Read<_>>()?;
        self.word("source")?;
        let source = self.floats()?;
        self.word("listener")?;
        let listener = self.floats()?;
        self.word("separated")?;
        let separated = self.flag()?;
        self.word("end")?;
        Ok(Case { name, settings, materials, meshes, source, listener, separated })
    }
}

impl Case {
    /// All cases of a text, of which it has one at least; or the line where it goes wrong, and what was expected there.
    pub fn read_all(text: &[u8]) -> Result<Vec<Case>, String> {
        let mut reader = Reader { text, last: b"", at: 0, line: 1 };
        let mut cases = vec![reader.case()?];
        while reader.more() {
            cases.push(reader.case()?);
        }
        Ok(cases)
    }

    /// All cases of a file; what goes wrong begins with its name.
    pub fn read_file(name: &str) -> Result<Vec<Case>, String> {
        let text = std::fs::read(name).map_err(|e| format!("{name}: {e}"))?;
        Case::read_all(&text).map_err(|e| format!("{name}: {e}"))
    }
}

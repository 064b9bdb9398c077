//! Bytes and numbers as modules write them, and how they are read there.

/// What is left of a row.
pub struct Left<'a>(pub &'a str);

impl<'a> Left<'a> {
    /// Passes these characters, if they are next.
    pub fn pass(&mut self, next: &str) -> Option<()> {
        self.0 = self.0.strip_prefix(next)?;
        Some(())
    }

    fn run(&mut self, of: impl Fn(char) -> bool) -> &'a str {
        let (run, rest) = self.0.split_at(self.0.find(|next| !of(next)).unwrap_or(self.0.len()));
        self.0 = rest;
        run
    }

    pub fn word(&mut self) -> &'a str {
        self.run(|next| next.is_ascii_alphanumeric() || next == '_')
    }

    pub fn number(&mut self) -> Option<u64> {
        self.run(|next| next.is_ascii_digit()).parse().ok()
    }

    /// `[]`, or a group in brackets: its strings and numbers, one after another, are the bytes.
    pub fn bytes(&mut self) -> Option<Vec<u8>> {
        let mut found = Vec::new();
        if self.pass("[]").is_some() {
            return Some(found);
        }
        let mut open = 0;
        loop {
            let next = self.0.chars().next()?;
            if next.is_ascii_digit() {
                found.push(self.number()?.try_into().ok()?);
                continue;
            }
            self.0 = &self.0[next.len_utf8()..];
            match next {
                '"' => self.string(&mut found)?,
                '(' => open += 1,
                ')' => open -= 1,
                _ => {}
            }
            if open == 0 {
                return Some(found);
            }
        }
    }

    /// The rest of a string, with the quote at its end.
    fn string(&mut self, found: &mut Vec<u8>) -> Option<()> {
        let mut escaped = false;
        for (at, byte) in self.0.bytes().enumerate() {
            match byte {
                b'\\' if !escaped => escaped = true,
                b'"' if !escaped => {
                    self.0 = &self.0[at + 1..];
                    return Some(());
                }
                _ => {
                    found.push(byte);
                    escaped = false;
                }
            }
        }
        None
    }
}

pub fn list(numbers: &[u64]) -> String {
    let all: String = numbers.iter().map(|number| format!("{number} ∷ ")).collect();
    format!("({all}[])")
}

/// Printable ASCII as strings, all else as numbers.
pub fn bytes(all: &[u8]) -> String {
    if all.is_empty() {
        return "[]".to_string();
    }
    let parts: Vec<String> = all.chunk_by(|a, b| printable(*a) == printable(*b)).map(part).collect();
    format!("({}{}", parts.join(" ++ ("), ")".repeat(parts.len()))
}

fn printable(byte: u8) -> bool {
    (0x20..0x7F).contains(&byte)
}

fn part(run: &[u8]) -> String {
    if !printable(run[0]) {
        return list(&run.iter().map(|byte| u64::from(*byte)).collect::<Vec<_>>());
    }
    let text = String::from_utf8_lossy(run).replace('\\', "\\\\").replace('"', "\\\"");
    format!("bytes \"{text}\"")
}

//! A source file as tokens, with the place of each; comments and blanks are none.

#[derive(Clone, Copy, PartialEq)]
pub enum Class {
    Word,
    Number,
    Byte,
    Bytes,
    Sign,
}

#[derive(Clone, Copy)]
pub struct Token<'a> {
    pub class: Class,
    pub text: &'a str,
    pub at: usize,
}

impl Token<'_> {
    pub fn end(&self) -> usize {
        self.at + self.text.len()
    }
}

const LONG_SIGNS: [&str; 13] = ["=>", "->", "==", "!=", "<=", ">=", "+=", "-=", "..", "::", "&&", "||", "//"];

fn word_length(s: &str) -> usize {
    s.find(|c: char| !c.is_alphanumeric() && c != '_').unwrap_or(s.len())
}

/// The length of what stands between two quotes at the start of `s`, with them.
fn quoted_length(s: &str, quote: char) -> Option<usize> {
    let mut escaped = false;
    for (i, c) in s.char_indices().skip(1) {
        if c == quote && !escaped {
            return Some(i + 1);
        }
        escaped = c == '\\' && !escaped;
    }
    None
}

/// The class and length of the token at the start of `s`.
fn first(s: &str) -> (Class, usize) {
    let c = s.chars().next().unwrap();
    if s.starts_with("b'") && quoted_length(&s[1..], '\'').is_some_and(|n| n <= 4) {
        return (Class::Byte, 1 + quoted_length(&s[1..], '\'').unwrap());
    }
    if s.starts_with("b\"") {
        return (Class::Bytes, 1 + quoted_length(&s[1..], '"').unwrap());
    }
    if c == '"' {
        return (Class::Sign, quoted_length(s, '"').unwrap_or(1));
    }
    if c.is_ascii_digit() {
        return (Class::Number, word_length(s));
    }
    if c.is_alphabetic() || c == '_' {
        return (Class::Word, word_length(s));
    }
    match LONG_SIGNS.iter().find(|&&l| s.starts_with(l)) {
        Some(long) => (Class::Sign, long.len()),
        None => (Class::Sign, c.len_utf8()),
    }
}

pub fn tokens(text: &str) -> Vec<Token<'_>> {
    let (mut found, mut at) = (Vec::new(), 0);
    while at < text.len() {
        let rest = &text[at..];
        let c = rest.chars().next().unwrap();
        if c.is_whitespace() {
            at += c.len_utf8();
        } else if rest.starts_with("//") {
            at += rest.find('\n').unwrap_or(rest.len());
        } else {
            let (class, length) = first(rest);
            found.push(Token { class, text: &rest[..length], at });
            at += length;
        }
    }
    found
}

/// The token that closes what token `i` opens.
pub fn closing(t: &[Token], i: usize) -> usize {
    let mut depth = 0;
    for (j, token) in t.iter().enumerate().skip(i) {
        match token.text {
            "(" | "[" | "{" => depth += 1,
            ")" | "]" | "}" => depth -= 1,
            _ => {}
        }
        if depth == 0 {
            return j;
        }
    }
    panic!("a bracket is not closed");
}

/// The next token from `i` on, at the same depth, that is one of `wanted`; none where the brackets around `i` close first.
pub fn next_of(t: &[Token], mut i: usize, wanted: &[&str]) -> Option<usize> {
    while i < t.len() {
        if wanted.contains(&t[i].text) {
            return Some(i);
        }
        match t[i].text {
            "(" | "[" | "{" => i = closing(t, i) + 1,
            ")" | "]" | "}" => return None,
            _ => i += 1,
        }
    }
    None
}

/// The parts between commas of what token `open` opens, each as its first token and the one after its last.
pub fn parts(t: &[Token], open: usize) -> Vec<(usize, usize)> {
    let close = closing(t, open);
    let (mut found, mut from) = (Vec::new(), open + 1);
    while from < close {
        let to = next_of(t, from, &[","]).unwrap_or(close);
        found.push((from, to));
        from = to + 1;
    }
    found
}

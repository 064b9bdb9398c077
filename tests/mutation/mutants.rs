//! The mutants of a crate: each is one change of its code.
use crate::source::{code, Types};
use crate::tokens::{closing, next_of, parts, tokens, Class, Token};
use std::collections::HashSet;
use std::fs;

/// Bytes of the source, and what is put in their place.
type Edit = (usize, usize, String);

pub struct Mutant {
    pub file: String,
    pub edit: Edit,
    /// The function that it changes, as the prover names it; none for a constant, which many may use.
    pub function: Option<String>,
    /// The first and the last line of that function's body.
    pub lines: (usize, usize),
    shown: String,
}

impl Mutant {
    pub fn shown(&self) -> &str {
        &self.shown
    }
}

struct Code<'a> {
    text: &'a str,
    t: Vec<Token<'a>>,
    types: &'a Types,
}

/// The signs and words that stand in for one another.
fn exchanged(text: &str) -> Option<&'static str> {
    Some(match text {
        "<" => "<=",
        "<=" => "<",
        ">" => ">=",
        ">=" => ">",
        "==" => "!=",
        "!=" => "==",
        "+" => "-",
        "-" => "+",
        "+=" => "-=",
        "-=" => "+=",
        "*" => "/",
        "/" => "*",
        "%" => "/",
        "&&" => "||",
        "||" => "&&",
        "true" => "false",
        "false" => "true",
        "!" => "",
        _ => return None,
    })
}

/// A number one more and one less; a byte the same; in bytes the first letter, digit or \xHH one more.
fn stepped(token: &Token) -> Vec<String> {
    match token.class {
        Class::Number => numbers_near(token.text),
        Class::Byte => {
            let byte = token.text.as_bytes()[token.text.len() - 2];
            vec![format!("{}u8", byte + 1), format!("{}u8", byte - 1)]
        }
        Class::Bytes => next_bytes(token.text).into_iter().collect(),
        _ => Vec::new(),
    }
}

/// With its type behind it as it stands, if it has one.
fn numbers_near(text: &str) -> Vec<String> {
    if let Some(hex) = text.strip_prefix("0x") {
        let n = u64::from_str_radix(hex, 16).unwrap();
        return [n.checked_add(1), n.checked_sub(1)].into_iter().flatten().map(|m| format!("{m:#X}").replace("0X", "0x")).collect();
    }
    let digits = text.find(|c: char| !c.is_ascii_digit()).unwrap_or(text.len());
    let n: u64 = text[..digits].parse().unwrap();
    [n.checked_add(1), n.checked_sub(1)].into_iter().flatten().map(|m| format!("{m}{}", &text[digits..])).collect()
}

fn next_bytes(text: &str) -> Option<String> {
    let mut at = 2;
    while at < text.len() {
        let rest = &text[at..];
        if rest.starts_with("\\x") {
            let byte = u8::from_str_radix(&rest[2..4], 16).unwrap();
            return Some(format!("{}\\x{:02X}{}", &text[..at], byte.wrapping_add(1), &rest[4..]));
        }
        if rest.starts_with(|c: char| c.is_ascii_alphanumeric()) {
            return Some(format!("{}{}{}", &text[..at], (rest.as_bytes()[0] + 1) as char, &rest[1..]));
        }
        at += if rest.starts_with('\\') { 2 } else { 1 };
    }
    None
}

/// Each pair of n places, the lower first.
fn pairs(n: usize) -> impl Iterator<Item = (usize, usize)> {
    (0..n).flat_map(|b| (0..b).map(move |a| (a, b)))
}

impl Code<'_> {
    fn span(&self, (from, to): (usize, usize)) -> &str {
        &self.text[self.t[from].at..self.t[to - 1].end()]
    }

    /// Two parts exchanged, with what stands between them kept.
    fn swapped(&self, a: (usize, usize), b: (usize, usize)) -> Option<Edit> {
        let (first, second) = (self.span(a), self.span(b));
        let between = &self.text[self.t[a.1 - 1].end()..self.t[b.0].at];
        (first != second).then(|| (self.t[a.0].at, self.t[b.1 - 1].end(), format!("{second}{between}{first}")))
    }

    /// Whether token `i` stands between two values; otherwise `*`, `-` and the like belong to what follows.
    fn is_between(&self, i: usize) -> bool {
        let before = &self.t[i - 1];
        match before.class {
            Class::Word => !matches!(before.text, "return" | "mut"),
            Class::Number => true,
            _ => matches!(before.text, ")" | "]"),
        }
    }

    fn one_token(&self, i: usize) -> Vec<Edit> {
        let token = &self.t[i];
        let mut new = stepped(token);
        let needs_two = matches!(token.text, "*" | "-" | "+" | "/" | "%");
        new.extend(exchanged(token.text).filter(|_| !needs_two || self.is_between(i)).map(str::to_string));
        new.into_iter().map(|n| (token.at, token.end(), n)).collect()
    }

    /// A condition that compares nothing, the other way round.
    fn negated(&self, i: usize) -> Option<Edit> {
        let block = next_of(&self.t, i, &["{"])?;
        let condition = &self.t[i + 1..block];
        let compares = condition.iter().any(|x| matches!(x.text, "<" | "<=" | ">" | ">=" | "==" | "!=" | "!" | "let"));
        (!compares).then(|| (self.t[i].at, self.t[i].end(), format!("{} !", self.t[i].text)))
    }

    /// An assignment, a call whose value isn't used, a return or a break, dropped; as an arm of a match, replaced by nothing to do.
    fn dropped(&self, i: usize) -> Option<Edit> {
        if matches!(self.t[i].text, "let" | "if" | "else" | "while" | "match" | "loop" | "{" | "}" | ";" | ",") {
            return None;
        }
        if self.t[i - 1].text != "=>" {
            let end = next_of(&self.t, i, &[";", "=>"]).filter(|&e| self.t[e].text == ";")?;
            return Some((self.t[i].at, self.t[end].end(), String::new()));
        }
        let end = next_of(&self.t, i, &[","])?;
        let acts = matches!(self.t[i].text, "return" | "break") || next_of(&self.t[..end], i, &["=", "+=", "-="]).is_some();
        acts.then(|| (self.t[i].at, self.t[end].at, "{}".to_string()))
    }

    /// Two arguments of one type exchanged.
    fn arguments(&self, i: usize) -> Vec<Edit> {
        let given = parts(&self.t, i + 1);
        let signatures = self.types.calls.get(self.t[i].text).into_iter().flatten();
        let mut found = Vec::new();
        for types in signatures.filter(|types| types.len() == given.len()) {
            let alike = pairs(given.len()).filter(|&(a, b)| types[a] == types[b]);
            found.extend(alike.filter_map(|(a, b)| self.swapped(given[a], given[b])));
        }
        found
    }

    /// A field's name and its value; a name alone is its own value.
    fn field(&self, (from, to): (usize, usize)) -> (&str, &str) {
        let value = if to - from > 2 && self.t[from + 1].text == ":" { (from + 2, to) } else { (from, to) };
        (self.t[from].text, self.span(value))
    }

    /// The values of two fields of one type exchanged.
    fn fields(&self, i: usize) -> Vec<Edit> {
        let given = parts(&self.t, i + 1);
        let mut found = Vec::new();
        for types in self.types.fields.get(self.t[i].text).into_iter().flatten() {
            for (a, b) in pairs(given.len()).map(|(a, b)| (given[a], given[b])) {
                let ((one, x), (other, y)) = (self.field(a), self.field(b));
                if types.get(one).is_some_and(|of| types.get(other) == Some(of)) && x != y {
                    let between = &self.text[self.t[a.1 - 1].end()..self.t[b.0].at];
                    found.push((self.t[a.0].at, self.t[b.1 - 1].end(), format!("{one}: {y}{between}{other}: {x}")));
                }
            }
        }
        found
    }

    /// Two elements of an array that follow one another, exchanged.
    fn elements(&self, i: usize) -> Vec<Edit> {
        parts(&self.t, i).windows(2).filter_map(|two| self.swapped(two[0], two[1])).collect()
    }

    /// The results of two arms that follow one another, exchanged.
    fn arms(&self, i: usize) -> Vec<Edit> {
        let open = next_of(&self.t, i, &["{"]).unwrap();
        let close = closing(&self.t, open);
        let (mut results, mut from) = (Vec::new(), open + 1);
        while let Some(arrow) = next_of(&self.t[..close], from, &["=>"]) {
            let end = match self.t[arrow + 1].text {
                "{" => closing(&self.t, arrow + 1) + 1,
                _ => next_of(&self.t, arrow + 1, &[","]).unwrap_or(close),
            };
            results.push((arrow + 1, end));
            from = end;
        }
        results.windows(2).filter_map(|two| self.swapped(two[0], two[1])).collect()
    }

    /// All changes that begin at token `i`.
    fn at(&self, i: usize) -> Vec<Edit> {
        let (token, before, after) = (&self.t[i], self.t[i - 1].text, self.t[i + 1].text);
        let mut found = self.one_token(i);
        if matches!(before, "{" | ";" | "}" | "=>") {
            found.extend(self.dropped(i));
        }
        match (token.text, after) {
            ("if" | "while", _) => found.extend(self.negated(i)),
            ("match", _) => found.extend(self.arms(i)),
            ("[", _) => found.extend(self.elements(i)),
            (_, "(") if token.class == Class::Word => found.extend(self.arguments(i)),
            (_, "{") if token.class == Class::Word => found.extend(self.fields(i)),
            _ => {}
        }
        found
    }
}

/// Text on one line, and not too much of it.
fn squeezed(text: &str) -> String {
    let line = text.split_whitespace().collect::<Vec<_>>().join(" ");
    match line.char_indices().nth(110) {
        Some((cut, _)) => format!("{}..", &line[..cut]),
        None => line,
    }
}

/// The lines that an edit touches, before and after it.
fn change(text: &str, (from, to, new): &Edit) -> String {
    let begins = text[..*from].rfind('\n').map_or(0, |p| p + 1);
    let ends = text[*to..].find('\n').map_or(text.len(), |p| to + p);
    let after = format!("{}{new}{}", &text[begins..*from], &text[*to..ends]);
    format!("`{}` => `{}`", squeezed(&text[begins..ends]), squeezed(&after))
}

/// What is put in keeps the number of lines, so that every place in the file stays on its line.
fn padded(text: &str, (from, to, new): Edit) -> Edit {
    let lost = text[from..to].matches('\n').count() - new.matches('\n').count();
    (from, to, format!("{new}{}", "\n".repeat(lost)))
}

fn of_file(name: &str, file: &str, types: &Types) -> Vec<Mutant> {
    let text = fs::read_to_string(format!("crates/{name}/src/{file}")).unwrap();
    let of = Code { text: &text, t: tokens(&text), types };
    let line = |at: usize| text[..at].matches('\n').count() + 1;
    let module = match file {
        "lib.rt" | "main.rt" => String::new(),
        _ => file.replace(".rt", "::"),
    };
    let (mut made, mut seen) = (Vec::new(), HashSet::new());
    for part in code(&of.t) {
        let edits = (part.from + 1..part.to).flat_map(|i| of.at(i)).filter(|edit| seen.insert(edit.clone()));
        made.extend(edits.map(|edit| Mutant {
            file: file.to_string(),
            function: part.function.as_ref().map(|f| format!("{name}::{module}{f}")),
            lines: (line(of.t[part.from].at), line(of.t[part.to].at)),
            shown: format!("{name} {file}:{}: {}", line(edit.0), change(&text, &edit)),
            edit: padded(&text, edit),
        }));
    }
    made
}

fn sources(name: &str) -> Vec<String> {
    let folder = fs::read_dir(format!("crates/{name}/src")).unwrap_or_else(|_| panic!("there is no crate {name}"));
    let mut files: Vec<String> = folder.map(|f| f.unwrap().file_name().into_string().unwrap()).collect();
    files.retain(|f| f.ends_with(".rt"));
    files.sort();
    files
}

/// What the crate declares itself stands before what another crate calls the same.
fn types_for(name: &str) -> Types {
    let (mut own, mut others) = (Types::default(), Types::default());
    for folder in fs::read_dir("crates").unwrap() {
        let other = folder.unwrap().file_name().into_string().unwrap();
        for file in sources(&other) {
            let text = fs::read_to_string(format!("crates/{other}/src/{file}")).unwrap();
            let learns = if other == name { &mut own } else { &mut others };
            learns.learn(&tokens(&text));
        }
    }
    others.calls.extend(own.calls);
    others.fields.extend(own.fields);
    others
}

pub fn of_crate(name: &str) -> Vec<Mutant> {
    let types = types_for(name);
    sources(name).iter().flat_map(|file| of_file(name, file, &types)).collect()
}

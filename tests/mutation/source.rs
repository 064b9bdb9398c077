//! What of a source file is code, and what functions, structs and enums take.
use crate::tokens::{closing, next_of, parts, Token};
use std::collections::HashMap;

/// The types of a function's parameters, of a variant's contents, or of a struct's fields by their names.
#[derive(Default)]
pub struct Types {
    pub calls: HashMap<String, Vec<Vec<String>>>,
    pub fields: HashMap<String, Vec<HashMap<String, String>>>,
}

fn joined(t: &[Token]) -> String {
    t.iter().map(|x| x.text).collect()
}

/// A parameter's or a field's name and type.
fn named(t: &[Token]) -> (String, String) {
    match next_of(t, 0, &[":"]) {
        Some(colon) => (t[colon - 1].text.to_string(), joined(&t[colon + 1..])),
        None => (String::new(), joined(t)),
    }
}

impl Types {
    pub fn learn(&mut self, t: &[Token]) {
        for i in 0..t.len().saturating_sub(2) {
            let (name, opens) = (t[i + 1].text.to_string(), t[i + 2].text);
            match (t[i].text, opens) {
                ("fn", "(") => self.learn_call(name, t, i + 2),
                ("struct", "{") => {
                    let fields = parts(t, i + 2).iter().map(|&(a, b)| named(&t[a..b])).collect();
                    self.fields.entry(name).or_default().push(fields);
                }
                ("enum", "{") => {
                    for (a, _) in parts(t, i + 2).into_iter().filter(|&(a, b)| b > a + 1) {
                        self.learn_call(t[a].text.to_string(), t, a + 1);
                    }
                }
                _ => {}
            }
        }
    }

    fn learn_call(&mut self, name: String, t: &[Token], open: usize) {
        let types = parts(t, open).iter().map(|&(a, b)| named(&t[a..b]).1).collect();
        self.calls.entry(name).or_default().push(types);
    }
}

/// A part of a file that is code: a function's body, by its name with that of its impl, or what a constant is set to.
pub struct Part {
    pub from: usize,
    pub to: usize,
    pub function: Option<String>,
}

/// Contracts, declarations and ghost lines are passed over.
pub fn code(t: &[Token]) -> Vec<Part> {
    let (mut found, mut i, mut home, mut name) = (Vec::new(), 0, String::new(), String::new());
    while i < t.len() {
        i = match t[i].text {
            "requires" | "ensures" | "struct" | "enum" => closing(t, next_of(t, i, &["{"]).unwrap()) + 1,
            "ghost" | "use" | "mod" => (i..t.len()).find(|&j| t[j].text == ";").unwrap() + 1,
            "impl" => {
                home = format!("{}::", t[i + 1].text);
                next_of(t, i, &["{"]).unwrap() + 1
            }
            "fn" => {
                name = format!("{home}{}", t[i + 1].text);
                closing(t, i + 2) + 1
            }
            "const" => {
                let (from, to) = (next_of(t, i, &["="]).unwrap(), next_of(t, i, &[";"]).unwrap());
                found.push(Part { from, to, function: None });
                to + 1
            }
            "{" => {
                let to = closing(t, i);
                found.push(Part { from: i, to, function: Some(name.clone()) });
                to + 1
            }
            "}" => {
                home.clear();
                i + 1
            }
            _ => i + 1,
        };
    }
    found
}

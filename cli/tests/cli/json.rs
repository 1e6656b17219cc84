//! Reads the JSON that the tool prints: one object, valid for this reader and, where python3 is
//! installed, for another one.

use crate::run::Ran;
use std::collections::BTreeMap;
use std::io::Write;
use std::process::{Command, Stdio};

#[derive(Clone, Debug, PartialEq)]
pub enum Value {
    Null,
    Flag(bool),
    Number(i64),
    Text(String),
    List(Vec<Value>),
    Object(BTreeMap<String, Value>),
}

/// Reads the part of JSON that has no fractions.
struct Checker<'a> {
    rest: &'a str,
}

impl Checker<'_> {
    fn skip(&mut self, start: &str) -> bool {
        let rest = self.rest.trim_start();
        let found = rest.strip_prefix(start);
        self.rest = found.unwrap_or(rest);
        found.is_some()
    }

    fn value(&mut self) -> Value {
        if self.skip("null") {
            Value::Null
        } else if self.skip("true") {
            Value::Flag(true)
        } else if self.skip("false") {
            Value::Flag(false)
        } else if self.skip("\"") {
            Value::Text(self.text())
        } else if self.skip("[") {
            Value::List(self.items("]", Checker::value))
        } else if self.skip("{") {
            Value::Object(self.items("}", Checker::field).into_iter().collect())
        } else {
            self.number()
        }
    }

    fn items<T>(&mut self, close: &str, item: impl Fn(&mut Self) -> T) -> Vec<T> {
        let mut items = Vec::new();
        while !self.skip(close) {
            assert!(
                items.is_empty() || self.skip(","),
                "no comma: {}",
                self.rest
            );
            items.push(item(self));
        }
        items
    }

    fn field(&mut self) -> (String, Value) {
        assert!(self.skip("\""), "no key: {}", self.rest);
        let key = self.text();
        assert!(self.skip(":"), "no colon: {}", self.rest);
        (key, self.value())
    }

    fn number(&mut self) -> Value {
        let inside = |letter: char| letter == '-' || letter.is_ascii_digit();
        let end = self.rest.find(|letter| !inside(letter));
        let (number, rest) = self.rest.split_at(end.unwrap_or(self.rest.len()));
        self.rest = rest;
        Value::Number(number.parse().unwrap())
    }

    fn text(&mut self) -> String {
        let mut text = String::new();
        let mut letters = self.rest.chars();
        loop {
            match letters.next().unwrap() {
                '"' => break,
                '\\' => match letters.next().unwrap() {
                    'n' => text.push('\n'),
                    'u' => {
                        let code: String = letters.by_ref().take(4).collect();
                        let code = u32::from_str_radix(&code, 16).unwrap();
                        text.push(char::from_u32(code).unwrap());
                    }
                    plain => text.push(plain),
                },
                plain => {
                    assert!(plain >= ' ', "a control character");
                    text.push(plain);
                }
            }
        }
        self.rest = letters.as_str();
        text
    }
}

/// The object that a call printed.
pub fn object(ran: &Ran) -> BTreeMap<String, Value> {
    python_agrees(&ran.out);
    parsed(ran)
}

/// The same by this reader alone, for tests of many calls.
pub fn parsed(ran: &Ran) -> BTreeMap<String, Value> {
    let mut checker = Checker { rest: &ran.out };
    let value = checker.value();
    assert_eq!(checker.rest, "\n");
    let Value::Object(object) = value else {
        panic!("not an object: {}", ran.out)
    };
    object
}

fn python_agrees(text: &str) {
    let mut python = Command::new("python3");
    python
        .args(["-m", "json.tool"])
        .stdin(Stdio::piped())
        .stdout(Stdio::null());
    let Ok(mut child) = python.spawn() else {
        return;
    };
    child
        .stdin
        .take()
        .unwrap()
        .write_all(text.as_bytes())
        .unwrap();
    assert!(child.wait().unwrap().success(), "{text}");
}

pub fn numbers(list: &[i64]) -> Value {
    Value::List(list.iter().map(|&number| Value::Number(number)).collect())
}

pub fn text(text: &str) -> Value {
    Value::Text(text.to_string())
}

/// An object within an object.
pub fn inner(object: &BTreeMap<String, Value>, key: &str) -> BTreeMap<String, Value> {
    as_object(&object[key])
}

/// The objects of a list.
pub fn list(value: &Value) -> Vec<BTreeMap<String, Value>> {
    match value {
        Value::List(list) => list.iter().map(as_object).collect(),
        other => panic!("no list: {other:?}"),
    }
}

fn as_object(value: &Value) -> BTreeMap<String, Value> {
    match value {
        Value::Object(object) => object.clone(),
        other => panic!("no object: {other:?}"),
    }
}

/// number, name, place, size and register
pub fn head(object: &BTreeMap<String, Value>) -> [Value; 5] {
    ["number", "name", "place", "size", "register"].map(|key| object[key].clone())
}

pub fn answer(number: i64, name: &str, place: i64, size: i64, register: Value) -> [Value; 5] {
    let [number, place, size] = [number, place, size].map(Value::Number);
    [number, text(name), place, size, register]
}

//! A small JSON writer: one object, a key a line, lists within the line.

use std::fmt::Write;

#[derive(Clone)]
pub enum Json {
    Null,
    Flag(bool),
    Number(i64),
    Text(String),
    List(Vec<Json>),
    Object(Fields),
}

/// The fields of an object.
pub type Fields = Vec<(&'static str, Json)>;

impl Json {
    pub fn numbers<T: Copy + Into<i64>>(numbers: &[T]) -> Json {
        Json::List(numbers.iter().map(|&n| Json::Number(n.into())).collect())
    }

    pub fn text(text: impl Into<String>) -> Json {
        Json::Text(text.into())
    }

    fn write(&self, out: &mut String) {
        match self {
            Json::Null => out.push_str("null"),
            Json::Flag(flag) => out.push_str(if *flag { "true" } else { "false" }),
            Json::Number(number) => out.push_str(&number.to_string()),
            Json::Text(text) => write_text(text, out),
            Json::List(items) => write_items('[', items, ']', out, |item, out| item.write(out)),
            Json::Object(fields) => write_items('{', fields, '}', out, write_field),
        }
    }
}

/// The object as text, each of its fields on a line.
pub fn document(fields: &[(&'static str, Json)]) -> String {
    let mut out = String::new();
    for (count, field) in fields.iter().enumerate() {
        out.push_str(if count == 0 { "{\n  " } else { ",\n  " });
        write_field(field, &mut out);
    }
    out + "\n}\n"
}

/// The object as text, in one line.
pub fn line(fields: &[(&'static str, Json)]) -> String {
    let mut out = String::new();
    write_items('{', fields, '}', &mut out, write_field);
    out
}

fn write_field((key, value): &(&'static str, Json), out: &mut String) {
    write_text(key, out);
    out.push_str(": ");
    value.write(out);
}

fn write_items<T>(
    open: char,
    items: &[T],
    close: char,
    out: &mut String,
    write: impl Fn(&T, &mut String),
) {
    out.push(open);
    for (count, item) in items.iter().enumerate() {
        if count > 0 {
            out.push_str(", ");
        }
        write(item, out);
    }
    out.push(close);
}

fn write_text(text: &str, out: &mut String) {
    out.push('"');
    for letter in text.chars() {
        match letter {
            '"' => out.push_str("\\\""),
            '\\' => out.push_str("\\\\"),
            '\n' => out.push_str("\\n"),
            control if control < ' ' => {
                // Writing to a String cannot fail.
                let _ = write!(out, "\\u{:04x}", u32::from(control));
            }
            plain => out.push(plain),
        }
    }
    out.push('"');
}

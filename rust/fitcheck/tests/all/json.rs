//! A reader of JSON by RFC 8259, to hold the command's output against.

use std::iter::Peekable;
use std::str::Chars;

#[derive(Debug, Clone, PartialEq)]
pub enum Value {
    Number(f64),
    Text(String),
    List(Vec<Value>),
    Object(Vec<(String, Value)>),
}

impl Value {
    /// The value of a text that has nothing behind it but a line's end.
    pub fn parse(text: &str) -> Value {
        let mut reader = text.chars().peekable();
        let value = value(&mut reader);
        assert_eq!(reader.collect::<String>(), "\n", "one line and no more");
        value
    }

    pub fn get(&self, name: &str) -> &Value {
        let Value::Object(fields) = self else {
            panic!("{self:?} is no object");
        };
        let field = fields.iter().find(|field| field.0 == name);
        &field.unwrap_or_else(|| panic!("no {name} in {self:?}")).1
    }

    pub fn names(&self) -> Vec<&str> {
        let Value::Object(fields) = self else {
            panic!("{self:?} is no object");
        };
        fields.iter().map(|field| field.0.as_str()).collect()
    }

    pub fn list(&self) -> &[Value] {
        let Value::List(values) = self else {
            panic!("{self:?} is no list");
        };
        values
    }

    pub fn text(&self) -> &str {
        let Value::Text(text) = self else {
            panic!("{self:?} is no text");
        };
        text
    }

    pub fn number(&self) -> f64 {
        let Value::Number(number) = self else {
            panic!("{self:?} is no number");
        };
        *number
    }
}

type Reader<'a> = Peekable<Chars<'a>>;

fn value(reader: &mut Reader<'_>) -> Value {
    match reader.peek() {
        Some('"') => Value::Text(text(reader)),
        Some('[') => Value::List(many(reader, ']', value)),
        Some('{') => Value::Object(many(reader, '}', |reader| {
            let name = text(reader);
            assert_eq!(reader.next(), Some(':'));
            (name, value(reader))
        })),
        _ => number(reader),
    }
}

fn many<T>(reader: &mut Reader<'_>, end: char, one: impl Fn(&mut Reader<'_>) -> T) -> Vec<T> {
    reader.next();
    let mut values = Vec::new();
    if reader.next_if_eq(&end).is_some() {
        return values;
    }
    loop {
        values.push(one(reader));
        match reader.next() {
            Some(',') => {}
            Some(last) if last == end => return values,
            other => panic!("{other:?} where a comma or {end} should be"),
        }
    }
}

fn text(reader: &mut Reader<'_>) -> String {
    assert_eq!(reader.next(), Some('"'));
    let mut text = String::new();
    loop {
        match reader.next().expect("a text ends") {
            '"' => return text,
            '\\' => text.push(match reader.next() {
                Some('n') => '\n',
                Some('r') => '\r',
                Some('t') => '\t',
                Some(same @ ('"' | '\\')) => same,
                Some('u') => {
                    let digits: String = reader.by_ref().take(4).collect();
                    let code = u32::from_str_radix(&digits, 16).unwrap();
                    char::from_u32(code).unwrap()
                }
                other => panic!("an escape {other:?}"),
            }),
            character => {
                assert!(character >= ' ', "{character:?} is not escaped");
                text.push(character);
            }
        }
    }
}

fn number(reader: &mut Reader<'_>) -> Value {
    let mut digits = String::new();
    let part = |character: &char| matches!(character, '0'..='9' | '+' | '-' | '.' | 'e' | 'E');
    while let Some(character) = reader.next_if(part) {
        digits.push(character);
    }
    let first = digits.trim_start_matches('-').chars().next();
    assert!(
        first.is_some_and(|first| first.is_ascii_digit()),
        "{digits:?} is no number"
    );
    assert!(!digits.ends_with('.') && !digits.contains(".e"));
    Value::Number(digits.parse().unwrap())
}

//! What `--json` prints is JSON, with the keys that the help names.

use std::collections::BTreeMap;
use std::iter::Peekable;
use std::str::Chars;

use crate::programs::Folder;

/// A value of JSON, read by the letter of RFC 8259.
#[derive(Clone, PartialEq, Debug)]
enum Value {
    Null,
    Bool(bool),
    Number(u64),
    Text(String),
    List(Vec<Value>),
    Object(BTreeMap<String, Value>),
}

/// Reads a text that is one value and nothing else.
fn parse(text: &str) -> Value {
    let mut rest = text.chars().peekable();
    let value = value(&mut rest);
    assert_eq!(rest.collect::<String>().trim(), "", "behind the value");
    value
}

fn value(rest: &mut Peekable<Chars<'_>>) -> Value {
    match *rest.peek().expect("a value") {
        '{' => Value::Object(members(rest, '}', |rest| {
            let Value::Text(key) = value(rest) else { panic!("a key is a string") };
            assert_eq!(rest.next(), Some(':'));
            (key, value(rest))
        })),
        '[' => Value::List(members(rest, ']', value)),
        '"' => Value::Text(text(rest)),
        '0'..='9' => {
            let mut digits = String::new();
            while rest.peek().is_some_and(char::is_ascii_digit) {
                digits.extend(rest.next());
            }
            assert!(digits == "0" || !digits.starts_with('0'), "{digits}");
            Value::Number(digits.parse().expect("a number"))
        }
        _ => {
            let mut word = String::new();
            while rest.peek().is_some_and(char::is_ascii_lowercase) {
                word.extend(rest.next());
            }
            match word.as_str() {
                "null" => Value::Null,
                "true" => Value::Bool(true),
                "false" => Value::Bool(false),
                _ => panic!("{word:?} is no value"),
            }
        }
    }
}

/// What stands between brackets, with commas between.
fn members<T, All: FromIterator<T>>(
    rest: &mut Peekable<Chars<'_>>,
    end: char,
    one: impl Fn(&mut Peekable<Chars<'_>>) -> T,
) -> All {
    rest.next();
    let mut all = Vec::new();
    while rest.peek() != Some(&end) {
        if !all.is_empty() {
            assert_eq!(rest.next(), Some(','));
        }
        all.push(one(rest));
    }
    rest.next();
    all.into_iter().collect()
}

fn text(rest: &mut Peekable<Chars<'_>>) -> String {
    rest.next();
    let mut text = String::new();
    loop {
        match rest.next().expect("a closing quote") {
            '"' => return text,
            '\\' => match rest.next().expect("what is escaped") {
                'u' => {
                    let digits: String = rest.by_ref().take(4).collect();
                    let code = u32::from_str_radix(&digits, 16).expect("four digits");
                    text.extend(char::from_u32(code));
                }
                letter @ ('"' | '\\' | '/') => text.push(letter),
                letter => panic!("\\{letter} is no escape"),
            },
            letter => {
                assert!(letter >= ' ', "a control character stands bare");
                text.push(letter);
            }
        }
    }
}

impl Value {
    fn get(&self, key: &str) -> &Value {
        let Value::Object(fields) = self else { panic!("{self:?} is no object") };
        fields.get(key).unwrap_or_else(|| panic!("no {key} in {fields:?}"))
    }

    fn keys(&self) -> Vec<&str> {
        let Value::Object(fields) = self else { panic!("{self:?} is no object") };
        fields.keys().map(String::as_str).collect()
    }

    fn list(&self) -> &[Value] {
        let Value::List(values) = self else { panic!("{self:?} is no list") };
        values
    }
}

/// A file name that has to be escaped.
const NAME: &str = "a\"b\\c\u{1}\u{e9}";

fn json(folder: &Folder, verb: &str, status: i32) -> Value {
    let mut program = folder.command(verb);
    let program = program.args([NAME, "--json"]);
    let program = if verb == "check" { program.args(["--book", "second"]) } else { program };
    let output = program.output().expect("runs");
    assert_eq!(output.status.code(), Some(status), "{verb}");
    let text = String::from_utf8(output.stdout).expect("is text");
    assert_eq!(text.lines().count(), 1, "{text}");
    parse(&text)
}

/// Every key of a value is named by the verb's help.
fn all_are_told(folder: &Folder, verb: &str, value: &Value) {
    let help = folder.says(&format!("help {verb}")).1;
    let told =
        |key: &&str| help.split(|letter: char| !(letter.is_alphanumeric() || letter == '_')).any(|word| word == *key);
    match value {
        Value::Object(fields) => {
            assert!(value.keys().iter().all(told), "{:?} in {help}", value.keys());
            fields.values().for_each(|value| all_are_told(folder, verb, value));
        }
        Value::List(values) => values.iter().for_each(|value| all_are_told(folder, verb, value)),
        _ => {}
    }
}

#[test]
fn stats_as_json() {
    let folder = Folder::with_pool("json-stats");
    std::fs::copy(folder.path("p"), folder.path(NAME)).expect("is copied");
    let stats = json(&folder, "stats", 0);
    all_are_told(&folder, "stats", &stats);
    assert_eq!(stats.get("file"), &Value::Text(NAME.to_string()));
    assert_eq!(stats.get("bytes"), &Value::Number(65_536));
    assert_eq!(stats.get("tariff").list(), [3, 1, 2, 1, 4, 4, 3, 2].map(Value::Number));
    assert_eq!(stats.get("nodes").get("limit"), &Value::Number(20));
    assert_eq!(stats.get("leaves").get("keys"), &Value::Number(1));
    assert_eq!(stats.get("room").get("most"), &Value::Number(455));
    assert_eq!(stats.get("pages").get("live"), &Value::Number(3));
    assert_eq!(stats.get("sequence").get("last"), &Value::Number(5));
    assert_eq!(stats.get("scores_in_node_order"), &Value::Bool(true));
    let newest: Vec<&Value> = stats.get("blocks").list().iter().map(|block| block.get("newest")).collect();
    assert_eq!(newest, [&Value::Number(5), &Value::Null, &Value::Null, &Value::Null]);
}

#[test]
fn check_as_json() {
    let folder = Folder::with_pool("json-check");
    std::fs::copy(folder.path("p"), folder.path(NAME)).expect("is copied");
    let fine = json(&folder, "check", 0);
    all_are_told(&folder, "check", &fine);
    assert_eq!((fine.get("number"), fine.get("book")), (&Value::Number(0), &Value::Number(0)));
    assert_eq!((fine.get("keys"), fine.get("nodes")), (&Value::Number(1), &Value::Number(1)));
    assert_eq!(fine.get("faults").list(), []);
    let mut bytes = folder.bytes("p");
    bytes[512 + 10] ^= 1;
    std::fs::write(folder.path(NAME), bytes).expect("is written");
    let faulty = json(&folder, "check", 1);
    all_are_told(&folder, "check", &faulty);
    assert_eq!((faulty.get("number"), faulty.get("keys")), (&Value::Number(5), &Value::Null));
    let fault = &faulty.get("faults").list()[0];
    assert_eq!((fault.get("page"), fault.get("byte")), (&Value::Number(1), &Value::Number(59)));
    assert_eq!((fault.get("why"), fault.get("node")), (&Value::Text("the sum differs".to_string()), &Value::Null));
}

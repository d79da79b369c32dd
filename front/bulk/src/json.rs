//! JSON: one object on one line. Its keys are told in front/bulk/README.md.

use crate::show::characters;

/// An object that is being written, key by key.
#[derive(Default)]
pub struct Object {
    text: String,
}

impl Object {
    /// A key with JSON that is already written.
    pub fn raw(mut self, key: &str, value: &str) -> Object {
        let comma = if self.text.is_empty() { "" } else { "," };
        self.text.push_str(&format!("{comma}{}:{value}", string(key.as_bytes())));
        self
    }

    /// A text. Bytes that are no UTF-8 become U+FFFD, since JSON has no other way.
    pub fn text(self, key: &str, value: &[u8]) -> Object {
        self.raw(key, &string(value))
    }

    /// A text, or null where it is empty: no value of a message is.
    pub fn text_or_null(self, key: &str, value: &[u8]) -> Object {
        match value {
            [] => self.raw(key, "null"),
            _ => self.text(key, value),
        }
    }

    /// A whole number.
    pub fn number(self, key: &str, value: u64) -> Object {
        self.raw(key, &value.to_string())
    }

    /// A whole number, or null.
    pub fn number_or_null(self, key: &str, value: Option<u64>) -> Object {
        self.raw(key, &value.map_or("null".to_string(), |value| value.to_string()))
    }

    /// A list of JSON that is already written.
    pub fn list(self, key: &str, values: impl Iterator<Item = String>) -> Object {
        let values: Vec<String> = values.collect();
        self.raw(key, &format!("[{}]", values.join(",")))
    }

    /// A list of whole numbers.
    pub fn numbers(self, key: &str, values: &[usize]) -> Object {
        self.list(key, values.iter().map(usize::to_string))
    }

    /// The object as it is printed.
    pub fn end(self) -> String {
        format!("{{{}}}", self.text)
    }
}

/// A string in quotation marks. What is not printable ASCII or a letter is an escape, so that no
/// terminal obeys it.
pub fn string(bytes: &[u8]) -> String {
    let mut text = String::from("\"");
    for character in characters(bytes) {
        let letter = String::from_utf8_lossy(character).chars().next().unwrap_or('\u{fffd}');
        match letter {
            '"' | '\\' => text.extend(['\\', letter]),
            ' '..='~' => text.push(letter),
            _ if letter.is_alphanumeric() || letter == '\u{fffd}' => text.push(letter),
            _ => {
                let mut units = [0; 2];
                for unit in letter.encode_utf16(&mut units) {
                    text.push_str(&format!("\\u{unit:04x}"));
                }
            }
        }
    }
    text.push('"');
    text
}

#[cfg(test)]
mod tests {
    use super::*;

    #[test]
    fn strings_are_json() {
        assert_eq!(string(b"a\"b\\c"), r#""a\"b\\c""#);
        assert_eq!(string("Glühbirne \u{202e}\u{1b}\n€".as_bytes()), {
            "\"Glühbirne \\u202e\\u001b\\u000a\\u20ac\""
        });
        assert_eq!(string("😀".as_bytes()), "\"\\ud83d\\ude00\"");
        assert_eq!(string(b"a\xff"), "\"a\u{fffd}\"");
    }

    #[test]
    fn objects_keep_their_order() {
        let object = Object::default().number("b", 1).text("a", b"x").numbers("c", &[1, 2]);
        let object = object.text_or_null("d", b"").number_or_null("e", None);
        assert_eq!(object.end(), r#"{"b":1,"a":"x","c":[1,2],"d":null,"e":null}"#);
    }
}

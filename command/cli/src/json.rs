//! One line of JSON.

/// Members in the order in which they are added.
pub struct Object(String);

fn quoted(text: &str) -> String {
    let mut out = String::from("\"");
    for c in text.chars() {
        match c {
            '"' => out.push_str("\\\""),
            '\\' => out.push_str("\\\\"),
            '\n' => out.push_str("\\n"),
            '\r' => out.push_str("\\r"),
            '\t' => out.push_str("\\t"),
            // controls, and two line ends that some programs trip over
            c if c.is_control() || c == '\u{2028}' || c == '\u{2029}' => out.push_str(&format!("\\u{:04x}", c as u32)),
            c => out.push(c),
        }
    }
    out.push('"');
    out
}

impl Object {
    pub fn new() -> Object {
        Object(String::new())
    }

    fn member(mut self, name: &str, value: &str) -> Object {
        self.0.push(if self.0.is_empty() { '{' } else { ',' });
        self.0.push_str(&quoted(name));
        self.0.push(':');
        self.0.push_str(value);
        self
    }

    pub fn text(self, name: &str, value: &str) -> Object {
        let value = quoted(value);
        self.member(name, &value)
    }

    pub fn number(self, name: &str, value: u64) -> Object {
        self.member(name, &value.to_string())
    }

    pub fn signed(self, name: &str, value: i64) -> Object {
        self.member(name, &value.to_string())
    }

    pub fn truth(self, name: &str, value: bool) -> Object {
        self.member(name, if value { "true" } else { "false" })
    }

    pub fn rows<const WIDTH: usize>(self, name: &str, rows: &[[u32; WIDTH]]) -> Object {
        let rows: Vec<String> = rows.iter().map(|row| format!("[{}]", row.map(|n| n.to_string()).join(","))).collect();
        self.member(name, &format!("[{}]", rows.join(",")))
    }

    pub fn object(self, name: &str, value: Object) -> Object {
        self.member(name, &value.whole())
    }

    pub fn objects(self, name: &str, values: impl Iterator<Item = Object>) -> Object {
        let values: Vec<String> = values.map(Object::whole).collect();
        self.member(name, &format!("[{}]", values.join(",")))
    }

    fn whole(mut self) -> String {
        self.0.push('}');
        self.0
    }

    pub fn line(self) -> Vec<u8> {
        (self.whole() + "\n").into_bytes()
    }
}

#[cfg(test)]
mod tests {
    use super::*;

    #[test]
    fn escapes() {
        let line = Object::new().text("a", "\"\\\n\u{1}\u{2028}\u{e9}").number("b", 7).truth("c", true).signed("d", -8).line();
        assert_eq!(String::from_utf8(line).unwrap(), "{\"a\":\"\\\"\\\\\\n\\u0001\\u2028\u{e9}\",\"b\":7,\"c\":true,\"d\":-8}\n");
    }

    #[test]
    fn objects_in_objects() {
        let one = |n| Object::new().number("n", n);
        let line = Object::new().object("a", one(1)).objects("b", [one(2), one(3)].into_iter()).objects("c", std::iter::empty()).line();
        assert_eq!(String::from_utf8(line).unwrap(), "{\"a\":{\"n\":1},\"b\":[{\"n\":2},{\"n\":3}],\"c\":[]}\n");
    }
}

//! JSON values and how they are written: one line for each field of the outermost object, and for each item of its lists.

pub enum Json {
    Null,
    Bool(bool),
    Number(i128),
    Text(String),
    List(Vec<Json>),
    Object(Vec<(&'static str, Json)>),
}

macro_rules! object {
    ($($name:literal: $value:expr),* $(,)?) => {
        $crate::json::Json::Object(vec![$(($name, $crate::json::Json::from($value))),*])
    };
}
pub(crate) use object;

impl Json {
    /// Adds fields to an object.
    pub fn with(self, more: Json) -> Json {
        match (self, more) {
            (Json::Object(mut fields), Json::Object(added)) => {
                fields.extend(added);
                Json::Object(fields)
            }
            (other, _) => other,
        }
    }

    pub fn written(&self) -> String {
        let mut out = String::new();
        match self {
            Json::Object(fields) => lines(&mut out, fields),
            other => other.compact(&mut out),
        }
        out.push('\n');
        out
    }

    fn compact(&self, out: &mut String) {
        match self {
            Json::Null => out.push_str("null"),
            Json::Bool(value) => out.push_str(if *value { "true" } else { "false" }),
            Json::Number(value) => out.push_str(&value.to_string()),
            Json::Text(value) => quoted(out, value),
            Json::List(values) => {
                out.push('[');
                separated(out, values, ", ", |out, value| value.compact(out));
                out.push(']');
            }
            Json::Object(fields) => {
                out.push('{');
                separated(out, fields, ", ", field);
                out.push('}');
            }
        }
    }
}

fn lines(out: &mut String, fields: &[(&'static str, Json)]) {
    out.push_str("{\n  ");
    separated(out, fields, ",\n  ", |out, (name, value)| match value {
        Json::List(values) if matches!(values.first(), Some(Json::Object(_))) => {
            quoted(out, name);
            out.push_str(": [\n    ");
            separated(out, values, ",\n    ", |out, value| value.compact(out));
            out.push_str("\n  ]");
        }
        _ => field(out, &(*name, value)),
    });
    out.push_str("\n}");
}

fn field<J: std::borrow::Borrow<Json>>(out: &mut String, (name, value): &(&'static str, J)) {
    quoted(out, name);
    out.push_str(": ");
    value.borrow().compact(out);
}

fn separated<T>(out: &mut String, values: &[T], between: &str, one: impl Fn(&mut String, &T)) {
    for (n, value) in values.iter().enumerate() {
        if n > 0 {
            out.push_str(between);
        }
        one(out, value);
    }
}

fn quoted(out: &mut String, text: &str) {
    out.push('"');
    for c in text.chars() {
        match c {
            '"' => out.push_str("\\\""),
            '\\' => out.push_str("\\\\"),
            '\n' => out.push_str("\\n"),
            c if c.is_control() => out.push_str(&format!("\\u{:04x}", c as u32)),
            c => out.push(c),
        }
    }
    out.push('"');
}

impl From<bool> for Json {
    fn from(value: bool) -> Json {
        Json::Bool(value)
    }
}

impl From<u64> for Json {
    fn from(value: u64) -> Json {
        Json::Number(value.into())
    }
}

impl From<i64> for Json {
    fn from(value: i64) -> Json {
        Json::Number(value.into())
    }
}

impl From<u8> for Json {
    fn from(value: u8) -> Json {
        Json::Number(value.into())
    }
}

impl From<usize> for Json {
    fn from(value: usize) -> Json {
        Json::Number(value as i128)
    }
}

impl From<&str> for Json {
    fn from(value: &str) -> Json {
        Json::Text(value.to_string())
    }
}

impl From<String> for Json {
    fn from(value: String) -> Json {
        Json::Text(value)
    }
}

impl From<Vec<Json>> for Json {
    fn from(values: Vec<Json>) -> Json {
        Json::List(values)
    }
}

impl<T: Into<Json>> From<Option<T>> for Json {
    fn from(value: Option<T>) -> Json {
        value.map_or(Json::Null, Into::into)
    }
}

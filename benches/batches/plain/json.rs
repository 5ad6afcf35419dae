// JSON as catalogues have it: objects, lists, whole numbers, and texts without escapes.

pub enum Json {
    Number(i64),
    Text(String),
    List(Vec<Json>),
    Object(Vec<(String, Json)>),
}

impl Json {
    pub fn number(&self) -> i64 {
        if let Json::Number(number) = self { *number } else { panic!("a number is wanted") }
    }

    pub fn text(&self) -> &str {
        if let Json::Text(text) = self { text } else { panic!("a text is wanted") }
    }

    pub fn list(&self) -> &[Json] {
        if let Json::List(list) = self { list } else { panic!("a list is wanted") }
    }

    pub fn member(&self, name: &str) -> &Json {
        let Json::Object(members) = self else { panic!("an object is wanted") };
        &members.iter().find(|member| member.0 == name).expect(name).1
    }
}

pub fn read(text: &str) -> Json {
    value(&mut text.trim_start())
}

/// Whether this stands next, and then the rest is what stands behind it.
fn passes(rest: &mut &str, what: char) -> bool {
    let behind = rest.trim_start().strip_prefix(what);
    *rest = behind.unwrap_or(rest).trim_start();
    behind.is_some()
}

/// What stands before the character, with the rest behind it.
fn until(rest: &mut &str, end: char) -> String {
    let (text, behind) = rest.split_once(end).unwrap();
    *rest = behind;
    text.to_owned()
}

fn items<T>(rest: &mut &str, end: char, mut item: impl FnMut(&mut &str) -> T) -> Vec<T> {
    let mut items = Vec::new();
    while !passes(rest, end) {
        items.push(item(rest));
        passes(rest, ',');
    }
    items
}

fn value(rest: &mut &str) -> Json {
    if passes(rest, '[') {
        return Json::List(items(rest, ']', value));
    }
    if passes(rest, '{') {
        return Json::Object(items(rest, '}', |rest| {
            assert!(passes(rest, '"'));
            let name = until(rest, '"');
            assert!(passes(rest, ':'));
            (name, value(rest))
        }));
    }
    if let Some(behind) = rest.strip_prefix('"') {
        *rest = behind;
        return Json::Text(until(rest, '"'));
    }
    let end = rest.find(|c: char| c != '-' && !c.is_ascii_digit()).unwrap_or(rest.len());
    let (digits, behind) = rest.split_at(end);
    *rest = behind;
    Json::Number(digits.parse().unwrap())
}

//! A reader of the SVG files that are tried, strict about what it knows.

/// An element: its name, its attributes, and the text before the next tag.
pub struct Element {
    pub name: String,
    pub attributes: Vec<(String, String)>,
    pub text: String,
}

impl Element {
    pub fn get(&self, name: &str) -> Option<&str> {
        self.attributes.iter().find(|a| a.0 == name).map(|a| a.1.as_str())
    }
}

/// The text that character references stand for.
fn plain(text: &str) -> Result<String, String> {
    if text.chars().any(|c| c == '>' || (c.is_control() && c != '\n')) {
        return Err(format!("a bare character in '{text}'"));
    }
    let mut out = String::new();
    let mut rest = text;
    while let Some((before, after)) = rest.split_once('&') {
        let (name, left) = after.split_once(';').ok_or(format!("a bare & in '{text}'"))?;
        out += before;
        out.push(match name {
            "amp" => '&',
            "lt" => '<',
            "gt" => '>',
            "quot" => '"',
            _ => return Err(format!("&{name}; in '{text}'")),
        });
        rest = left;
    }
    Ok(out + rest)
}

fn attributes(text: &str) -> Result<Vec<(String, String)>, String> {
    let mut found: Vec<(String, String)> = vec![];
    let mut rest = text.trim();
    while !rest.is_empty() {
        let (name, after) = rest.split_once("=\"").ok_or(format!("attributes '{text}'"))?;
        let (value, left) = after.split_once('"').ok_or(format!("attributes '{text}'"))?;
        let good = !name.is_empty() && name.chars().all(|c| c.is_ascii_alphabetic() || c == '-');
        if !good || found.iter().any(|a| a.0 == name) || !(left.is_empty() || left.starts_with(' ')) {
            return Err(format!("attributes '{text}'"));
        }
        found.push((name.to_string(), plain(value)?));
        rest = left.trim_start();
    }
    Ok(found)
}

/// The elements in order, if the tags are balanced under one root.
pub fn elements(svg: &str) -> Result<Vec<Element>, String> {
    let mut all: Vec<Element> = vec![];
    let mut open: Vec<String> = vec![];
    let mut rest = svg.strip_prefix('<').ok_or("the file does not begin with a tag")?;
    loop {
        let (tag, after) = rest.split_once('>').ok_or("a tag that does not end")?;
        let (text, next) = after.split_once('<').map_or((after, None), |(text, next)| (text, Some(next)));
        if let Some(name) = tag.strip_prefix('/') {
            if open.pop().as_deref() != Some(name) {
                return Err(format!("</{name}> ends another element"));
            }
        } else {
            let (inside, alone) = tag.strip_suffix('/').map_or((tag, false), |inside| (inside, true));
            let (name, given) = inside.split_once(' ').unwrap_or((inside, ""));
            if open.is_empty() && !all.is_empty() {
                return Err(format!("<{name}> outside the root"));
            }
            // styles are no text of the picture
            let own = if alone || name == "style" { String::new() } else { plain(text)? };
            all.push(Element { name: name.to_string(), attributes: attributes(given)?, text: own });
            if !alone {
                open.push(name.to_string());
            }
        }
        match next {
            Some(next) => rest = next,
            None if open.is_empty() && text == "\n" => return Ok(all),
            None => return Err("the file ends inside an element".to_string()),
        }
    }
}

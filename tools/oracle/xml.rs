//! Whether a text is well-formed XML, as far as the pictures use it: tags that nest and close,
//! attributes that are quoted and not repeated, and no bare '&' or '<'. Here because a machine may
//! have no other checker.

fn name_end(text: &str) -> usize {
    text.find(|letter: char| !(letter.is_ascii_alphanumeric() || "-_:".contains(letter))).unwrap_or(text.len())
}

/// A '&' must start a reference that every reader of XML knows.
fn references_known(text: &str) -> Result<(), String> {
    for part in text.split('&').skip(1) {
        let known = ["amp;", "lt;", "gt;", "quot;", "apos;", "#"].iter().any(|name| part.starts_with(name));
        if !known {
            return Err("a '&' starts no reference".to_string());
        }
    }
    Ok(())
}

fn attributes(mut text: &str) -> Result<(), String> {
    let mut seen = Vec::new();
    while !text.is_empty() {
        let trimmed = text.trim_start();
        let end = name_end(trimmed);
        let spaced = trimmed.len() < text.len();
        if end == 0 || !spaced || seen.contains(&&trimmed[..end]) {
            return Err(format!("a bad or repeated attribute at '{text}'"));
        }
        seen.push(&trimmed[..end]);
        let value = trimmed[end..].strip_prefix("=\"").ok_or(format!("an attribute with no value at '{text}'"))?;
        let close = value.find('"').ok_or("a value with no end")?;
        if value[..close].contains('<') {
            return Err("a '<' in a value".to_string());
        }
        references_known(&value[..close])?;
        text = &value[close + 1..];
    }
    Ok(())
}

/// Takes one tag, without its angle brackets, off or onto the open ones.
fn tag<'a>(tag: &'a str, open: &mut Vec<&'a str>) -> Result<(), String> {
    if let Some(name) = tag.strip_prefix('/') {
        return if open.pop() == Some(name) { Ok(()) } else { Err(format!("'{name}' closes what is not open")) };
    }
    let (body, closed) = tag.strip_suffix('/').map_or((tag, false), |body| (body, true));
    let end = name_end(body);
    if end == 0 {
        return Err(format!("a tag with no name at '{tag}'"));
    }
    if !closed {
        open.push(&body[..end]);
    }
    attributes(body[end..].trim_end())
}

pub fn well_formed(text: &str) -> Result<(), String> {
    let mut open = Vec::new();
    let mut roots = 0;
    for (before, part) in text.split('<').enumerate() {
        let (inside, after) = if before == 0 { ("", part) } else { part.split_once('>').ok_or("a '<' with no '>'")? };
        if before > 0 && !inside.starts_with('?') && !inside.starts_with('!') {
            roots += usize::from(open.is_empty());
            tag(inside, &mut open)?;
        }
        if open.is_empty() && !after.trim().is_empty() {
            return Err("text outside the root".to_string());
        }
        references_known(after)?;
    }
    if roots == 1 && open.is_empty() {
        Ok(())
    } else {
        Err(format!("{roots} roots, and {} tags open at the end", open.len()))
    }
}

//! Damage to a printed line, and the escapes of odd bytes.

/// The line after a change, which is one of
///
/// - `KEY=TEXT`: the item of this key gets another value;
/// - `no KEY`: the item of this key goes;
/// - `OLD => NEW`: a text that stands in the line once becomes another; `^` and `$` as OLD are the
///   line's start and end.
pub fn damaged(line: &[u8], change: &str) -> Result<Vec<u8>, String> {
    if let Some((old, new)) = change.split_once("=>") {
        return replaced(line, old.trim(), &bytes_of(new.trim())?);
    }
    let mut items: Vec<&[u8]> = line.split(|&byte| byte == b' ').collect();
    if let Some(key) = change.strip_prefix("no ") {
        items.remove(item_at(&items, key)?);
        return Ok(items.join(&b' '));
    }
    let (key, _) = change.split_once('=').ok_or_else(|| format!("`{change}` is no change of a line"))?;
    let item = bytes_of(change)?;
    let at = item_at(&items, key)?;
    items[at] = &item;
    Ok(items.join(&b' '))
}

/// The place of the one item with a key.
fn item_at(items: &[&[u8]], key: &str) -> Result<usize, String> {
    let has_key = |item: &[u8]| item.strip_prefix(key.as_bytes()).is_some_and(|rest| rest.starts_with(b"="));
    let mut places = (0..items.len()).filter(|&at| has_key(items[at]));
    match (places.next(), places.next()) {
        (Some(at), None) => Ok(at),
        (None, _) => Err(format!("the line has no `{key}`")),
        _ => Err(format!("the line has `{key}` more than once")),
    }
}

fn replaced(line: &[u8], old: &str, new: &[u8]) -> Result<Vec<u8>, String> {
    let text = match old {
        "^" => return Ok([new, line].concat()),
        "$" => return Ok([line, new].concat()),
        _ => bytes_of(old)?,
    };
    let starts = |at: &usize| line[*at..].starts_with(&text);
    let places: Vec<usize> = (0..line.len()).filter(starts).collect();
    match places[..] {
        [at] if !text.is_empty() => Ok([&line[..at], new, &line[at + text.len()..]].concat()),
        _ => Err(format!("`{old}` stands in the line {} times", places.len())),
    }
}

/// The bytes of a text with escapes: `\n`, `\r`, `\t`, `\0`, `\s` (space), `\\` and `\xHH`.
pub fn bytes_of(text: &str) -> Result<Vec<u8>, String> {
    let mut bytes = Vec::new();
    let mut rest = text;
    while let Some((before, escape)) = rest.split_once('\\') {
        bytes.extend(before.bytes());
        let (byte, length) = escaped(escape).ok_or_else(|| format!("`\\{escape}` starts with no escape"))?;
        bytes.push(byte);
        rest = &escape[length..];
    }
    bytes.extend(rest.bytes());
    Ok(bytes)
}

/// The byte of an escape without its `\`, and the escape's length.
fn escaped(escape: &str) -> Option<(u8, usize)> {
    let byte = match escape.chars().next()? {
        'n' => b'\n',
        'r' => b'\r',
        't' => b'\t',
        '0' => 0,
        's' => b' ',
        '\\' => b'\\',
        'x' => return Some((u8::from_str_radix(escape.get(1..3)?, 16).ok()?, 3)),
        _ => return None,
    };
    Some((byte, 1))
}

#[cfg(test)]
mod tests {
    use super::*;

    fn after(change: &str) -> Result<String, String> {
        damaged(b"ev=0 do=bar in=- out=- sw=1", change).map(|line| line.escape_ascii().to_string())
    }

    #[test]
    fn changes() {
        assert_eq!(after("sw=16").unwrap(), "ev=0 do=bar in=- out=- sw=16");
        assert_eq!(after("out=").unwrap(), "ev=0 do=bar in=- out= sw=1");
        assert_eq!(after("no do").unwrap(), "ev=0 in=- out=- sw=1");
        assert_eq!(after("in=- out=- => out=- in=-").unwrap(), "ev=0 do=bar out=- in=- sw=1");
        assert_eq!(after(r"\sdo= => \tdo=").unwrap(), r"ev=0\tdo=bar in=- out=- sw=1");
        assert_eq!(after(r"^ => \s").unwrap(), " ev=0 do=bar in=- out=- sw=1");
        assert_eq!(after(r"$ => \xff\\").unwrap(), r"ev=0 do=bar in=- out=- sw=1\xff\\");
    }

    #[test]
    fn changes_that_fit_no_place() {
        assert_eq!(after("prio=1"), Err("the line has no `prio`".to_owned()));
        assert_eq!(after("=- => =1"), Err("`=-` stands in the line 2 times".to_owned()));
        assert_eq!(after("x => y"), Err("`x` stands in the line 0 times".to_owned()));
        assert_eq!(after("worse"), Err("`worse` is no change of a line".to_owned()));
        assert_eq!(after(r"sw=\q"), Err(r"`\q` starts with no escape".to_owned()));
    }
}

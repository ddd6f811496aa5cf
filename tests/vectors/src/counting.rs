//! Lines repeated with a counter.

/// The lines of `i = A..B: LINE ; LINE`: all of them for each `i` from A to B, both included. In a line
/// `{EXPRESSION}` is a number worked out from `i` with `+ - * / %`, and `{EXPRESSION:x}` the same as two
/// hexadecimal digits.
pub fn repeated(statement: &str) -> Result<Vec<String>, String> {
    let parts = || {
        let (range, lines) = statement.strip_prefix("i = ")?.split_once(": ")?;
        let (first, last) = range.split_once("..")?;
        Some((first.parse().ok()?, last.parse().ok()?, lines))
    };
    let (first, last, lines): (i64, i64, &str) =
        parts().ok_or("`for` is followed by `i = A..B: LINE ; LINE`")?;
    let each = |i| lines.split(" ; ").map(move |line| counted(line, i));
    (first..=last).flat_map(each).collect()
}

/// A line with its expressions worked out.
fn counted(line: &str, i: i64) -> Result<String, String> {
    let mut text = String::new();
    let mut rest = line;
    while let Some((before, braces)) = rest.split_once('{') {
        let (expression, after) = braces.split_once('}').ok_or("`{` without `}`")?;
        text += before;
        text += &worked_out(expression, i).ok_or_else(|| format!("`{expression}` can't be worked out"))?;
        rest = after;
    }
    Ok(text + rest)
}

fn worked_out(expression: &str, i: i64) -> Option<String> {
    match expression.strip_suffix(":x") {
        Some(expression) => value(expression, i).map(|value| format!("{value:02x}")),
        None => value(expression, i).map(|value| value.to_string()),
    }
}

/// The value of an expression; `*`, `/` and `%` bind tighter, and equal ones group from the left.
fn value(expression: &str, i: i64) -> Option<i64> {
    for operators in [&['+', '-'][..], &['*', '/', '%']] {
        if let Some((left, right)) = expression.rsplit_once(operators) {
            let operator = expression.as_bytes()[left.len()];
            let (left, right) = (value(left, i)?, value(right, i)?);
            return match operator {
                b'+' => left.checked_add(right),
                b'-' => left.checked_sub(right),
                b'*' => left.checked_mul(right),
                b'/' => left.checked_div(right),
                _ => left.checked_rem(right),
            };
        }
    }
    match expression.trim() {
        "i" => Some(i),
        number => number.parse().ok(),
    }
}

#[cfg(test)]
mod tests {
    use super::*;

    #[test]
    fn expressions() {
        assert_eq!(value("i", 5), Some(5));
        assert_eq!(value("10 - 2*i - 1", 3), Some(3));
        assert_eq!(value("15-i%16", 17), Some(14));
        assert_eq!(value("i/2%2", 6), Some(1));
        assert_eq!(value("i/0", 6), None);
        assert_eq!(value("j", 6), None);
    }

    #[test]
    fn each_line_for_each_number() {
        let lines = repeated("i = 9..10: add act=p{2*i} dst=0a0000{i:x}/32 ; bar sw=1").unwrap();
        assert_eq!(
            lines,
            ["add act=p18 dst=0a000009/32", "bar sw=1", "add act=p20 dst=0a00000a/32", "bar sw=1"]
        );
        assert!(repeated("9 times: oth").is_err());
        assert!(repeated("i = 0..1: oth in={i").is_err());
    }
}

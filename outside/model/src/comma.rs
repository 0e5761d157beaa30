//! RFC 4180, 2: its grammar, rule by rule. Each rule takes what it can from the front of
//! a text and gives that and the rest, or nothing where the text breaks the rule.

/// What stands in a field, its quotes taken off.
pub(crate) type Field = Vec<u8>;

/// `file = record *(CRLF record) [CRLF]`: the records in order. Nothing stands for the
/// record in which the text breaks the grammar, and ends the list: from there on nobody
/// can tell where a record begins. A text that ends in CRLF has no record behind it.
pub(crate) fn records(mut text: &[u8]) -> Vec<Option<Vec<Field>>> {
    let mut records = Vec::new();
    while !text.is_empty() {
        let Some((fields, rest)) = record(text).and_then(ended) else {
            records.push(None);
            break;
        };
        records.push(Some(fields));
        text = rest;
    }
    records
}

/// The end of a record: CRLF, or the end of the text.
fn ended((fields, rest): (Vec<Field>, &[u8])) -> Option<(Vec<Field>, &[u8])> {
    if rest.is_empty() {
        return Some((fields, rest));
    }
    rest.strip_prefix(b"\r\n").map(|behind| (fields, behind))
}

/// `record = field *(COMMA field)`.
fn record(text: &[u8]) -> Option<(Vec<Field>, &[u8])> {
    let (first, mut rest) = field(text)?;
    let mut fields = vec![first];
    while let Some(behind) = rest.strip_prefix(b",") {
        let (next, after) = field(behind)?;
        fields.push(next);
        rest = after;
    }
    Some((fields, rest))
}

/// `field = (escaped / non-escaped)`.
fn field(text: &[u8]) -> Option<(Field, &[u8])> {
    match text.strip_prefix(b"\"") {
        Some(inside) => escaped(inside),
        None => Some(non_escaped(text)),
    }
}

/// `escaped = DQUOTE *(TEXTDATA / COMMA / CR / LF / 2DQUOTE) DQUOTE`, from behind its
/// first quote: up to the quote that no other follows; two stand for one. Nothing if it
/// is never closed. What else may stand between quotes is not asked: a byte that the rule
/// does not have is in no right field.
fn escaped(mut text: &[u8]) -> Option<(Field, &[u8])> {
    let mut content = Vec::new();
    loop {
        let quote = text.iter().position(|&byte| byte == b'"')?;
        content.extend_from_slice(&text[..quote]);
        text = &text[quote + 1..];
        match text.strip_prefix(b"\"") {
            Some(behind) => text = behind,
            None => return Some((content, text)),
        }
        content.push(b'"');
    }
}

/// `non-escaped = *TEXTDATA`.
fn non_escaped(text: &[u8]) -> (Field, &[u8]) {
    let end = text.iter().position(|&byte| !is_textdata(byte));
    let (content, rest) = text.split_at(end.unwrap_or(text.len()));
    (content.to_vec(), rest)
}

/// `TEXTDATA = %x20-21 / %x23-2B / %x2D-7E`: no quote, no comma, no CR, no LF.
fn is_textdata(byte: u8) -> bool {
    matches!(byte, 0x20..=0x21 | 0x23..=0x2B | 0x2D..=0x7E)
}

//! Texts made into others that a careless reader would take them for: what the
//! faults of reading a table, a sheet and a matrix have in common.

use crate::limits::TEXT;

/// Each field changed. A text that is no text at all stays as it is.
fn with_fields(text: &[u8], change: fn(&str) -> String) -> Vec<u8> {
    let Ok(text) = std::str::from_utf8(text) else {
        return text.to_vec();
    };
    let line = |line: &str| line.split('\t').map(change).collect::<Vec<_>>().join("\t");
    let lines: Vec<String> = text.split('\n').map(line).collect();
    lines.join("\n").into_bytes()
}

pub fn without_leading_zeros(text: &[u8]) -> Vec<u8> {
    with_fields(text, |field| {
        let rest = field.trim_start_matches('0');
        let number = rest.starts_with(|first: char| first.is_ascii_digit());
        let some = if field.starts_with('0') { "0" } else { "" };
        if number { rest } else { some }.to_string() + if number { "" } else { rest }
    })
}

pub fn without_ninth_digit(text: &[u8]) -> Vec<u8> {
    with_fields(text, |field| field.replace("100000000", "99999999"))
}

/// Numbers of eight digits made longer than any may be.
pub fn without_eight_digits(text: &[u8]) -> Vec<u8> {
    with_fields(text, |field| {
        let eight = field.len() == 8 && field.bytes().all(|byte| byte.is_ascii_digit());
        field.to_string() + if eight { "00" } else { "" }
    })
}

pub fn with_final_lf(text: &[u8]) -> Vec<u8> {
    let missing = !text.ends_with(b"\n") && !text.is_empty();
    let end: &[u8] = if missing { b"\n" } else { b"" };
    [text, end].concat()
}

/// CR LF taken for LF.
pub fn without_cr(text: &[u8]) -> Vec<u8> {
    let mut kept = text.to_vec();
    while let Some(at) = kept.windows(2).position(|two| two == b"\r\n") {
        kept.remove(at);
    }
    kept
}

/// A text as long as is allowed made longer.
pub fn past_limit(text: &[u8]) -> Vec<u8> {
    let longer = vec![b'\n'; usize::from(text.len() == TEXT)];
    [text, &longer].concat()
}

/// A text one byte too long cut short.
pub fn within_limit(text: &[u8]) -> Vec<u8> {
    let end = text.len() - usize::from(text.len() == TEXT + 1);
    text[..end].to_vec()
}

/// An R line with one number, as it was before the fibres, given four of them. A
/// text too long stays as it is.
pub fn with_fibres(text: &[u8]) -> Vec<u8> {
    let first = text.split(|byte| *byte == b'\n').next().unwrap_or(b"");
    let one = first.iter().filter(|byte| **byte == b'\t').count() == 1;
    if text.len() > TEXT || !one || first.len() == text.len() {
        return text.to_vec();
    }
    [first, b"\t4", &text[first.len()..]].concat()
}

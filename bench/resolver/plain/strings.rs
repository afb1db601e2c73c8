//! Names and feature strings, as docs/feature-strings.md spells them.

/// The most bytes of a name.
const LONGEST_NAME: usize = 64;

/// A byte that may begin a name, and one that may stand in a name.
const FIRST: u8 = 1;
const LATER: u8 = 2;

/// Of each byte, where in a name it may stand.
static PLACES: [u8; 256] = places();

const fn places() -> [u8; 256] {
    let mut places = [0; 256];
    let mut byte = 0;
    while byte < 256 {
        places[byte] = match byte as u8 {
            b'A'..=b'Z' | b'a'..=b'z' | b'0'..=b'9' | b'_' => FIRST | LATER,
            b'+' | b'-' | b'.' => LATER,
            _ => 0,
        };
        byte += 1;
    }
    places
}

/// A feature string by its form, with its names.
#[derive(Clone, Copy)]
pub enum FeatureString<'a> {
    Plain(&'a [u8]),
    Switch(&'a [u8]),
    Strong(&'a [u8], &'a [u8]),
    Weak(&'a [u8], &'a [u8]),
}

/// How many of the first bytes are a name: 0 to 64.
fn name_length(text: &[u8]) -> usize {
    let text = &text[..text.len().min(LONGEST_NAME)];
    match text.first() {
        Some(first) if PLACES[usize::from(*first)] & FIRST != 0 => {}
        _ => return 0,
    }
    let end = text.iter().position(|byte| PLACES[usize::from(*byte)] == 0);
    end.unwrap_or(text.len())
}

/// Checks that this is a name; else it answers the length of its longest prefix that begins one.
pub fn check_name(text: &[u8]) -> Result<(), usize> {
    match name_length(text) {
        length if length == text.len() && length > 0 => Ok(()),
        length => Err(length),
    }
}

/// Reads a feature string; where it has no form, it answers the length of its longest prefix that begins one.
pub fn read_string(text: &[u8]) -> Result<FeatureString<'_>, usize> {
    let length = name_length(text);
    let (first, rest) = text.split_at(length);
    if length == 0 {
        return Err(0);
    }
    let skipped = match rest {
        [] => return Ok(FeatureString::Plain(first)),
        [b'/', ..] => 1,
        [b'?', b'/', ..] => 2,
        [b'?', ..] => return Err(length + 1),
        [b':', ..] if first == b"dep" => 1,
        _ => return Err(length),
    };
    let last = &rest[skipped..];
    check_name(last).map_err(|prefix| length + skipped + prefix)?;
    Ok(match rest[0] {
        b':' => FeatureString::Switch(last),
        b'/' => FeatureString::Strong(first, last),
        _ => FeatureString::Weak(first, last),
    })
}

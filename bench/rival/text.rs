// What bytes a text has, eight at a time: where its lines, words and names end.
const ONES: u64 = 0x0101_0101_0101_0101;
pub const HIGHS: u64 = 0x80 * ONES;

// The bytes that no name has.
const NEVER_IN_NAMES: [bool; 256] = {
    let mut never = [false; 256];
    let mut byte = 0;
    while byte < 256 {
        never[byte] =
            byte < 0x20 || matches!(byte as u8, b'<' | b'>' | b':' | b'"' | b'/' | b'\\' | b'|' | b'?' | b'*' | 0x7f);
        byte += 1;
    }
    never
};

pub struct Line<'a> {
    pub bytes: &'a [u8],
    pub ascii: bool,
    pub quotes: bool,
}

// A bit in each byte of a word that is this one; above the first of them there may be others.
fn places(word: u64, byte: u8) -> u64 {
    let differs = word ^ (byte as u64 * ONES);
    differs.wrapping_sub(ONES) & !differs & HIGHS
}

pub fn word_of(chunk: &[u8]) -> u64 {
    u64::from_le_bytes(chunk.try_into().unwrap())
}

// The bytes of a word with small letters for A to Z.
pub fn lower(word: u64) -> u64 {
    let low = word & !HIGHS;
    let from_a = low + (0x80 - b'A' as u64) * ONES;
    let past_z = low + (0x7f - b'Z' as u64) * ONES;
    word | ((from_a ^ past_z) & !word & HIGHS) >> 2
}

// The first line of a text, without its LF, if it is ended.
pub fn first_line(text: &[u8]) -> Option<Line<'_>> {
    let (mut high, mut quotes) = (0, 0);
    for (at, chunk) in text.chunks_exact(8).enumerate() {
        let word = word_of(chunk);
        let end = places(word, b'\n');
        // the bits below the first LF
        let before = if end == 0 { u64::MAX } else { (end & end.wrapping_neg()) - 1 };
        high |= word & before & HIGHS;
        quotes |= places(word, b'"') & before;
        if end != 0 {
            let bytes = &text[..at * 8 + end.trailing_zeros() as usize / 8];
            return Some(Line { bytes, ascii: high == 0, quotes: quotes != 0 });
        }
    }
    let start = text.len() / 8 * 8;
    let end = start + text[start..].iter().position(|byte| *byte == b'\n')?;
    let rest = &text[start..end];
    let quotes = quotes != 0 || rest.contains(&b'"');
    Some(Line { bytes: &text[..end], ascii: high == 0 && rest.is_ascii(), quotes })
}

pub fn last_line(text: &[u8]) -> Line<'_> {
    Line { bytes: text, ascii: text.is_ascii(), quotes: text.contains(&b'"') }
}

pub fn is_blank(byte: u8) -> bool {
    byte == b' ' || byte == b'\t'
}

// How many bytes stand before the first blank.
pub fn before_blank(text: &[u8]) -> usize {
    for (at, chunk) in text.chunks_exact(8).enumerate() {
        let word = word_of(chunk);
        let end = places(word, b' ') | places(word, b'\t');
        if end != 0 {
            return at * 8 + end.trailing_zeros() as usize / 8;
        }
    }
    let start = text.len() / 8 * 8;
    text[start..].iter().position(|byte| is_blank(*byte)).map_or(text.len(), |rest| start + rest)
}

pub fn may_name(name: &[u8]) -> bool {
    !name.iter().any(|byte| NEVER_IN_NAMES[*byte as usize])
}

pub fn may_be_pattern(text: &[u8]) -> bool {
    !text.iter().any(|byte| NEVER_IN_NAMES[*byte as usize] && !matches!(byte, b'*' | b'?'))
}

// What stands between the \ of a path.
pub fn parts(path: &[u8]) -> impl Iterator<Item = &[u8]> {
    path.split(|byte| *byte == b'\\')
}

// Names that are the same if their letters are folded, and their hashes.
//
// ASCII is folded eight bytes at a time. Names with other characters are folded one character after another, by the
// mappings to upper and lower case that the standard library has.
use crate::text::{lower, word_of, HIGHS};
use std::str;

fn word(chunk: &[u8]) -> u64 {
    lower(word_of(chunk))
}

// Up to seven bytes in a word. Those in the middle may stand in it twice.
fn last_word(rest: &[u8]) -> u64 {
    let four = |bytes: &[u8]| u32::from_le_bytes(bytes.try_into().unwrap()) as u64;
    lower(match rest {
        [] => 0,
        [first, .., last] if rest.len() < 4 => {
            *first as u64 | (rest[rest.len() / 2] as u64) << 8 | (*last as u64) << 16
        }
        [only] => *only as u64,
        _ => four(&rest[..4]) | four(&rest[rest.len() - 4..]) << 32,
    })
}

// Simple case folding: the small letter of the capital one, as far as each of them is one character. The dotless i has
// the capital letter of another one, and three characters are folded though they have no capital letter of their own.
fn fold(letter: char) -> char {
    fn single(mut mapped: impl Iterator<Item = char>, letter: char) -> char {
        mapped.next().filter(|_| mapped.next().is_none()).unwrap_or(letter)
    }
    match letter {
        'ı' => letter,
        '\u{1fd3}' => '\u{390}',
        '\u{1fe3}' => '\u{3b0}',
        '\u{fb06}' => '\u{fb05}',
        _ => {
            let capital = single(letter.to_uppercase(), letter);
            single(capital.to_lowercase(), capital)
        }
    }
}

fn folded(name: &[u8]) -> impl Iterator<Item = char> + '_ {
    str::from_utf8(name).expect("a line is text").chars().map(fold)
}

// Folds a text, and puts it behind another one.
pub fn fold_into(text: &[u8], out: &mut Vec<u8>) {
    if text.is_ascii() {
        let start = out.len();
        out.extend_from_slice(text);
        out[start..].make_ascii_lowercase();
    } else {
        let mut bytes = [0; 4];
        folded(text).for_each(|letter| out.extend_from_slice(letter.encode_utf8(&mut bytes).as_bytes()));
    }
}

// The hash of these bytes with small letters, and all their words in one, which tells whether they are ASCII.
fn hash_bytes(folder: u32, name: &[u8]) -> (u32, u64) {
    const MULTIPLIER: u64 = 0x9e37_79b9_7f4a_7c15;
    let mix = |hash: u64, word: u64| (hash.rotate_left(29) ^ word).wrapping_mul(MULTIPLIER);
    let (mut hash, mut all) = (folder as u64 + 1, 0);
    let chunks = name.chunks_exact(8);
    let last = last_word(chunks.remainder());
    for chunk in chunks {
        hash = mix(hash, word(chunk));
        all |= word(chunk);
    }
    hash = mix(hash, last);
    ((hash >> 32) as u32, all | last)
}

pub fn hash(folder: u32, name: &[u8]) -> u32 {
    match hash_bytes(folder, name) {
        (hash, all) if all & HIGHS == 0 => hash,
        _ => hash_folded(folder, name),
    }
}

#[cold]
fn hash_folded(folder: u32, name: &[u8]) -> u32 {
    hash_bytes(folder, folded(name).collect::<String>().as_bytes()).0
}

// Most names are spelled alike, so that is looked at first.
pub fn same(one: &[u8], other: &[u8]) -> bool {
    one == other || same_folded(one, other)
}

#[cold]
fn same_folded(one: &[u8], other: &[u8]) -> bool {
    one.eq_ignore_ascii_case(other) || !(one.is_ascii() && other.is_ascii()) && folded(one).eq(folded(other))
}

// Patterns of names, in which `*` stands for any characters and `?` for one.
use crate::names;

#[derive(Clone)]
pub struct Pattern {
    pub text: Vec<u8>,
    // what is meant, with folded letters; none of one that is a star and an ending
    folded: Option<Vec<u8>>,
}

fn is_wild(byte: &u8) -> bool {
    matches!(byte, b'*' | b'?')
}

impl Pattern {
    pub fn new(text: Vec<u8>) -> Pattern {
        let mut pattern = Pattern { text, folded: None };
        if pattern.ending().is_none() {
            let meant: &[u8] = if pattern.text == b"*.*" { b"*" } else { &pattern.text };
            let mut folded = Vec::new();
            names::fold_into(meant, &mut folded);
            pattern.folded = Some(folded);
        }
        pattern
    }

    // The `.ext` of `*.ext`. Nothing but a dot is folded to a dot, so a name that matches has one there, too.
    pub fn ending(&self) -> Option<&[u8]> {
        match &self.text[..] {
            [b'*', ending @ ..] if ending.first() == Some(&b'.') && !ending.iter().any(is_wild) => Some(ending),
            _ => None,
        }
    }

    // Whether a folded name matches. One with an ending isn't asked this.
    pub fn matches(&self, name: &[u8]) -> bool {
        self.folded.as_ref().is_some_and(|pattern| matches(pattern, name))
    }
}

// How many bytes the character has that begins here.
fn character(text: &[u8]) -> usize {
    1 + text[1..].iter().take_while(|byte| **byte & 0xc0 == 0x80).count()
}

// Of all stars only the last one that was met is tried again, with one character more. Characters that aren't wild are
// compared as bytes: those of one begin nowhere but at the beginning of one.
fn matches(pattern: &[u8], name: &[u8]) -> bool {
    let (mut at, mut rest) = (0, 0);
    // what stands after the last star, and the end of what that stands for
    let mut star = None;
    loop {
        match pattern.get(at) {
            Some(b'*') => {
                at += 1;
                if at == pattern.len() {
                    return true;
                }
                star = Some((at, rest));
                continue;
            }
            Some(b'?') if rest < name.len() => {
                (at, rest) = (at + 1, rest + character(&name[rest..]));
                continue;
            }
            Some(byte) if name.get(rest) == Some(byte) => {
                (at, rest) = (at + 1, rest + 1);
                continue;
            }
            None if rest == name.len() => return true,
            _ => {}
        }
        match star {
            Some((after, end)) if end < name.len() => {
                let end = end + character(&name[end..]);
                (at, rest, star) = (after, end, Some((after, end)));
            }
            _ => return false,
        }
    }
}

pub fn pattern_bytes(patterns: &[Pattern]) -> usize {
    patterns.iter().map(|pattern| pattern.text.len()).sum()
}

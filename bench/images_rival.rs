//! `images_rival FILE in|out ROUNDS`: does what `codec_images` does, with an image of nodes alone, by a codec that is
//! written to be fast, without proofs. bench/codec times both.

use std::{env, fs, process};

const PIECE: usize = 65_536;
const LONGEST_ROW: usize = 262_144;
const LISTS_AFTER_NODES: usize = 9;

struct Node {
    number: u32,
    parent: u32,
    name: String,
    folder: bool,
    length: u64,
    owner: u32,
    created: u64,
    modified: u64,
    accessed: u64,
}

struct Image {
    last_moment: u64,
    run_limit: u32,
    nodes: Vec<Node>,
}

/// Why no row is read: it is cut short, and may go on in the next piece, or it is not legal.
enum Flaw {
    Cut,
    Illegal,
}

struct Reader<'a> {
    rest: &'a [u8],
}

impl<'a> Reader<'a> {
    fn take<const N: usize>(&mut self) -> Result<[u8; N], Flaw> {
        let (front, rest) = self.rest.split_first_chunk().ok_or(Flaw::Cut)?;
        self.rest = rest;
        Ok(*front)
    }

    fn four(&mut self) -> Result<u32, Flaw> {
        Ok(u32::from_le_bytes(self.take()?))
    }

    fn eight(&mut self) -> Result<u64, Flaw> {
        Ok(u64::from_le_bytes(self.take()?))
    }

    fn truth(&mut self) -> Result<bool, Flaw> {
        match self.take()? {
            [0] => Ok(false),
            [1] => Ok(true),
            _ => Err(Flaw::Illegal),
        }
    }

    fn text(&mut self) -> Result<String, Flaw> {
        let length = u16::from_le_bytes(self.take()?) as usize;
        let (text, rest) = self.rest.split_at_checked(length).ok_or(Flaw::Cut)?;
        self.rest = rest;
        std::str::from_utf8(text).map(str::to_owned).map_err(|_| Flaw::Illegal)
    }

    fn node(&mut self) -> Result<Node, Flaw> {
        Ok(Node {
            number: self.four()?,
            parent: self.four()?,
            name: self.text()?,
            folder: self.truth()?,
            length: self.eight()?,
            owner: self.four()?,
            created: self.eight()?,
            modified: self.eight()?,
            accessed: self.eight()?,
        })
    }
}

/// Reads an image that comes in pieces, and holds the bytes of a row until it has come whole.
#[derive(Default)]
struct ImageIn {
    held: Vec<u8>,
    front: Option<(u64, u32, u32)>,
    nodes: Vec<Node>,
}

impl ImageIn {
    fn feed(&mut self, piece: &[u8]) -> Option<()> {
        self.held.extend_from_slice(piece);
        let mut reader = Reader { rest: &self.held };
        let mut left = reader.rest.len();
        loop {
            let read = match self.front {
                None => Self::front(&mut reader).map(|front| self.front = Some(front)),
                Some((_, _, count)) if self.nodes.len() < count as usize => {
                    reader.node().map(|node| self.nodes.push(node))
                }
                _ => break,
            };
            match read {
                Ok(()) => left = reader.rest.len(),
                Err(Flaw::Cut) => break,
                Err(Flaw::Illegal) => return None,
            }
        }
        self.held.drain(..self.held.len() - left);
        Some(())
    }

    fn front(reader: &mut Reader) -> Result<(u64, u32, u32), Flaw> {
        Ok((reader.eight()?, reader.four()?, reader.four()?))
    }

    fn finish(self) -> Option<Image> {
        let (last_moment, run_limit, count) = self.front?;
        let whole = self.nodes.len() == count as usize && self.held == [0; 4 * LISTS_AFTER_NODES];
        whole.then_some(Image { last_moment, run_limit, nodes: self.nodes })
    }
}

struct Writer<'a> {
    into: &'a mut [u8],
    at: usize,
}

impl Writer<'_> {
    fn put(&mut self, bytes: &[u8]) {
        self.into[self.at..self.at + bytes.len()].copy_from_slice(bytes);
        self.at += bytes.len();
    }

    fn node(&mut self, node: &Node) {
        self.put(&node.number.to_le_bytes());
        self.put(&node.parent.to_le_bytes());
        self.put(&(node.name.len() as u16).to_le_bytes());
        self.put(node.name.as_bytes());
        self.put(&[node.folder as u8]);
        self.put(&node.length.to_le_bytes());
        self.put(&node.owner.to_le_bytes());
        self.put(&node.created.to_le_bytes());
        self.put(&node.modified.to_le_bytes());
        self.put(&node.accessed.to_le_bytes());
    }
}

/// How long a row is, which is written from the first byte on.
fn put_node(node: &Node, into: &mut [u8]) -> usize {
    let mut writer = Writer { into, at: 0 };
    writer.node(node);
    writer.at
}

fn read(bytes: &[u8]) -> Option<Image> {
    let mut reader = ImageIn::default();
    for piece in bytes.chunks(PIECE) {
        reader.feed(piece)?;
    }
    reader.finish()
}

fn row_len(node: &Node) -> usize {
    47 + node.name.len()
}

fn is_written(image: &Image, into: &mut [u8]) -> bool {
    image.nodes.iter().all(|node| put_node(node, into) == row_len(node))
}

/// Whether an image is written as it was read.
fn is_same(image: &Image, bytes: &[u8], into: &mut [u8]) -> bool {
    let mut out = Vec::new();
    out.extend_from_slice(&image.last_moment.to_le_bytes());
    out.extend_from_slice(&image.run_limit.to_le_bytes());
    out.extend_from_slice(&(image.nodes.len() as u32).to_le_bytes());
    for node in &image.nodes {
        let end = put_node(node, into);
        out.extend_from_slice(&into[..end]);
    }
    out.extend_from_slice(&[0; 4 * LISTS_AFTER_NODES]);
    out == bytes
}

fn is_done(path: &str, what: &str, rounds: u32) -> Option<bool> {
    let bytes = fs::read(path).ok()?;
    if what == "in" {
        return Some((0..rounds).all(|_| read(&bytes).is_some()));
    }
    let image = read(&bytes)?;
    let mut into = vec![0; LONGEST_ROW];
    if !is_same(&image, &bytes, &mut into) {
        return None;
    }
    Some((0..rounds).all(|_| is_written(&image, &mut into)))
}

fn main() {
    let words: Vec<String> = env::args().skip(1).collect();
    let done = match &words[..] {
        [path, what, rounds] => rounds.parse().ok().and_then(|rounds| is_done(path, what, rounds)),
        _ => None,
    };
    process::exit(if done == Some(true) { 0 } else { 1 });
}

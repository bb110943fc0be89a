//! `store_rival init`, `take GROUP`, `recover ROUNDS` or `checkpoint ROUNDS`: what `store_runs` does, with the same
//! files, without proofs. It knows file operations, and a quota of the root without thresholds, which it scans at once.
//! bench/store times both.

// What only bench/rival calls is of no use here.
#![allow(dead_code)]

#[path = "rival/names.rs"]
mod names;
#[path = "rival/places.rs"]
mod places;
#[path = "rival/text.rs"]
mod text;

use places::Places;
use std::fs::{self, File, OpenOptions};
use std::io::{Error, Read, Result};
use std::os::unix::fs::FileExt;
use std::{env, io, process};

const PARTS: [&str; 2] = ["fsrm.store.0", "fsrm.store.1"];
const SIZES: [u32; 4] = [2, 1_048_576, 268_435_456, CLUSTER as u32];
const CLUSTER: u64 = 4_096;
const HEAD: usize = 48;
const LONG_TAIL: usize = 1_048_576;
const WRITTEN: usize = 65_536;
const ROOT: u32 = 0;

/// Why a store isn't read.
fn damaged() -> Error {
    Error::other("damaged")
}

struct Reader<'a> {
    rest: &'a [u8],
}

impl<'a> Reader<'a> {
    fn take<const N: usize>(&mut self) -> Option<[u8; N]> {
        let (front, rest) = self.rest.split_first_chunk()?;
        self.rest = rest;
        Some(*front)
    }

    fn one(&mut self) -> Option<u8> {
        Some(self.take::<1>()?[0])
    }

    fn four(&mut self) -> Option<u32> {
        Some(u32::from_le_bytes(self.take()?))
    }

    fn eight(&mut self) -> Option<u64> {
        Some(u64::from_le_bytes(self.take()?))
    }

    fn bytes(&mut self, count: usize) -> Option<&'a [u8]> {
        let (front, rest) = self.rest.split_at_checked(count)?;
        self.rest = rest;
        Some(front)
    }

    fn text(&mut self) -> Option<&'a [u8]> {
        let count = u16::from_le_bytes(self.take()?) as usize;
        self.bytes(count).filter(|text| std::str::from_utf8(text).is_ok())
    }

    // Without its `D:\`.
    fn path(&mut self) -> Option<&'a [u8]> {
        self.text()?.strip_prefix(b"D:\\")
    }
}

fn put_text(text: &[u8], into: &mut Vec<u8>) {
    into.extend_from_slice(&(text.len() as u16).to_le_bytes());
    into.extend_from_slice(text);
}

fn put_path(path: &[u8], into: &mut Vec<u8>) {
    into.extend_from_slice(&(path.len() as u16 + 3).to_le_bytes());
    into.extend_from_slice(b"D:\\");
    into.extend_from_slice(path);
}

/// Paths are without their `D:\`.
#[derive(Clone, Copy)]
enum Command<'a> {
    Mkdir { path: &'a [u8], owner: u64 },
    Create { path: &'a [u8], length: u64, owner: u64 },
    Resize { path: &'a [u8], length: u64 },
    Touch { path: &'a [u8] },
    Move { path: &'a [u8], to: &'a [u8] },
    Remove { path: &'a [u8] },
    AddQuota { limit: u64 },
    Scan,
    Finish,
}

use Command::{AddQuota, Create, Finish, Mkdir, Move, Remove, Resize, Scan, Touch};

/// A quota of the root: what is used, once it is counted.
#[derive(Clone, Copy)]
struct Quota {
    limit: u64,
    used: Option<u64>,
}

impl Command<'_> {
    fn spell(&self, moment: u64, into: &mut Vec<u8>) {
        into.extend_from_slice(&moment.to_le_bytes());
        let mut put = |kind: u8, path: &[u8], numbers: &[u64]| {
            into.push(kind);
            put_path(path, into);
            numbers.iter().for_each(|number| into.extend_from_slice(&number.to_le_bytes()));
        };
        match *self {
            Mkdir { path, owner } => put(1, path, &[owner]),
            Create { path, length, owner } => put(2, path, &[length, owner]),
            Resize { path, length } => put(3, path, &[length]),
            Touch { path } => put(4, path, &[]),
            Move { path, to } => {
                put(5, path, &[]);
                put_path(to, into);
            }
            Remove { path } => put(6, path, &[]),
            AddQuota { limit } => {
                put(10, b"", &[]);
                into.push(1);
                into.extend_from_slice(&limit.to_le_bytes());
                into.extend_from_slice(&[0, 1, 0, 0, 0, 0, 0]);
            }
            Scan => put(13, b"", &[]),
            Finish => into.extend_from_slice(&[99, 0, 0, 0, 0, 0, 0, 0, 0]),
        }
    }

    fn read<'a>(reader: &mut Reader<'a>) -> Option<Command<'a>> {
        Some(match reader.one()? {
            1 => Mkdir { path: reader.path()?, owner: reader.eight()? },
            2 => Create { path: reader.path()?, length: reader.eight()?, owner: reader.eight()? },
            3 => Resize { path: reader.path()?, length: reader.eight()? },
            4 => Touch { path: reader.path()? },
            5 => Move { path: reader.path()?, to: reader.path()? },
            6 => Remove { path: reader.path()? },
            10 => {
                let (path, given, limit) = (reader.path()?, reader.one()?, reader.eight()?);
                let rest: [u8; 7] = reader.take()?;
                return (path.is_empty() && given == 1 && rest == [0, 1, 0, 0, 0, 0, 0]).then_some(AddQuota { limit });
            }
            13 => reader.path().filter(|path| path.is_empty()).map(|_| Scan)?,
            99 => reader.eight().filter(|folder| *folder == 0).map(|_| Finish)?,
            _ => return None,
        })
    }

    /// The command of a line, and its moment.
    fn of_line(line: &[u8]) -> Option<(u64, Command<'_>)> {
        let mut words = line.split(|byte| *byte == b' ');
        let number = |word: &[u8]| std::str::from_utf8(word).ok()?.parse::<u64>().ok();
        let moment = number(words.next()?)?;
        let name = words.next()?;
        let mut path = || words.next()?.strip_prefix(b"D:\\");
        Some((moment, match name {
            b"mkdir" => Mkdir { path: path()?, owner: number(words.next()?)? },
            b"create" => Create { path: path()?, length: number(words.next()?)?, owner: number(words.next()?)? },
            b"resize" => Resize { path: path()?, length: number(words.next()?)? },
            b"touch" => Touch { path: path()? },
            b"move" => Move { path: path()?, to: path()? },
            b"remove" => Remove { path: path()? },
            b"step" => Finish,
            b"dirquota" => match words.nth(1)? {
                b"add" => AddQuota { limit: 1 << 40 },
                _ => Scan,
            },
            _ => return None,
        }))
    }
}

#[derive(Default)]
struct Node {
    parent: u32,
    // None of a node that is no longer there.
    name: Option<Box<[u8]>>,
    folder: bool,
    children: u32,
    length: u64,
    owner: u32,
    created: u64,
    modified: u64,
    accessed: u64,
}

impl Node {
    fn allocated(&self) -> u64 {
        self.length.next_multiple_of(CLUSTER)
    }
}

struct Machine {
    nodes: Vec<Node>,
    free: std::collections::BinaryHeap<std::cmp::Reverse<u32>>,
    places: Places,
    quota: Option<Quota>,
    last: u64,
}

impl Machine {
    fn new() -> Machine {
        let root = Node { name: Some(Box::default()), folder: true, owner: 1, ..Node::default() };
        Machine { nodes: vec![root], free: Default::default(), places: Places::new(), quota: None, last: 0 }
    }

    fn name(&self, number: u32) -> &[u8] {
        self.nodes[number as usize].name.as_deref().unwrap_or_default()
    }

    fn child(&self, folder: u32, name: &[u8]) -> Option<u32> {
        self.places.find(names::hash(folder, name), |number| {
            self.nodes[number as usize].parent == folder && names::same(self.name(number), name)
        })
    }

    fn find(&self, path: &[u8]) -> Option<u32> {
        if path.is_empty() {
            return Some(ROOT);
        }
        text::parts(path).try_fold(ROOT, |folder, name| self.child(folder, name))
    }

    fn file(&mut self, path: &[u8]) -> Option<&mut Node> {
        let number = self.find(path)? as usize;
        Some(&mut self.nodes[number]).filter(|node| !node.folder)
    }

    /// The folder and the last name of a path, where nothing stands yet.
    fn place<'a>(&self, path: &'a [u8]) -> Option<(u32, &'a [u8])> {
        let end = path.iter().rposition(|byte| *byte == b'\\');
        let (folders, name) = end.map_or((&path[..0], path), |end| (&path[..end], &path[end + 1..]));
        let folder = self.find(folders).filter(|folder| self.nodes[*folder as usize].folder)?;
        self.child(folder, name).is_none().then_some((folder, name))
    }

    fn make(&mut self, path: &[u8], folder: bool, length: u64, owner: u64, moment: u64) -> Option<()> {
        let (parent, name) = self.place(path)?;
        let made = Node {
            parent,
            name: Some(name.into()),
            folder,
            children: 0,
            length,
            owner: owner as u32,
            created: moment,
            modified: moment,
            accessed: moment,
        };
        self.change_used(0, made.allocated())?;
        let number = self.free.pop().map_or(self.nodes.len() as u32, |least| least.0);
        if number as usize == self.nodes.len() {
            self.nodes.push(made);
        } else {
            self.nodes[number as usize] = made;
        }
        self.places.insert(names::hash(parent, name), number);
        self.nodes[parent as usize].children += 1;
        Some(())
    }

    /// None if it would exceed the root's quota.
    fn change_used(&mut self, old: u64, new: u64) -> Option<()> {
        if let Some(Quota { limit, used: Some(used) }) = &mut self.quota {
            let would = *used - old + new;
            if new > old && would > *limit {
                return None;
            }
            *used = would;
        }
        Some(())
    }

    fn resize(&mut self, path: &[u8], length: u64, moment: u64) -> Option<()> {
        let old = self.file(path)?.allocated();
        self.change_used(old, length.next_multiple_of(CLUSTER))?;
        let file = self.file(path)?;
        (file.length, file.modified) = (length, moment);
        Some(())
    }

    fn relocate(&mut self, path: &[u8], to: &[u8]) -> Option<()> {
        let number = self.find(path).filter(|number| *number != ROOT)?;
        let (folder, name) = self.place(to)?;
        let mut above = folder;
        while above != ROOT {
            if above == number {
                return None;
            }
            above = self.nodes[above as usize].parent;
        }
        self.take_out(number);
        self.places.insert(names::hash(folder, name), number);
        self.nodes[folder as usize].children += 1;
        let node = &mut self.nodes[number as usize];
        (node.parent, node.name) = (folder, Some(name.into()));
        Some(())
    }

    fn remove(&mut self, path: &[u8]) -> Option<()> {
        let number = self.find(path).filter(|number| *number != ROOT)?;
        let node = &self.nodes[number as usize];
        if node.children > 0 {
            return None;
        }
        self.change_used(node.allocated(), 0);
        self.take_out(number);
        self.nodes[number as usize] = Node::default();
        self.free.push(std::cmp::Reverse(number));
        Some(())
    }

    fn take_out(&mut self, number: u32) {
        let parent = self.nodes[number as usize].parent;
        let hash = names::hash(parent, self.name(number));
        self.places.remove(hash, number);
        self.nodes[parent as usize].children -= 1;
    }

    /// Does a command, unless it is refused: then it answers None.
    fn carry_out(&mut self, moment: u64, command: Command) -> Option<()> {
        match command {
            Mkdir { path, owner } => self.make(path, true, 0, owner, moment)?,
            Create { path, length, owner } => self.make(path, false, length, owner, moment)?,
            Resize { path, length } => self.resize(path, length, moment)?,
            Touch { path } => self.file(path)?.accessed = moment,
            Move { path, to } => self.relocate(path, to)?,
            Remove { path } => self.remove(path)?,
            AddQuota { limit } => self.quota = Some(Quota { limit, used: None }),
            Scan => self.quota.as_mut()?.used = None,
            Finish => {
                let sum = self.nodes.iter().map(Node::allocated).sum();
                self.quota.as_mut()?.used = Some(sum);
            }
        }
        self.last = moment;
        Some(())
    }

    fn read_row(&mut self, reader: &mut Reader) -> Option<()> {
        let number = reader.four()?;
        let node = Node {
            parent: reader.four()?,
            name: Some(reader.text()?.into()),
            folder: reader.one()? == 1,
            children: 0,
            length: reader.eight()?,
            owner: reader.four()?,
            created: reader.eight()?,
            modified: reader.eight()?,
            accessed: reader.eight()?,
        };
        (self.nodes.len() as u32..number).for_each(|gap| self.free.push(std::cmp::Reverse(gap)));
        self.nodes.resize_with(number as usize, Node::default);
        if number != ROOT {
            self.places.insert(names::hash(node.parent, node.name.as_deref()?), number);
        }
        self.nodes.push(node);
        Some(())
    }

    fn of_image(image: &[u8]) -> Option<Machine> {
        let mut reader = Reader { rest: image };
        let (last, _run_limit, count) = (reader.eight()?, reader.four()?, reader.four()?);
        let mut machine = Machine { nodes: Vec::with_capacity(count as usize), last, ..Machine::new() };
        for _ in 0..count {
            machine.read_row(&mut reader)?;
        }
        for place in 1..machine.nodes.len() {
            let parent = machine.nodes[place].parent as usize;
            machine.nodes.get_mut(parent).filter(|node| node.folder)?.children += 1;
        }
        (reader.rest == [0; 36]).then_some(machine)
    }

    fn put_row(number: u32, node: &Node, name: &[u8], into: &mut Vec<u8>) {
        into.extend_from_slice(&number.to_le_bytes());
        into.extend_from_slice(&node.parent.to_le_bytes());
        put_text(name, into);
        into.push(node.folder as u8);
        into.extend_from_slice(&node.length.to_le_bytes());
        into.extend_from_slice(&node.owner.to_le_bytes());
        into.extend_from_slice(&node.created.to_le_bytes());
        into.extend_from_slice(&node.modified.to_le_bytes());
        into.extend_from_slice(&node.accessed.to_le_bytes());
    }

    fn rows(&self) -> impl Iterator<Item = (u32, &Node, &[u8])> {
        self.nodes.iter().enumerate().filter_map(|(number, node)| Some((number as u32, node, node.name.as_deref()?)))
    }
}

struct Store {
    files: [File; 2],
    open: [bool; 2],
    ruling: usize,
    generation: u64,
    image: usize,
    end: usize,
    group: usize,
    held: usize,
    bytes: Vec<u8>,
    machine: Machine,
}

fn head(generation: u64, image: usize) -> Vec<u8> {
    let sizes = SIZES.map(u32::to_le_bytes).concat();
    let numbers = [generation.to_le_bytes().as_slice(), &sizes, &(image as u64).to_le_bytes()].concat();
    [&1u64.to_le_bytes(), b"FSRMHALF".as_slice(), &numbers].concat()
}

fn opened() -> Result<[File; 2]> {
    let open = |path| OpenOptions::new().read(true).write(true).create(true).truncate(false).open(path);
    let files = [open(PARTS[0])?, open(PARTS[1])?];
    // An earlier process may have left what isn't stable.
    files[0].sync_all()?;
    files[1].sync_all()?;
    File::open(".")?.sync_all()?;
    Ok(files)
}

/// The generation and the image's length of a half whose gate is open.
fn judged(bytes: &[u8]) -> Option<(u64, usize)> {
    let generation = u64::from_le_bytes(bytes.get(16..24)?.try_into().ok()?);
    let image = u64::from_le_bytes(bytes.get(40..48)?.try_into().ok()?) as usize;
    (bytes[..HEAD] == head(generation, image)).then_some((generation, image))
}

impl Store {
    fn init() -> Result<()> {
        let [zero, one] = opened()?;
        zero.write_all_at(&[0], 0)?;
        one.write_all_at(&[0], 0)?;
        zero.sync_all()?;
        one.sync_all()?;
        let mut image = [0; 99];
        (image[8], image[12], image[26], image[35]) = (60, 1, 1, 1);
        zero.write_all_at(&[&head(1, image.len())[1..], &image, &[0]].concat(), 1)?;
        zero.sync_all()?;
        zero.write_all_at(&[1], 0)?;
        zero.sync_all()
    }

    fn recover() -> Result<Store> {
        let files = opened()?;
        let parts = [fs::read(PARTS[0])?, fs::read(PARTS[1])?];
        let open = [parts[0].first() == Some(&1), parts[1].first() == Some(&1)];
        let heads = [0, 1].map(|part| judged(&parts[part]).filter(|_| open[part]));
        let ruling = if heads[0] > heads[1] { 0 } else { 1 };
        let (generation, image) = heads[ruling].ok_or_else(damaged)?;
        let half = &parts[ruling];
        let machine = half.get(HEAD..HEAD + image).and_then(Machine::of_image).ok_or_else(damaged)?;
        let (end, group, held, bytes) = (HEAD + image, 1, 0, Vec::new());
        let mut store = Store { files, open, ruling, generation, image, end, group, held, bytes, machine };
        store.replay(half).ok_or_else(damaged)?;
        Ok(store)
    }

    /// Does the entries after the image once more.
    fn replay(&mut self, half: &[u8]) -> Option<()> {
        while *half.get(self.end)? == 1 {
            let mut reader = Reader { rest: &half[self.end + 1..] };
            let length = reader.four()? as usize;
            let mut body = Reader { rest: reader.bytes(length)? };
            let moment = body.eight()?;
            let command = Command::read(&mut body)?;
            self.machine.carry_out(moment, command);
            self.end += 5 + length;
        }
        Some(())
    }

    fn take(&mut self, moment: u64, command: Command) -> Result<()> {
        if moment < self.machine.last || self.machine.carry_out(moment, command).is_none() {
            return Ok(());
        }
        if self.held > 0 {
            self.bytes.push(1);
        }
        let start = self.bytes.len();
        self.bytes.extend_from_slice(&[0; 4]);
        command.spell(moment, &mut self.bytes);
        let length = (self.bytes.len() - start - 4) as u32;
        self.bytes[start..start + 4].copy_from_slice(&length.to_le_bytes());
        self.held += 1;
        if self.held == self.group { self.flush() } else { Ok(()) }
    }

    fn flush(&mut self) -> Result<()> {
        if self.held == 0 {
            return Ok(());
        }
        self.bytes.push(0);
        let file = &self.files[self.ruling];
        file.write_all_at(&self.bytes, self.end as u64 + 1)?;
        file.sync_all()?;
        file.write_all_at(&[1], self.end as u64)?;
        file.sync_all()?;
        self.end += self.bytes.len();
        self.held = 0;
        self.bytes.clear();
        if self.end - HEAD - self.image > LONG_TAIL.max(self.image) { self.checkpoint() } else { Ok(()) }
    }

    /// Gives the other half an image, and has it rule.
    fn checkpoint(&mut self) -> Result<()> {
        if self.machine.quota.is_some() {
            return Err(Error::other("an image has no quota"));
        }
        let other = 1 - self.ruling;
        let file = &self.files[other];
        if self.open[other] {
            file.write_all_at(&[0], 0)?;
            file.sync_all()?;
        }
        let (mut count, mut image) = (0u32, 8 + 10 * 4 + 4);
        for (_, _, name) in self.machine.rows() {
            (count, image) = (count + 1, image + 47 + name.len());
        }
        let mut bytes = head(self.generation + 1, image);
        bytes.remove(0);
        bytes.extend_from_slice(&self.machine.last.to_le_bytes());
        bytes.extend_from_slice(&60u32.to_le_bytes());
        bytes.extend_from_slice(&count.to_le_bytes());
        let mut at = 1;
        for (number, node, name) in self.machine.rows() {
            Machine::put_row(number, node, name, &mut bytes);
            if bytes.len() >= WRITTEN {
                file.write_all_at(&bytes, at)?;
                at += bytes.len() as u64;
                bytes.clear();
            }
        }
        bytes.extend_from_slice(&[0; 37]);
        file.write_all_at(&bytes, at)?;
        file.sync_all()?;
        file.write_all_at(&[1], 0)?;
        file.sync_all()?;
        self.open[other] = true;
        (self.ruling, self.generation, self.image, self.end) = (other, self.generation + 1, image, HEAD + image);
        Ok(())
    }
}

fn take_script(group: usize) -> Result<()> {
    let mut store = Store::recover()?;
    store.group = group;
    let mut script = Vec::new();
    io::stdin().read_to_end(&mut script)?;
    for line in script.split(|byte| *byte == b'\n').filter(|line| !line.is_empty()) {
        let (moment, command) = Command::of_line(line).ok_or_else(|| Error::other("a line"))?;
        store.take(moment, command)?;
    }
    store.flush()
}

fn run(what: &str, count: usize) -> Result<()> {
    match what {
        "init" => Store::init(),
        "take" => take_script(count),
        "recover" => (0..count).try_for_each(|_| Store::recover().map(|_| ())),
        "checkpoint" => {
            let mut store = Store::recover()?;
            (0..count).try_for_each(|_| store.checkpoint())
        }
        _ => Err(Error::other(what)),
    }
}

fn main() {
    let words: Vec<String> = env::args().skip(1).collect();
    let count = words.get(1).and_then(|word| word.parse().ok()).unwrap_or(0);
    let done = words.first().map(|what| run(what, count));
    process::exit(if matches!(done, Some(Ok(()))) { 0 } else { 1 });
}

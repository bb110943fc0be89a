//! `codec_rival FILE decode|encode ROUNDS`: does what `codec_entries` does, with the same bytes, by a codec that is
//! written to be fast, without proofs. bench/codec times both.

use std::ops::RangeInclusive;
use std::{env, fs, process};

const FRAME: usize = 256;
const LONGEST_ENTRY: usize = 131_072;
const LIMITS: RangeInclusive<u64> = 1_024..=1 << 60;

/// The place of the first field that is missing, cut short or not legal, as the number of bytes left from there on.
struct Flaw(usize);

type Read<T> = Result<T, Flaw>;

/// What follows `D:\`.
struct Path {
    text: String,
    depth: usize,
}

#[derive(Clone, Copy)]
enum ActionKind {
    Event = 1,
    Mail,
    Program,
    Report,
}

struct Action {
    kind: ActionKind,
    minutes: i32,
    text: String,
}

struct Added {
    percent: u16,
    action: Action,
}

struct Thresholds {
    percents: Vec<u16>,
    notices: Vec<Added>,
}

struct NewQuota {
    path: Path,
    limit: Option<u64>,
    enforce: Option<bool>,
    enabled: bool,
    template: Option<String>,
    thresholds: Thresholds,
}

struct QuotaChange {
    path: Path,
    limit: Option<u64>,
    enforce: Option<bool>,
    enabled: Option<bool>,
    removed: Vec<u16>,
    thresholds: Thresholds,
}

struct NewTemplate {
    name: String,
    limit: u64,
    enforce: bool,
    thresholds: Thresholds,
}

struct TemplateChange {
    name: String,
    limit: Option<u64>,
    enforce: Option<bool>,
    removed: Vec<u16>,
    thresholds: Thresholds,
    update: u8,
}

enum Deed {
    Mkdir { path: Path, owner: u32 },
    Create { path: Path, length: u64, owner: u32 },
    Resize { path: Path, length: u64 },
    Touch { path: Path },
    Move { from: Path, to: Path },
    Remove { path: Path },
    NewQuota(Box<NewQuota>),
    QuotaChange(Box<QuotaChange>),
    OnPath { kind: u8, path: Path },
    OnName { kind: u8, name: String },
    NewTemplate(Box<NewTemplate>),
    TemplateChange(Box<TemplateChange>),
    NewAutoquota { path: Path, template: String, excluded: Vec<String> },
    Options { run_limit: u32 },
    NewFilegroup { name: String, members: Vec<String>, non_members: Vec<String> },
    FilegroupChange { name: String, members: Option<Vec<String>>, non_members: Option<Vec<String>> },
    NewScreen { path: Path, active: bool, groups: Vec<String>, actions: Vec<Action> },
    ScreenChange { path: Path, active: Option<bool>, removed: Vec<String>, groups: Vec<String> },
    NewException { path: Path, groups: Vec<String> },
    Finish { folder: u32 },
}

struct Entry {
    moment: u64,
    deed: Deed,
}

const NAME_BYTES: [bool; 256] = {
    let mut may = [true; 256];
    let mut byte = 0;
    while byte < 256 {
        let never = matches!(byte as u8, 127 | b'<' | b'>' | b':' | b'"' | b'/' | b'\\' | b'|' | b'?' | b'*');
        may[byte] = byte >= 32 && !never;
        byte += 1;
    }
    may
};

fn is_length(text: &[u8]) -> bool {
    (1..=255).contains(&text.len())
}

fn is_name(text: &[u8]) -> bool {
    is_length(text) && text != b"." && text != b".." && text.iter().all(|byte| NAME_BYTES[*byte as usize])
}

fn is_pattern(text: &[u8]) -> bool {
    let may = |byte: &u8| NAME_BYTES[*byte as usize] || matches!(byte, b'*' | b'?');
    is_length(text) && text != b"." && text != b".." && text.iter().all(may)
}

fn is_printing(byte: &u8) -> bool {
    *byte >= 32 && *byte != 127
}

fn is_object_name(text: &[u8]) -> bool {
    is_length(text) && text.iter().all(|byte| is_printing(byte) && *byte != b'|')
}

fn is_action_text(text: &[u8]) -> bool {
    text.len() <= 1_024 && text.iter().all(is_printing)
}

/// How many names the rest of a path has, if it is spelled as a path is.
fn depth_of(rest: &[u8]) -> Option<usize> {
    let (mut depth, mut begun) = (0, 0);
    if rest.is_empty() {
        return Some(0);
    }
    for (at, byte) in rest.iter().enumerate() {
        if !NAME_BYTES[*byte as usize] {
            if *byte != b'\\' || !is_whole(&rest[begun..at]) {
                return None;
            }
            depth += 1;
            begun = at + 1;
        }
    }
    is_whole(&rest[begun..]).then_some(depth + 1)
}

fn is_whole(name: &[u8]) -> bool {
    is_length(name) && name != b"." && name != b".."
}

struct Reader<'a> {
    rest: &'a [u8],
}

impl<'a> Reader<'a> {
    fn take<const N: usize>(&mut self) -> Read<[u8; N]> {
        let Some((front, rest)) = self.rest.split_first_chunk() else { return Err(Flaw(self.rest.len())) };
        self.rest = rest;
        Ok(*front)
    }

    fn number(&mut self, range: RangeInclusive<u64>) -> Read<u64> {
        let left = self.rest.len();
        let number = u64::from_le_bytes(self.take()?);
        if range.contains(&number) { Ok(number) } else { Err(Flaw(left)) }
    }

    fn choice(&mut self, most: u8) -> Read<u8> {
        let left = self.rest.len();
        let [byte] = self.take()?;
        if byte <= most { Ok(byte) } else { Err(Flaw(left)) }
    }

    fn truth(&mut self) -> Read<bool> {
        Ok(self.choice(1)? == 1)
    }

    fn text(&mut self) -> Read<&'a str> {
        let left = self.rest.len();
        let length = u16::from_le_bytes(self.take()?) as usize;
        let Some((text, rest)) = self.rest.split_at_checked(length) else { return Err(Flaw(left)) };
        self.rest = rest;
        std::str::from_utf8(text).map_err(|_| Flaw(left))
    }

    fn tested(&mut self, test: fn(&[u8]) -> bool) -> Read<String> {
        let left = self.rest.len();
        let text = self.text()?;
        if test(text.as_bytes()) { Ok(text.to_owned()) } else { Err(Flaw(left)) }
    }

    fn name(&mut self) -> Read<String> {
        self.tested(is_object_name)
    }

    fn path(&mut self) -> Read<Path> {
        let left = self.rest.len();
        let text = self.text()?;
        let rest = text.strip_prefix("D:\\").ok_or(Flaw(left))?;
        let depth = depth_of(rest.as_bytes()).ok_or(Flaw(left))?;
        Ok(Path { text: rest.to_owned(), depth })
    }

    fn optional<T>(&mut self, needed: bool, read: impl FnOnce(&mut Self) -> Read<T>) -> Read<Option<T>> {
        let left = self.rest.len();
        if self.truth()? {
            return Ok(Some(read(self)?));
        }
        if needed { Err(Flaw(left)) } else { Ok(None) }
    }

    fn list<T>(&mut self, counts: RangeInclusive<u16>, read: impl Fn(&mut Self) -> Read<T>) -> Read<Vec<T>> {
        let left = self.rest.len();
        let count = u16::from_le_bytes(self.take()?);
        if !counts.contains(&count) {
            return Err(Flaw(left));
        }
        (0..count).map(|_| read(self)).collect()
    }

    fn percent(&mut self) -> Read<u16> {
        Ok(self.number(1..=250)? as u16)
    }

    fn owner(&mut self) -> Read<u32> {
        Ok(self.number(1..=u32::MAX as u64)? as u32)
    }

    fn length(&mut self) -> Read<u64> {
        self.number(0..=17_592_185_978_880)
    }

    fn minutes(&mut self) -> Read<i32> {
        let left = self.rest.len();
        match u64::from_le_bytes(self.take()?) {
            number @ 0..=525_600 => Ok(number as i32),
            u64::MAX => Ok(-1),
            _ => Err(Flaw(left)),
        }
    }

    fn action(&mut self) -> Read<Action> {
        let left = self.rest.len();
        let kind = match self.take()? {
            [1] => ActionKind::Event,
            [2] => ActionKind::Mail,
            [3] => ActionKind::Program,
            [4] => ActionKind::Report,
            _ => return Err(Flaw(left)),
        };
        Ok(Action { kind, minutes: self.minutes()?, text: self.tested(is_action_text)? })
    }

    fn thresholds(&mut self) -> Read<Thresholds> {
        let percents = self.list(0..=u16::MAX, Self::percent)?;
        let notices =
            self.list(0..=u16::MAX, |reader| Ok(Added { percent: reader.percent()?, action: reader.action()? }))?;
        Ok(Thresholds { percents, notices })
    }

    fn new_quota(&mut self) -> Read<NewQuota> {
        let path = self.path()?;
        let limit = self.optional(false, |reader| reader.number(LIMITS))?;
        Ok(NewQuota {
            path,
            limit,
            enforce: self.optional(false, Self::truth)?,
            enabled: self.truth()?,
            template: self.optional(limit.is_none(), Self::name)?,
            thresholds: self.thresholds()?,
        })
    }

    fn quota_change(&mut self) -> Read<QuotaChange> {
        Ok(QuotaChange {
            path: self.path()?,
            limit: self.optional(false, |reader| reader.number(LIMITS))?,
            enforce: self.optional(false, Self::truth)?,
            enabled: self.optional(false, Self::truth)?,
            removed: self.list(0..=u16::MAX, Self::percent)?,
            thresholds: self.thresholds()?,
        })
    }

    fn new_template(&mut self) -> Read<NewTemplate> {
        Ok(NewTemplate {
            name: self.name()?,
            limit: self.number(LIMITS)?,
            enforce: self.truth()?,
            thresholds: self.thresholds()?,
        })
    }

    fn template_change(&mut self) -> Read<TemplateChange> {
        Ok(TemplateChange {
            name: self.name()?,
            limit: self.optional(false, |reader| reader.number(LIMITS))?,
            enforce: self.optional(false, Self::truth)?,
            removed: self.list(0..=u16::MAX, Self::percent)?,
            thresholds: self.thresholds()?,
            update: self.choice(2)?,
        })
    }

    fn patterns(&mut self, least: u16) -> Read<Vec<String>> {
        self.list(least..=64, |reader| reader.tested(is_pattern))
    }

    fn names(&mut self, least: u16) -> Read<Vec<String>> {
        self.list(least..=u16::MAX, Self::name)
    }

    fn deed(&mut self) -> Read<Deed> {
        let left = self.rest.len();
        let [kind] = self.take()?;
        Ok(match kind {
            1 => Deed::Mkdir { path: self.path()?, owner: self.owner()? },
            2 => Deed::Create { path: self.path()?, length: self.length()?, owner: self.owner()? },
            3 => Deed::Resize { path: self.path()?, length: self.length()? },
            4 => Deed::Touch { path: self.path()? },
            5 => Deed::Move { from: self.path()?, to: self.path()? },
            6 => Deed::Remove { path: self.path()? },
            10 => Deed::NewQuota(Box::new(self.new_quota()?)),
            11 => Deed::QuotaChange(Box::new(self.quota_change()?)),
            12..=14 | 31 | 52 | 61 => Deed::OnPath { kind, path: self.path()? },
            20 => Deed::NewTemplate(Box::new(self.new_template()?)),
            21 => Deed::TemplateChange(Box::new(self.template_change()?)),
            22 | 42 => Deed::OnName { kind, name: self.name()? },
            30 => Deed::NewAutoquota {
                path: self.path()?,
                template: self.name()?,
                excluded: self.list(0..=32, |reader| reader.tested(is_name))?,
            },
            35 => Deed::Options { run_limit: self.number(0..=525_600)? as u32 },
            40 => {
                Deed::NewFilegroup { name: self.name()?, members: self.patterns(1)?, non_members: self.patterns(0)? }
            }
            41 => Deed::FilegroupChange {
                name: self.name()?,
                members: self.optional(false, |reader| reader.patterns(1))?,
                non_members: self.optional(false, |reader| reader.patterns(0))?,
            },
            50 => Deed::NewScreen {
                path: self.path()?,
                active: self.truth()?,
                groups: self.names(1)?,
                actions: self.list(0..=u16::MAX, Self::action)?,
            },
            51 => Deed::ScreenChange {
                path: self.path()?,
                active: self.optional(false, Self::truth)?,
                removed: self.names(0)?,
                groups: self.names(0)?,
            },
            60 => Deed::NewException { path: self.path()?, groups: self.names(1)? },
            99 => Deed::Finish { folder: self.number(0..=u32::MAX as u64)? as u32 },
            _ => return Err(Flaw(left)),
        })
    }
}

/// The entry that bytes spell, or the place where they go wrong.
fn decode(bytes: &[u8]) -> Result<Entry, usize> {
    let mut reader = Reader { rest: bytes };
    let read = reader.number(0..=4_102_444_799).and_then(|moment| Ok(Entry { moment, deed: reader.deed()? }));
    match read {
        Ok(entry) if reader.rest.is_empty() => Ok(entry),
        Ok(_) => Err(bytes.len() - reader.rest.len()),
        Err(Flaw(left)) => Err(bytes.len() - left),
    }
}

struct Writer<'a> {
    into: &'a mut [u8],
    at: usize,
}

impl Writer<'_> {
    fn put(&mut self, bytes: &[u8]) {
        self.into[self.at..self.at + bytes.len()].copy_from_slice(bytes);
        self.at += bytes.len();
    }

    fn byte(&mut self, byte: u8) {
        self.put(&[byte]);
    }

    fn count(&mut self, count: usize) {
        self.put(&(count as u16).to_le_bytes());
    }

    fn number(&mut self, number: u64) {
        self.put(&number.to_le_bytes());
    }

    fn text(&mut self, text: &str) {
        self.count(text.len());
        self.put(text.as_bytes());
    }

    fn path(&mut self, path: &Path) {
        self.count(3 + path.text.len());
        self.put(b"D:\\");
        self.put(path.text.as_bytes());
    }

    fn optional<T>(&mut self, value: &Option<T>, write: impl FnOnce(&mut Self, &T)) {
        self.byte(value.is_some() as u8);
        if let Some(value) = value {
            write(self, value);
        }
    }

    fn list<T>(&mut self, values: &[T], write: impl Fn(&mut Self, &T)) {
        self.count(values.len());
        for value in values {
            write(self, value);
        }
    }

    fn texts(&mut self, texts: &[String]) {
        self.list(texts, |writer, text| writer.text(text));
    }

    fn limit(&mut self, limit: &Option<u64>) {
        self.optional(limit, |writer, limit| writer.number(*limit));
    }

    fn choice(&mut self, choice: &Option<bool>) {
        self.optional(choice, |writer, choice| writer.byte(*choice as u8));
    }

    fn percents(&mut self, percents: &[u16]) {
        self.list(percents, |writer, percent| writer.number(*percent as u64));
    }

    fn action(&mut self, action: &Action) {
        self.byte(action.kind as u8);
        self.number(action.minutes as i64 as u64);
        self.text(&action.text);
    }

    fn thresholds(&mut self, thresholds: &Thresholds) {
        self.percents(&thresholds.percents);
        self.list(&thresholds.notices, |writer, notice| {
            writer.number(notice.percent as u64);
            writer.action(&notice.action);
        });
    }

    fn on_path(&mut self, kind: u8, path: &Path) {
        self.byte(kind);
        self.path(path);
    }

    fn on_name(&mut self, kind: u8, name: &str) {
        self.byte(kind);
        self.text(name);
    }

    fn deed(&mut self, deed: &Deed) {
        match deed {
            Deed::Mkdir { path, owner } => {
                self.on_path(1, path);
                self.number(*owner as u64);
            }
            Deed::Create { path, length, owner } => {
                self.on_path(2, path);
                self.number(*length);
                self.number(*owner as u64);
            }
            Deed::Resize { path, length } => {
                self.on_path(3, path);
                self.number(*length);
            }
            Deed::Touch { path } => self.on_path(4, path),
            Deed::Move { from, to } => {
                self.on_path(5, from);
                self.path(to);
            }
            Deed::Remove { path } => self.on_path(6, path),
            Deed::NewQuota(new) => {
                self.on_path(10, &new.path);
                self.limit(&new.limit);
                self.choice(&new.enforce);
                self.byte(new.enabled as u8);
                self.optional(&new.template, |writer, name| writer.text(name));
                self.thresholds(&new.thresholds);
            }
            Deed::QuotaChange(change) => {
                self.on_path(11, &change.path);
                self.limit(&change.limit);
                self.choice(&change.enforce);
                self.choice(&change.enabled);
                self.percents(&change.removed);
                self.thresholds(&change.thresholds);
            }
            Deed::OnPath { kind, path } => self.on_path(*kind, path),
            Deed::OnName { kind, name } => self.on_name(*kind, name),
            Deed::NewTemplate(new) => {
                self.on_name(20, &new.name);
                self.number(new.limit);
                self.byte(new.enforce as u8);
                self.thresholds(&new.thresholds);
            }
            Deed::TemplateChange(change) => {
                self.on_name(21, &change.name);
                self.limit(&change.limit);
                self.choice(&change.enforce);
                self.percents(&change.removed);
                self.thresholds(&change.thresholds);
                self.byte(change.update);
            }
            Deed::NewAutoquota { path, template, excluded } => {
                self.on_path(30, path);
                self.text(template);
                self.texts(excluded);
            }
            Deed::Options { run_limit } => {
                self.byte(35);
                self.number(*run_limit as u64);
            }
            Deed::NewFilegroup { name, members, non_members } => {
                self.on_name(40, name);
                self.texts(members);
                self.texts(non_members);
            }
            Deed::FilegroupChange { name, members, non_members } => {
                self.on_name(41, name);
                self.optional(members, |writer, members| writer.texts(members));
                self.optional(non_members, |writer, non_members| writer.texts(non_members));
            }
            Deed::NewScreen { path, active, groups, actions } => {
                self.on_path(50, path);
                self.byte(*active as u8);
                self.texts(groups);
                self.list(actions, |writer, action| writer.action(action));
            }
            Deed::ScreenChange { path, active, removed, groups } => {
                self.on_path(51, path);
                self.choice(active);
                self.texts(removed);
                self.texts(groups);
            }
            Deed::NewException { path, groups } => {
                self.on_path(60, path);
                self.texts(groups);
            }
            Deed::Finish { folder } => {
                self.byte(99);
                self.number(*folder as u64);
            }
        }
    }
}

fn encode(entry: &Entry, into: &mut [u8]) -> usize {
    let mut writer = Writer { into, at: 0 };
    writer.number(entry.moment);
    writer.deed(&entry.deed);
    writer.at
}

fn entry_of(frame: &[u8]) -> &[u8] {
    &frame[1..1 + frame[0] as usize]
}

/// Whether all entries are written as they are spelled. It also looks at what nothing else reads.
fn are_same(entries: &[Entry], frames: &[u8], into: &mut [u8]) -> bool {
    let depths = |deed: &Deed| match deed {
        Deed::Touch { path } => path.text.is_empty() == (path.depth == 0),
        _ => true,
    };
    let frames = frames.chunks(FRAME).map(entry_of);
    entries.iter().zip(frames).all(|(entry, frame)| {
        let end = encode(entry, into);
        into[..end] == *frame && depths(&entry.deed)
    })
}

fn is_done(path: &str, what: &str, rounds: u32) -> Option<bool> {
    let frames = fs::read(path).ok()?;
    if what == "decode" {
        return Some((0..rounds).all(|_| frames.chunks(FRAME).all(|frame| decode(entry_of(frame)).is_ok())));
    }
    let entries = frames.chunks(FRAME).map(|frame| decode(entry_of(frame)).ok()).collect::<Option<Vec<_>>>()?;
    let mut into = vec![0; LONGEST_ENTRY];
    if !are_same(&entries, &frames, &mut into) {
        return None;
    }
    Some((0..rounds).all(|_| entries.iter().all(|entry| encode(entry, &mut into) != 0)))
}

fn main() {
    let words: Vec<String> = env::args().skip(1).collect();
    let done = match &words[..] {
        [path, what, rounds] => rounds.parse().ok().and_then(|rounds| is_done(path, what, rounds)),
        _ => None,
    };
    process::exit(if done == Some(true) { 0 } else { 1 });
}

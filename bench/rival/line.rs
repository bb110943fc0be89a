// Lines, read as commands. Words are lent from the line; only one with quotes in its midst is copied.
use crate::options::{self, Settings};
use crate::text;
use std::borrow::Cow;
use std::ops::RangeInclusive;

const LAST_MOMENT: u64 = 4_102_444_799;
const LENGTHS: RangeInclusive<u64> = 0..=(1 << 44) - (1 << 16);
const OWNERS: RangeInclusive<u64> = 1..=u32::MAX as u64;
const VISITS: RangeInclusive<u64> = 1..=1_000_000;
pub const LONGEST_NAME: usize = 255;
const LONGEST_NUMBER: usize = 20;
// the bytes of the longest words of commands, and of the names of options
pub const LONGEST_WORD: usize = 17;

pub enum Refusal {
    BadLine(usize),
    Named(&'static str),
    Exceeded { would: u64, limit: u64, folder: u32 },
    // by the screen of this folder
    Blocked(u32),
}

use Refusal::{BadLine, Named};

// The names of a path, joined by \; none of the root's.
pub type Path<'a> = Cow<'a, [u8]>;

pub enum Command<'a> {
    Mkdir { path: Path<'a>, owner: u32 },
    Create { path: Path<'a>, length: u64, owner: u32 },
    Resize { path: Path<'a>, length: u64 },
    Touch { path: Path<'a> },
    Move { path: Path<'a>, to: Path<'a> },
    Remove { path: Path<'a> },
    Usage { path: Path<'a> },
    Step { visits: u64 },
    ListAll,
    AddQuota { path: Path<'a>, settings: Box<Settings> },
    OfQuota { verb: Verb, path: Path<'a>, settings: Box<Settings> },
    OfTemplate { verb: Verb, name: Vec<u8>, settings: Box<Settings> },
    AddAuto { path: Path<'a>, source: Vec<u8>, settings: Box<Settings> },
    DeleteAuto { path: Path<'a> },
    ListTemplates,
    ListAutos,
    OfGroup { verb: Verb, name: Vec<u8>, settings: Box<Settings> },
    OfScreen { verb: Verb, path: Path<'a>, settings: Box<Settings> },
    OfException { verb: Verb, path: Path<'a>, settings: Box<Settings> },
    ListGroups,
    ListScreens,
    ListExceptions,
    SetRunLimit { minutes: u64 },
    ListSettings,
    ListLog,
}

// What is done to an object.
#[derive(Clone, Copy)]
pub enum Verb {
    Add,
    Modify,
    Delete,
    Scan,
    ResetPeak,
    List,
}

pub struct Words<'a> {
    line: &'a [u8],
    at: usize,
    quotes: bool,
}

pub struct Word<'a> {
    pub text: Cow<'a, [u8]>,
    pub column: usize,
}

impl<'a> Iterator for Words<'a> {
    type Item = Word<'a>;

    fn next(&mut self) -> Option<Word<'a>> {
        let rest = &self.line[self.at..];
        let start = self.at + rest.iter().position(|byte| !text::is_blank(*byte))?;
        let word = &self.line[start..];
        let length = if self.quotes { quoted_length(word) } else { text::before_blank(word) };
        self.at = start + length;
        let word = &word[..length];
        Some(Word { text: if self.quotes { unquoted(word) } else { Cow::Borrowed(word) }, column: start + 1 })
    }
}

fn quoted_length(word: &[u8]) -> usize {
    let mut quoted = false;
    let ends = |byte: &u8| {
        quoted ^= *byte == b'"';
        !quoted && text::is_blank(*byte)
    };
    word.iter().position(ends).unwrap_or(word.len())
}

fn unquoted(word: &[u8]) -> Cow<'_, [u8]> {
    match word {
        [b'"', inner @ .., b'"'] if !inner.contains(&b'"') => Cow::Borrowed(inner),
        _ if !word.contains(&b'"') => Cow::Borrowed(word),
        _ => Cow::Owned(word.iter().copied().filter(|byte| *byte != b'"').collect()),
    }
}

// A word in small letters, if it is as short as those of commands and options are.
pub fn small<'a>(word: &[u8], letters: &'a mut [u8; LONGEST_WORD]) -> &'a [u8] {
    let Some(letters) = letters.get_mut(..word.len()) else { return &[] };
    letters.copy_from_slice(word);
    letters.make_ascii_lowercase();
    letters
}

fn number(word: &[u8]) -> Option<u64> {
    let digits = (1..=LONGEST_NUMBER).contains(&word.len()) && word.iter().all(u8::is_ascii_digit);
    digits.then(|| value(word))
}

// A number of this range, in a word at this column.
pub fn within(word: &[u8], range: RangeInclusive<u64>, column: usize) -> Result<u64, Refusal> {
    let number = number(word).ok_or(BadLine(column))?;
    range.contains(&number).then_some(number).ok_or(Named("OutOfRange"))
}

// What digits say, or the greatest number if that is more.
pub fn value(digits: &[u8]) -> u64 {
    digits.iter().fold(0, |value: u64, digit| value.saturating_mul(10).saturating_add((digit - b'0') as u64))
}

pub fn is_name(text: &[u8]) -> bool {
    (1..=LONGEST_NAME).contains(&text.len()) && text != b"." && text != b".." && text::may_name(text)
}

pub fn path<'a>(word: Cow<'a, [u8]>) -> Result<Path<'a>, Refusal> {
    let [b'D' | b'd', b':', b'\\', names @ ..] = word.as_ref() else { return Err(Named("InvalidPath")) };
    let names = match names {
        [_, .., b'\\'] => &names[..names.len() - 1],
        [b'\\'] => return Err(Named("InvalidPath")),
        names => names,
    };
    let mut are_names = true;
    for name in text::parts(names) {
        if name.is_empty() && !names.is_empty() {
            return Err(Named("InvalidPath"));
        }
        are_names &= names.is_empty() || is_name(name);
    }
    if !are_names {
        return Err(Named("InvalidName"));
    }
    let end = 3 + names.len();
    Ok(match word {
        Cow::Borrowed(word) => Cow::Borrowed(&word[3..end]),
        Cow::Owned(word) => Cow::Owned(word[3..end].to_vec()),
    })
}

impl<'a> Words<'a> {
    pub fn new(line: &'a [u8], quotes: bool) -> Words<'a> {
        Words { line, at: 0, quotes }
    }

    fn missing(&self) -> Refusal {
        BadLine(self.line.len() + 1)
    }

    fn word(&mut self) -> Result<Word<'a>, Refusal> {
        self.next().ok_or(self.missing())
    }

    fn number(&mut self, range: RangeInclusive<u64>) -> Result<u64, Refusal> {
        let word = self.word()?;
        within(&word.text, range, word.column)
    }

    fn owner(&mut self) -> Result<u32, Refusal> {
        Ok(self.number(OWNERS)? as u32)
    }

    fn path(&mut self) -> Result<Path<'a>, Refusal> {
        path(self.word()?.text)
    }

    // The moment of a line and its command.
    pub fn command(&mut self) -> Result<(u32, Command<'a>), Refusal> {
        let moment = self.number(0..=LAST_MOMENT)? as u32;
        let name = self.word()?;
        let command = match small(&name.text, &mut [0; LONGEST_WORD]) {
            b"mkdir" => Command::Mkdir { path: self.path()?, owner: self.owner()? },
            b"create" => Command::Create { path: self.path()?, length: self.number(LENGTHS)?, owner: self.owner()? },
            b"resize" => Command::Resize { path: self.path()?, length: self.number(LENGTHS)? },
            b"touch" => Command::Touch { path: self.path()? },
            b"move" => Command::Move { path: self.path()?, to: self.path()? },
            b"remove" => Command::Remove { path: self.path()? },
            b"usage" => Command::Usage { path: self.path()? },
            b"step" => Command::Step { visits: self.number(VISITS)? },
            b"dirquota" => self.quota_tool()?,
            b"filescrn" => self.screen_tool()?,
            _ => return Err(BadLine(name.column)),
        };
        match self.next() {
            Some(word) => Err(BadLine(word.column)),
            None => Ok((moment, command)),
        }
    }

    fn quota_tool(&mut self) -> Result<Command<'a>, Refusal> {
        let object = self.word()?;
        match small(&object.text, &mut [0; LONGEST_WORD]) {
            b"quota" => self.quota_command(),
            b"template" => self.template_command(),
            b"autoquota" => self.auto_command(),
            b"admin" => self.admin_command(),
            _ => Err(BadLine(object.column)),
        }
    }

    fn quota_command(&mut self) -> Result<Command<'a>, Refusal> {
        let name = self.word()?;
        let verb = match small(&name.text, &mut [0; LONGEST_WORD]) {
            b"add" => {
                let (path, settings) = self.options(options::OF_QUOTA_ADD)?;
                if settings.limit.is_none() && settings.source.is_none() {
                    return Err(self.missing());
                }
                return Ok(Command::AddQuota { path: path.ok_or(self.missing())?, settings });
            }
            b"modify" => Verb::Modify,
            b"delete" => Verb::Delete,
            b"scan" => Verb::Scan,
            b"resetpeak" => Verb::ResetPeak,
            b"list" => Verb::List,
            _ => return Err(BadLine(name.column)),
        };
        let takes = if matches!(verb, Verb::Modify) { options::OF_QUOTA_MODIFY } else { options::OF_PATH };
        match (self.options(takes)?, verb) {
            ((None, _), Verb::List) => Ok(Command::ListAll),
            ((path, settings), verb) => Ok(Command::OfQuota { verb, path: path.ok_or(self.missing())?, settings }),
        }
    }

    fn template_command(&mut self) -> Result<Command<'a>, Refusal> {
        let (verb, _) = self.verb()?;
        let takes = match verb {
            Verb::List => return self.options(&[]).map(|_| Command::ListTemplates),
            Verb::Add => options::OF_TEMPLATE_ADD,
            Verb::Modify => options::OF_TEMPLATE_MODIFY,
            _ => options::OF_TEMPLATE,
        };
        let (_, mut settings) = self.options(takes)?;
        if matches!(verb, Verb::Add) && settings.limit.is_none() {
            return Err(self.missing());
        }
        let name = settings.template.take().ok_or(self.missing())?;
        Ok(Command::OfTemplate { verb, name, settings })
    }

    fn auto_command(&mut self) -> Result<Command<'a>, Refusal> {
        match self.verb()? {
            (Verb::Add, _) => {
                let (path, mut settings) = self.options(options::OF_AUTO_ADD)?;
                let (path, source) = path.zip(settings.source.take()).ok_or(self.missing())?;
                Ok(Command::AddAuto { path, source, settings })
            }
            (Verb::Delete, _) => {
                Ok(Command::DeleteAuto { path: self.options(options::OF_PATH)?.0.ok_or(self.missing())? })
            }
            (Verb::List, _) => self.options(&[]).map(|_| Command::ListAutos),
            (_, column) => Err(BadLine(column)),
        }
    }

    fn admin_command(&mut self) -> Result<Command<'a>, Refusal> {
        let name = self.word()?;
        match small(&name.text, &mut [0; LONGEST_WORD]) {
            b"options" => {
                let (_, settings) = self.options(options::OF_SETTINGS)?;
                Ok(Command::SetRunLimit { minutes: settings.run_limit.ok_or(self.missing())? })
            }
            b"list" => self.options(&[]).map(|_| Command::ListSettings),
            b"log" => self.options(&[]).map(|_| Command::ListLog),
            _ => Err(BadLine(name.column)),
        }
    }

    fn screen_tool(&mut self) -> Result<Command<'a>, Refusal> {
        let object = self.word()?;
        match small(&object.text, &mut [0; LONGEST_WORD]) {
            b"filegroup" => self.group_command(),
            b"screen" => self.screen_command(),
            b"exception" => self.exception_command(),
            _ => Err(BadLine(object.column)),
        }
    }

    // One of the verbs that most objects have, and its column.
    fn verb(&mut self) -> Result<(Verb, usize), Refusal> {
        let name = self.word()?;
        let verb = match small(&name.text, &mut [0; LONGEST_WORD]) {
            b"add" => Verb::Add,
            b"modify" => Verb::Modify,
            b"delete" => Verb::Delete,
            b"list" => Verb::List,
            _ => return Err(BadLine(name.column)),
        };
        Ok((verb, name.column))
    }

    fn group_command(&mut self) -> Result<Command<'a>, Refusal> {
        let (verb, _) = self.verb()?;
        let takes = match verb {
            Verb::List => return self.options(&[]).map(|_| Command::ListGroups),
            Verb::Delete => options::OF_NAME,
            _ => options::OF_GROUP,
        };
        let (_, mut settings) = self.options(takes)?;
        if matches!(verb, Verb::Add) && settings.members.is_none() {
            return Err(self.missing());
        }
        let name = settings.name.take().ok_or(self.missing())?;
        Ok(Command::OfGroup { verb, name, settings })
    }

    fn screen_command(&mut self) -> Result<Command<'a>, Refusal> {
        let (verb, _) = self.verb()?;
        let takes = match verb {
            Verb::List => return self.options(&[]).map(|_| Command::ListScreens),
            Verb::Add => options::OF_SCREEN_ADD,
            Verb::Modify => options::OF_SCREEN_MODIFY,
            _ => options::OF_PATH,
        };
        let (path, settings) = self.guard_options(verb, takes)?;
        Ok(Command::OfScreen { verb, path, settings })
    }

    fn exception_command(&mut self) -> Result<Command<'a>, Refusal> {
        let (verb, column) = self.verb()?;
        let takes = match verb {
            Verb::List => return self.options(&[]).map(|_| Command::ListExceptions),
            Verb::Modify => return Err(BadLine(column)),
            Verb::Add => options::OF_EXCEPTION_ADD,
            _ => options::OF_PATH,
        };
        let (path, settings) = self.guard_options(verb, takes)?;
        Ok(Command::OfException { verb, path, settings })
    }

    // The options of a screen or an exception, which must have a path, and a group if it is added.
    fn guard_options(&mut self, verb: Verb, takes: &options::Takes) -> Result<(Path<'a>, Box<Settings>), Refusal> {
        let (path, settings) = self.options(takes)?;
        if matches!(verb, Verb::Add) && settings.groups.is_empty() {
            return Err(self.missing());
        }
        Ok((path.ok_or(self.missing())?, settings))
    }
}

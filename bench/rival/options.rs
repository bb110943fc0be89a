// The options of commands, and the values that they have.
use crate::groups::MOST_PATTERNS;
use crate::line::Refusal::{self, BadLine, Named};
use crate::line::{is_name, path, small, value, within, Path, Word, Words, LONGEST_NAME, LONGEST_WORD};
use crate::patterns::Pattern;
use crate::templates::{Update, MOST_EXCLUDED};
use crate::text;
use crate::thresholds::{Action, Notice};
use std::borrow::Cow;
use std::ops::RangeInclusive;

const LIMITS: RangeInclusive<u64> = 1_024..=1 << 60;
const PERCENTS: RangeInclusive<u64> = 1..=250;
const MINUTES: RangeInclusive<u64> = 0..=525_600;
const LONGEST_TEXT: usize = 1_024;

// What an option gives. Some of the same name give other things to other commands.
#[derive(Clone, Copy)]
pub enum Key {
    Path,
    Limit,
    Hard,
    Enabled,
    Percent,
    RemovedPercent,
    Notice,
    RunLimit,
    Template,
    Source,
    Update,
    Excluded,
    Name,
    Members,
    NonMembers,
    Active,
    Group,
    RemovedGroup,
    Note,
}

pub type Takes = [(&'static [u8], Key)];

const PATH: (&[u8], Key) = (b"/path", Key::Path);
const LIMIT: (&[u8], Key) = (b"/limit", Key::Limit);
const HARD: (&[u8], Key) = (b"/type", Key::Hard);
const ENABLED: (&[u8], Key) = (b"/status", Key::Enabled);
const PERCENT: (&[u8], Key) = (b"/add-threshold", Key::Percent);
const NOTICE: (&[u8], Key) = (b"/add-notification", Key::Notice);
const REMOVED_PERCENT: (&[u8], Key) = (b"/remove-threshold", Key::RemovedPercent);
const TEMPLATE: (&[u8], Key) = (b"/template", Key::Template);
const SOURCE: (&[u8], Key) = (b"/sourcetemplate", Key::Source);
const UPDATE: (&[u8], Key) = (b"/updatederived", Key::Update);
const EXCLUDED: (&[u8], Key) = (b"/exclude", Key::Excluded);
const NAME: (&[u8], Key) = (b"/filegroup", Key::Name);
const ACTIVE: (&[u8], Key) = (b"/type", Key::Active);
const GROUP: (&[u8], Key) = (b"/add-filegroup", Key::Group);

// The options that commands take.
pub const OF_PATH: &Takes = &[PATH];
pub const OF_QUOTA_ADD: &Takes = &[PATH, LIMIT, HARD, ENABLED, SOURCE, PERCENT, NOTICE];
pub const OF_QUOTA_MODIFY: &Takes = &[PATH, LIMIT, HARD, ENABLED, PERCENT, NOTICE, REMOVED_PERCENT];
pub const OF_TEMPLATE: &Takes = &[TEMPLATE];
pub const OF_TEMPLATE_ADD: &Takes = &[TEMPLATE, LIMIT, HARD, PERCENT, NOTICE];
pub const OF_TEMPLATE_MODIFY: &Takes = &[TEMPLATE, LIMIT, HARD, PERCENT, NOTICE, REMOVED_PERCENT, UPDATE];
pub const OF_AUTO_ADD: &Takes = &[PATH, SOURCE, EXCLUDED];
pub const OF_SETTINGS: &Takes = &[(b"/runlimitinterval", Key::RunLimit)];
pub const OF_NAME: &Takes = &[NAME];
pub const OF_GROUP: &Takes = &[NAME, (b"/members", Key::Members), (b"/nonmembers", Key::NonMembers)];
pub const OF_SCREEN_ADD: &Takes = &[PATH, ACTIVE, GROUP, (b"/add-notification", Key::Note)];
pub const OF_SCREEN_MODIFY: &Takes = &[PATH, ACTIVE, GROUP, (b"/remove-filegroup", Key::RemovedGroup)];
pub const OF_EXCEPTION_ADD: &Takes = &[PATH, GROUP];

// What options say beside the path.
#[derive(Default)]
pub struct Settings {
    pub limit: Option<u64>,
    pub hard: Option<bool>,
    pub enabled: Option<bool>,
    pub removed: Vec<u64>,
    pub percents: Vec<u64>,
    pub notices: Vec<Notice>,
    pub run_limit: Option<u64>,
    // names of templates
    pub template: Option<Vec<u8>>,
    pub source: Option<Vec<u8>>,
    pub update: Option<Update>,
    pub excluded: Vec<Vec<u8>>,
    pub name: Option<Vec<u8>>,
    pub members: Option<Vec<Pattern>>,
    pub non_members: Option<Vec<Pattern>>,
    pub active: Option<bool>,
    // names of groups
    pub removed_groups: Vec<Vec<u8>>,
    pub groups: Vec<Vec<u8>>,
    // the actions of a screen
    pub notes: Vec<Action>,
}

impl<'a> Words<'a> {
    // What all words that are left say, each of which is one of the options that a command takes.
    pub fn options(&mut self, takes: &Takes) -> Result<(Option<Path<'a>>, Box<Settings>), Refusal> {
        let (mut path_given, mut given) = (None, Box::<Settings>::default());
        for Word { text, column } in self.by_ref() {
            let colon = text.iter().position(|byte| *byte == b':').ok_or(BadLine(column))?;
            let mut letters = [0; LONGEST_WORD];
            let name = small(&text[..colon], &mut letters);
            let (_, key) = takes.iter().find(|(taken, _)| *taken == name).ok_or(BadLine(column))?;
            match key {
                Key::Path if path_given.is_none() => {
                    let value = match text {
                        Cow::Borrowed(text) => Cow::Borrowed(&text[colon + 1..]),
                        Cow::Owned(mut text) => Cow::Owned(text.split_off(colon + 1)),
                    };
                    path_given = Some(path(value)?);
                }
                key => given.take(*key, &text[colon + 1..], column)?,
            }
        }
        Ok((path_given, given))
    }
}

impl Settings {
    // Takes the value of an option other than the path, which is given a second time if it comes here.
    fn take(&mut self, key: Key, value: &[u8], column: usize) -> Result<(), Refusal> {
        match key {
            Key::Limit if self.limit.is_none() => self.limit = Some(limit(value, column)?),
            Key::Hard if self.hard.is_none() => self.hard = Some(either(value, b"hard", b"soft", column)?),
            Key::Enabled if self.enabled.is_none() => {
                self.enabled = Some(either(value, b"enabled", b"disabled", column)?);
            }
            Key::RemovedPercent => self.removed.push(within(value, PERCENTS, column)?),
            Key::Percent => self.percents.push(within(value, PERCENTS, column)?),
            Key::Notice => self.notices.push(notice(value, column)?),
            Key::RunLimit if self.run_limit.is_none() => self.run_limit = Some(within(value, MINUTES, column)?),
            Key::Template if self.template.is_none() => self.template = Some(object_name(value)?),
            Key::Source if self.source.is_none() => self.source = Some(object_name(value)?),
            Key::Update if self.update.is_none() => self.update = Some(update(value, column)?),
            Key::Excluded => self.exclude(value)?,
            Key::Name if self.name.is_none() => self.name = Some(object_name(value)?),
            Key::Members if self.members.is_none() => self.members = Some(patterns(value)?),
            Key::NonMembers if self.non_members.is_none() => {
                self.non_members = Some(if value.is_empty() { Vec::new() } else { patterns(value)? });
            }
            Key::Active if self.active.is_none() => self.active = Some(either(value, b"active", b"passive", column)?),
            Key::RemovedGroup => self.removed_groups.push(object_name(value)?),
            Key::Group => self.groups.push(object_name(value)?),
            Key::Note => self.notes.push(note(value, column)?),
            _ => return Err(BadLine(column)),
        }
        Ok(())
    }

    // One excluded name more. A wrong one goes before one too many.
    fn exclude(&mut self, value: &[u8]) -> Result<(), Refusal> {
        if !is_name(value) {
            return Err(Named("InvalidName"));
        }
        if self.excluded.len() == MOST_EXCLUDED {
            return Err(Named("OutOfRange"));
        }
        self.excluded.push(value.to_vec());
        Ok(())
    }
}

fn update(word: &[u8], column: usize) -> Result<Update, Refusal> {
    match small(word, &mut [0; LONGEST_WORD]) {
        b"none" => Ok(Update::None),
        b"matching" => Ok(Update::Matching),
        b"all" => Ok(Update::All),
        _ => Err(BadLine(column)),
    }
}

fn limit(word: &[u8], column: usize) -> Result<u64, Refusal> {
    let (digits, unit) = word.split_at(word.iter().take_while(|byte| byte.is_ascii_digit()).count());
    let unit = match small(unit, &mut [0; LONGEST_WORD]) {
        _ if digits.is_empty() => return Err(BadLine(column)),
        [] if unit.is_empty() => 1,
        b"kb" => 1 << 10,
        b"mb" => 1 << 20,
        b"gb" => 1 << 30,
        b"tb" => 1 << 40,
        _ => return Err(BadLine(column)),
    };
    Some(value(digits).saturating_mul(unit)).filter(|limit| LIMITS.contains(limit)).ok_or(Named("InvalidLimit"))
}

fn either(word: &[u8], yes: &[u8], no: &[u8], column: usize) -> Result<bool, Refusal> {
    let is_yes = word.eq_ignore_ascii_case(yes);
    if is_yes || word.eq_ignore_ascii_case(no) {
        Ok(is_yes)
    } else {
        Err(BadLine(column))
    }
}

// A percentage, and what an action of its threshold has.
fn notice(value: &[u8], column: usize) -> Result<Notice, Refusal> {
    let parts: Vec<&[u8]> = value.splitn(4, |byte| *byte == b',').collect();
    let [percent, kind, minutes, text] = parts[..] else { return Err(BadLine(column)) };
    let percent = within(percent, PERCENTS, column)?;
    Ok(Notice { percent, action: action(kind, minutes, text, column)? })
}

fn note(value: &[u8], column: usize) -> Result<Action, Refusal> {
    let parts: Vec<&[u8]> = value.splitn(3, |byte| *byte == b',').collect();
    let [kind, minutes, text] = parts[..] else { return Err(BadLine(column)) };
    action(kind, minutes, text, column)
}

// A kind, minutes and a text. The text may have commas, too.
fn action(kind: &[u8], minutes: &[u8], text: &[u8], column: usize) -> Result<Action, Refusal> {
    let kind = match kind {
        [letter] if b"emcr".contains(&letter.to_ascii_lowercase()) => letter.to_ascii_lowercase(),
        _ => return Err(BadLine(column)),
    };
    let minutes = match minutes {
        b"-1" => None,
        minutes => Some(within(minutes, MINUTES, column)?),
    };
    if text.len() > LONGEST_TEXT || text.iter().any(u8::is_ascii_control) {
        return Err(Named("InvalidName"));
    }
    Ok(Action { kind, minutes, text: text.into(), last_run: None })
}

fn object_name(value: &[u8]) -> Result<Vec<u8>, Refusal> {
    let is_name =
        (1..=LONGEST_NAME).contains(&value.len()) && !value.iter().any(|b| *b == b'|' || b.is_ascii_control());
    is_name.then(|| value.to_vec()).ok_or(Named("InvalidName"))
}

// Patterns that are parted by bars. A wrong one goes before one too many.
fn patterns(value: &[u8]) -> Result<Vec<Pattern>, Refusal> {
    let texts = || value.split(|byte| *byte == b'|');
    let is_pattern = |text: &[u8]| {
        (1..=LONGEST_NAME).contains(&text.len()) && text != b"." && text != b".." && text::may_be_pattern(text)
    };
    if !texts().all(is_pattern) {
        return Err(Named("InvalidName"));
    }
    if texts().count() > MOST_PATTERNS {
        return Err(Named("OutOfRange"));
    }
    Ok(texts().map(|text| Pattern::new(text.to_vec())).collect())
}

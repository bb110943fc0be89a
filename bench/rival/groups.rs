// File groups: each has a name, and patterns of the names of files that are in it.
//
// Patterns that are a star and an ending stand in a hash table by that, so a name finds them by its own endings. The
// others are asked one after another: those of a group that a screen or an exception names, once for a name.
use crate::line::Refusal::{self, Named};
use crate::names;
use crate::options::Settings;
use crate::patterns::{pattern_bytes, Pattern};
use crate::places::Places;
use crate::room::Room;

const MOST_GROUPS: usize = 1_024;
// of members, and of non-members
pub const MOST_PATTERNS: usize = 64;

#[derive(Default)]
pub struct Group {
    pub name: Vec<u8>,
    pub members: Vec<Pattern>,
    pub non_members: Vec<Pattern>,
    // whether some member isn't a star and an ending
    has_others: bool,
    // so many screens and exceptions name it
    uses: usize,
}

// What is known of a name and a group. It is of no use if another name was asked for since.
#[derive(Clone, Copy, Default)]
struct Known {
    asked: u64,
    is_member: bool,
    is_non_member: bool,
    answer: Option<bool>,
}

pub struct Groups {
    // by their numbers
    rows: Vec<Option<Group>>,
    named: Places,
    endings: Places,
    // no ending has more bytes than this
    longest: usize,
    // so many groups have others
    others: usize,
    // so many names were asked for; what is known of the last one, for each group
    asked: u64,
    known: Vec<Known>,
    folded: Vec<u8>,
}

fn hash_of(text: &[u8]) -> u32 {
    names::hash(0, text)
}

// The number of an ending has that of the group, and its place there.
fn group_of(ending: u32) -> usize {
    ending as usize / (2 * MOST_PATTERNS)
}

fn place_of(ending: u32) -> usize {
    ending as usize % (2 * MOST_PATTERNS)
}

impl Group {
    fn bytes(&self) -> usize {
        self.name.len() + pattern_bytes(&self.members) + pattern_bytes(&self.non_members)
    }

    fn set(&mut self, given: &Settings) {
        given.members.iter().for_each(|members| self.members.clone_from(members));
        given.non_members.iter().for_each(|non_members| self.non_members.clone_from(non_members));
        self.has_others = self.members.iter().any(|pattern| pattern.ending().is_none());
    }

    // The ending of a member, or of a non-member, whose places follow.
    fn ending(&self, place: usize) -> Option<&[u8]> {
        let patterns = if place < MOST_PATTERNS { &self.members } else { &self.non_members };
        patterns.get(place % MOST_PATTERNS).and_then(Pattern::ending)
    }

    // Each ending and its number, once if it is given several times.
    fn endings(&self, number: usize) -> Vec<(&[u8], u32)> {
        let mut endings = Vec::new();
        for (start, patterns) in [(0, &self.members), (MOST_PATTERNS, &self.non_members)] {
            for (at, ending) in patterns.iter().map(Pattern::ending).enumerate() {
                let is_new = !patterns[..at].iter().any(|before| before.ending() == ending);
                let number = (number * 2 * MOST_PATTERNS + start + at) as u32;
                endings.extend(ending.filter(|_| is_new).map(|ending| (ending, number)));
            }
        }
        endings
    }
}

impl Groups {
    pub fn new() -> Groups {
        let (rows, named, endings) = (Vec::new(), Places::new(), Places::new());
        Groups { rows, named, endings, longest: 0, others: 0, asked: 0, known: Vec::new(), folded: Vec::new() }
    }

    // All of them, in the order of their numbers.
    pub fn iter(&self) -> impl Iterator<Item = &Group> {
        self.rows.iter().flatten()
    }

    pub fn group(&self, number: usize) -> &Group {
        self.rows[number].as_ref().expect("a group")
    }

    fn group_mut(&mut self, number: usize) -> &mut Group {
        self.rows[number].as_mut().expect("a group")
    }

    pub fn find(&self, name: &[u8]) -> Result<usize, Refusal> {
        let has_name = |number| names::same(&self.group(number as usize).name, name);
        self.named.find(hash_of(name), has_name).map(|number| number as usize).ok_or(Named("NotFound"))
    }

    pub fn find_all(&self, names: &[Vec<u8>]) -> Result<Vec<usize>, Refusal> {
        names.iter().map(|name| self.find(name)).collect()
    }

    pub fn add(&mut self, name: &[u8], given: &Settings, room: &mut Room) -> Result<(), Refusal> {
        if self.find(name).is_ok() {
            return Err(Named("DuplicateName"));
        }
        let number = self.rows.iter().position(Option::is_none).unwrap_or(self.rows.len());
        if number == MOST_GROUPS {
            return Err(Named("TableFull"));
        }
        let mut group = Group { name: name.to_vec(), ..Group::default() };
        group.set(given);
        room.replace(0, group.bytes())?;
        if number == self.rows.len() {
            self.rows.push(None);
            self.known.push(Known::default());
        }
        self.rows[number] = Some(group);
        self.named.insert(hash_of(name), number as u32);
        self.enter(number);
        Ok(())
    }

    pub fn modify(&mut self, number: usize, given: &Settings, room: &mut Room) -> Result<(), Refusal> {
        let group = self.group(number);
        let changes = [(&group.members, &given.members), (&group.non_members, &given.non_members)];
        let (mut before, mut now) = (0, 0);
        for (patterns, given) in changes {
            if let Some(given) = given {
                (before, now) = (before + pattern_bytes(patterns), now + pattern_bytes(given));
            }
        }
        room.replace(before, now)?;
        self.leave(number);
        self.group_mut(number).set(given);
        self.enter(number);
        Ok(())
    }

    pub fn delete(&mut self, number: usize, room: &mut Room) -> Result<(), Refusal> {
        let group = self.group(number);
        if group.uses > 0 {
            return Err(Named("InUse"));
        }
        let (hash, bytes) = (hash_of(&group.name), group.bytes());
        self.leave(number);
        self.named.remove(hash, number as u32);
        self.rows[number] = None;
        room.give_back(bytes);
        Ok(())
    }

    // Notes that a screen or an exception names these.
    pub fn use_all(&mut self, numbers: &[usize]) {
        numbers.iter().for_each(|number| self.group_mut(*number).uses += 1);
    }

    // Notes that it no longer does.
    pub fn leave_all(&mut self, numbers: &[usize]) {
        numbers.iter().for_each(|number| self.group_mut(*number).uses -= 1);
    }

    // Puts the endings of a group into the table.
    fn enter(&mut self, number: usize) {
        let group = self.rows[number].as_ref().expect("a group");
        for (ending, number) in group.endings(number) {
            self.endings.insert(hash_of(ending), number);
            self.longest = self.longest.max(ending.len());
        }
        self.others += group.has_others as usize;
    }

    fn leave(&mut self, number: usize) {
        let group = self.rows[number].as_ref().expect("a group");
        for (ending, number) in group.endings(number) {
            self.endings.remove(hash_of(ending), number);
        }
        self.others -= group.has_others as usize;
    }

    // Finds the groups that have an ending of this name, and tells whether it may be in any group at all.
    pub fn ask(&mut self, name: &[u8]) -> bool {
        self.asked += 1;
        self.folded.clear();
        let mut is_any = self.others > 0;
        // a character of the name has up to four bytes, where the same one of an ending may have one
        let start = name.len().saturating_sub(4 * self.longest);
        for dot in (start..name.len()).filter(|at| name[*at] == b'.') {
            let ending = &name[dot..];
            self.endings.each(hash_of(ending), |number| {
                let (group, place) = (group_of(number), place_of(number));
                let row = self.rows[group].as_ref();
                if row.and_then(|row| row.ending(place)).is_some_and(|other| names::same(other, ending)) {
                    let known = known_of(&mut self.known[group], self.asked);
                    known.is_member |= place < MOST_PATTERNS;
                    known.is_non_member |= place >= MOST_PATTERNS;
                    is_any |= place < MOST_PATTERNS;
                }
            });
        }
        is_any
    }

    // Whether the name that was asked for is in one of these groups.
    pub fn have(&mut self, numbers: &[usize], name: &[u8]) -> bool {
        numbers.iter().any(|number| {
            let known = known_of(&mut self.known[*number], self.asked);
            known.answer.unwrap_or_else(|| self.answer(*number, name))
        })
    }

    fn answer(&mut self, number: usize, name: &[u8]) -> bool {
        let (known, group) = (self.known[number], self.rows[number].as_ref().expect("a group"));
        let may_be = known.is_member || group.has_others;
        if may_be && self.folded.is_empty() {
            names::fold_into(name, &mut self.folded);
        }
        let one_matches = |patterns: &[Pattern]| patterns.iter().any(|pattern| pattern.matches(&self.folded));
        let is_member = may_be && (known.is_member || one_matches(&group.members));
        let answer = is_member && !known.is_non_member && !one_matches(&group.non_members);
        self.known[number].answer = Some(answer);
        answer
    }
}

// What is known of the name that is asked for: nothing yet, if another one was asked for before.
fn known_of(known: &mut Known, asked: u64) -> &mut Known {
    if known.asked != asked {
        *known = Known { asked, ..Known::default() };
    }
    known
}

// Screens and exceptions, and what they say of a name.
//
// No folder has both, so one stands in its folder at most. The log of what was blocked or reported is kept, though no
// command shows it yet.
use crate::groups::Groups;
use crate::line::Refusal::{self, Named};
use crate::machine::Machine;
use crate::numbers::Counted;
use crate::options::Settings;
use crate::thresholds::{action_bytes, Action, Cause, MOST_ACTIONS};
use crate::volume::{Volume, NOWHERE};
use std::collections::VecDeque;

const MOST_GUARDS: usize = 4_096;
const MOST_GROUPS: usize = 16;
const MOST_AUDITS: usize = 1_024;

pub enum Guard {
    Screen(Screen),
    Exception(Vec<usize>),
}

pub struct Screen {
    pub active: bool,
    pub groups: Vec<usize>,
    pub actions: Vec<Action>,
}

// A name that was blocked or reported.
#[allow(dead_code)]
pub struct Audit {
    pub moment: u32,
    pub active: bool,
    pub owner: u32,
    pub folder: u32,
    pub screen: u32,
    pub name: Vec<u8>,
}

// The folders that have one.
pub struct Screens {
    pub screens: Counted,
    pub exceptions: Counted,
    audits: VecDeque<Audit>,
}

pub fn screen_of(volume: &Volume, folder: u32) -> Option<&Screen> {
    match volume.folder(folder).guard.as_deref() {
        Some(Guard::Screen(screen)) => Some(screen),
        _ => None,
    }
}

fn screen_mut(volume: &mut Volume, folder: u32) -> Option<&mut Screen> {
    match volume.folder_mut(folder).guard.as_deref_mut() {
        Some(Guard::Screen(screen)) => Some(screen),
        _ => None,
    }
}

// The groups of an exception.
pub fn exception_of(volume: &Volume, folder: u32) -> Option<&[usize]> {
    match volume.folder(folder).guard.as_deref() {
        Some(Guard::Exception(groups)) => Some(groups),
        _ => None,
    }
}

// Those that come after those that are there, each once.
fn joined(mut groups: Vec<usize>, added: &[usize]) -> Vec<usize> {
    for number in added {
        if !groups.contains(number) {
            groups.push(*number);
        }
    }
    groups
}

// Why an object can't be added, if these folders have one.
fn refuse(guarded: &Counted, groups: &[usize], actions: &[Action]) -> Result<(), Refusal> {
    if groups.len() > MOST_GROUPS || actions.len() > MOST_ACTIONS {
        return Err(Named("OutOfRange"));
    }
    if guarded.count() == MOST_GUARDS {
        return Err(Named("TableFull"));
    }
    Ok(())
}

impl Screens {
    pub fn new() -> Screens {
        Screens { screens: Counted::new(), exceptions: Counted::new(), audits: VecDeque::new() }
    }

    pub fn is_empty(&self) -> bool {
        self.screens.count() == 0
    }

    // The folder of the screen that judges a name, and whether it is active: the nearest active one that applies, or
    // else the nearest passive one.
    pub fn judge(&self, volume: &Volume, groups: &mut Groups, folder: u32, name: &[u8]) -> Option<(u32, bool)> {
        if !groups.ask(name) {
            return None;
        }
        let mut passive = None;
        for at in volume.way_up(folder, NOWHERE) {
            match volume.folder(at).guard.as_deref() {
                Some(Guard::Screen(screen)) if screen.active || passive.is_none() => {
                    let applies = groups.have(&screen.groups, name);
                    if applies && screen.active {
                        return Some((at, true));
                    }
                    passive = passive.or(applies.then_some((at, false)));
                }
                // it counts for all that are farther up
                Some(Guard::Exception(passing)) if groups.have(passing, name) => return passive,
                _ => {}
            }
        }
        passive
    }
}

impl Machine {
    // Notes what a screen blocks or reports, and has its actions run.
    pub fn note(&mut self, audit: Audit) {
        if let Some(screen) = screen_mut(&mut self.volume, audit.screen) {
            self.quotas.runs.run_actions(audit.screen, Cause::Screen, &mut screen.actions, audit.moment);
        }
        if self.screens.audits.len() == MOST_AUDITS {
            self.screens.audits.pop_front();
        }
        self.screens.audits.push_back(audit);
    }

    pub fn add_screen(&mut self, folder: u32, given: &Settings) -> Result<(), Refusal> {
        match self.volume.folder(folder).guard.as_deref() {
            Some(Guard::Screen(_)) => return Err(Named("AlreadyExists")),
            Some(Guard::Exception(_)) => return Err(Named("InvalidCombination")),
            None => {}
        }
        let (groups, actions) = (joined(Vec::new(), &self.groups.find_all(&given.groups)?), given.notes.clone());
        refuse(&self.screens.screens, &groups, &actions)?;
        self.room.replace(0, action_bytes(&actions))?;
        self.groups.use_all(&groups);
        let screen = Screen { active: given.active.unwrap_or(true), groups, actions };
        self.volume.folder_mut(folder).guard = Some(Box::new(Guard::Screen(screen)));
        self.screens.screens.insert(folder);
        Ok(())
    }

    pub fn add_exception(&mut self, folder: u32, given: &Settings) -> Result<(), Refusal> {
        match self.volume.folder(folder).guard.as_deref() {
            Some(Guard::Exception(_)) => return Err(Named("AlreadyExists")),
            Some(Guard::Screen(_)) => return Err(Named("InvalidCombination")),
            None => {}
        }
        let groups = joined(Vec::new(), &self.groups.find_all(&given.groups)?);
        refuse(&self.screens.exceptions, &groups, &[])?;
        self.groups.use_all(&groups);
        self.volume.folder_mut(folder).guard = Some(Box::new(Guard::Exception(groups)));
        self.screens.exceptions.insert(folder);
        Ok(())
    }

    pub fn modify_screen(&mut self, folder: u32, given: &Settings) -> Result<(), Refusal> {
        let screen = screen_mut(&mut self.volume, folder).ok_or(Named("NotFound"))?;
        let (removed, added) = (self.groups.find_all(&given.removed_groups)?, self.groups.find_all(&given.groups)?);
        let is_named_before = |at: usize| removed[..at].contains(&removed[at]);
        if (0..removed.len()).any(|at| !screen.groups.contains(&removed[at]) || is_named_before(at)) {
            return Err(Named("NotFound"));
        }
        let kept = screen.groups.iter().copied().filter(|number| !removed.contains(number)).collect();
        let changed = joined(kept, &added);
        if changed.is_empty() {
            return Err(Named("InvalidCombination"));
        }
        if changed.len() > MOST_GROUPS {
            return Err(Named("OutOfRange"));
        }
        self.groups.leave_all(&screen.groups);
        self.groups.use_all(&changed);
        screen.groups = changed;
        screen.active = given.active.unwrap_or(screen.active);
        Ok(())
    }

    pub fn delete_screen(&mut self, folder: u32) -> Result<(), Refusal> {
        screen_of(&self.volume, folder).ok_or(Named("NotFound"))?;
        self.delete_guard(folder);
        Ok(())
    }

    pub fn delete_exception(&mut self, folder: u32) -> Result<(), Refusal> {
        exception_of(&self.volume, folder).ok_or(Named("NotFound"))?;
        self.delete_guard(folder);
        Ok(())
    }

    // Takes away what a folder has, if it has a screen or an exception.
    pub fn delete_guard(&mut self, folder: u32) {
        match self.volume.folder_mut(folder).guard.take().map(|guard| *guard) {
            Some(Guard::Screen(screen)) => {
                self.groups.leave_all(&screen.groups);
                self.room.give_back(action_bytes(&screen.actions));
                self.screens.screens.remove(folder);
            }
            Some(Guard::Exception(groups)) => {
                self.groups.leave_all(&groups);
                self.screens.exceptions.remove(folder);
            }
            None => {}
        }
    }
}

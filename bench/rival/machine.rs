// What each command does.
use crate::groups::Groups;
use crate::line::Refusal::{self, Blocked, Exceeded, Named};
use crate::line::{Command, Verb};
use crate::options::Settings;
use crate::quotas::{Quota, Quotas, State};
use crate::room::Room;
use crate::scans::Scans;
use crate::screens::{Audit, Screens};
use crate::templates::Templates;
use crate::thresholds::{self, text_bytes};
use crate::volume::{allocated, Folder, Node, Volume, NOWHERE, ROOT};

pub enum Answer {
    Done,
    // done, and reported by the screen of this folder
    Reported(u32),
    Usage { node: u32, used: u64 },
    Visited { folders: u64, scanned: u32, used: Option<u64> },
    // the folders whose quotas are to be shown
    Quotas(Vec<u32>),
    Templates,
    Autos,
    Groups,
    Screens,
    Exceptions,
    Settings,
    Log,
}

pub struct Machine {
    pub volume: Volume,
    pub quotas: Quotas,
    pub templates: Templates,
    pub scans: Scans,
    pub groups: Groups,
    pub screens: Screens,
    pub room: Room,
    last: u32,
}

// The quota of a folder that has one.
pub fn quota_of(volume: &mut Volume, folder: u32) -> &mut Quota {
    volume.folder_mut(folder).quota.as_mut().expect("a quota")
}

impl Machine {
    pub fn new() -> Machine {
        let (volume, quotas, templates, scans) = (Volume::new(), Quotas::new(), Templates::new(), Scans::new());
        let (groups, screens, room) = (Groups::new(), Screens::new(), Room::new());
        Machine { volume, quotas, templates, scans, groups, screens, room, last: 0 }
    }

    pub fn take(&mut self, moment: u32, command: &Command) -> Result<Answer, Refusal> {
        if moment < self.last {
            return Err(Named("ClockBack"));
        }
        let answer = self.carry_out(moment, command);
        match answer {
            Err(Exceeded { would, folder, .. }) => self.warn(folder, would, moment),
            Err(Blocked(_)) => self.last = moment,
            _ => {}
        }
        answer
    }

    // Has the actions run of the thresholds that a refused operation would have reached. Then it lasts.
    fn warn(&mut self, folder: u32, would: u64, moment: u32) {
        let quota = quota_of(&mut self.volume, folder);
        quota.cross(folder, quota.used, would, moment, &mut self.quotas.runs);
        if !self.quotas.runs.acts.is_empty() {
            self.last = moment;
        }
    }

    fn carry_out(&mut self, moment: u32, command: &Command) -> Result<Answer, Refusal> {
        match command {
            Command::Mkdir { path, owner } => self.mkdir(path, *owner, moment)?,
            Command::Create { path, length, owner } => return self.create(path, *length, *owner, moment),
            Command::Resize { path, length } => self.resize(path, *length, moment)?,
            Command::Touch { path } => {
                let file = self.find_file(path)?;
                self.volume.node_mut(file).stamps.accessed = moment;
            }
            Command::Move { path, to } => return self.relocate(path, to, moment),
            Command::Remove { path } => self.remove(path)?,
            Command::Usage { path } => {
                let node = self.find(path)?;
                return Ok(Answer::Usage { node, used: self.volume.usage(node) });
            }
            Command::Step { visits } => return self.step(*visits, moment),
            Command::ListAll => return Ok(Answer::Quotas(self.quotas.folders().collect())),
            Command::AddQuota { path, settings } => self.add_quota(path, settings, moment)?,
            Command::OfQuota { verb, path, settings } => {
                let folder = self.find_folder(path)?;
                self.volume.folder(folder).quota.as_ref().ok_or(Named("NotFound"))?;
                return self.change_quota(folder, verb, settings, moment);
            }
            Command::OfTemplate { verb, name, settings } => match verb {
                Verb::Add => self.templates.add(name, settings, &mut self.room)?,
                Verb::Modify => self.modify_template(self.templates.find(name)?, settings, moment)?,
                _ => self.delete_template(self.templates.find(name)?)?,
            },
            Command::AddAuto { path, source, settings } => {
                let folder = self.find_folder(path)?;
                self.add_auto(folder, source, &settings.excluded, moment)?;
            }
            Command::DeleteAuto { path } => {
                let folder = self.find_folder(path)?;
                self.delete_auto(folder)?;
            }
            Command::ListTemplates => return Ok(Answer::Templates),
            Command::ListAutos => return Ok(Answer::Autos),
            Command::OfGroup { verb, name, settings } => self.change_group(name, *verb, settings)?,
            Command::OfScreen { verb, path, settings } => {
                let folder = self.find_folder(path)?;
                match verb {
                    Verb::Add => self.add_screen(folder, settings)?,
                    Verb::Modify => self.modify_screen(folder, settings)?,
                    _ => self.delete_screen(folder)?,
                }
            }
            Command::OfException { verb, path, settings } => {
                let folder = self.find_folder(path)?;
                match verb {
                    Verb::Add => self.add_exception(folder, settings)?,
                    _ => self.delete_exception(folder)?,
                }
            }
            Command::ListGroups => return Ok(Answer::Groups),
            Command::ListScreens => return Ok(Answer::Screens),
            Command::ListExceptions => return Ok(Answer::Exceptions),
            Command::SetRunLimit { minutes } => self.quotas.runs.run_limit = *minutes,
            Command::ListSettings => return Ok(Answer::Settings),
            Command::ListLog => return Ok(Answer::Log),
        }
        self.last = moment;
        Ok(Answer::Done)
    }

    fn find(&self, path: &[u8]) -> Result<u32, Refusal> {
        self.volume.find(path).ok_or(Named("PathNotFound"))
    }

    fn find_folder(&self, path: &[u8]) -> Result<u32, Refusal> {
        self.find(path).and_then(|node| self.is_folder(node).then_some(node).ok_or(Named("PathNotFound")))
    }

    fn find_file(&self, path: &[u8]) -> Result<u32, Refusal> {
        self.find(path).and_then(|node| (!self.is_folder(node)).then_some(node).ok_or(Named("PathNotFound")))
    }

    fn is_folder(&self, node: u32) -> bool {
        self.volume.node(node).folder.is_some()
    }

    // The folder and the last name of a path.
    fn place<'a>(&self, path: &'a [u8]) -> Result<(u32, &'a [u8]), Refusal> {
        if path.is_empty() {
            return Err(Named("AlreadyExists"));
        }
        let (folders, name) = match path.iter().rposition(|byte| *byte == b'\\') {
            Some(end) => (&path[..end], &path[end + 1..]),
            None => (&path[..0], path),
        };
        Ok((self.find_folder(folders)?, name))
    }

    fn new_place<'a>(&self, path: &'a [u8]) -> Result<(u32, &'a [u8]), Refusal> {
        let (folder, name) = self.place(path)?;
        if self.volume.child(folder, name).is_some() {
            return Err(Named("AlreadyExists"));
        }
        if !self.volume.has_room() {
            return Err(Named("VolumeFull"));
        }
        if !self.volume.has_room_for(name, 0) {
            return Err(Named("NamesFull"));
        }
        Ok((folder, name))
    }

    fn mkdir(&mut self, path: &[u8], owner: u32, moment: u32) -> Result<(), Refusal> {
        let (parent, name) = self.new_place(path)?;
        let source = self.source(parent, name)?;
        // it has nothing to be counted, so it is visited if its parent is
        let visited_by = self.volume.folder(parent).visited_by;
        let folder = Folder { visited_by, ..Folder::default() };
        let number = self.volume.make(parent, name, Node::new_folder(folder, owner, moment));
        source.into_iter().for_each(|template| self.derive(number, template, moment));
        Ok(())
    }

    // What is answered to an operation on a file that is done: the screen of this folder may report it.
    fn done(&mut self, reporting: Option<u32>, moment: u32) -> Result<Answer, Refusal> {
        self.last = moment;
        Ok(reporting.map_or(Answer::Done, Answer::Reported))
    }

    // Blocks a file's name, or tells what a passive screen reports of it, if one does.
    fn judge(&mut self, folder: u32, name: &[u8], owner: u32, moment: u32) -> Result<Option<Audit>, Refusal> {
        let judge = self.screens.judge(&self.volume, &mut self.groups, folder, name);
        let Some((screen, active)) = judge else { return Ok(None) };
        let audit = Audit { moment, active, owner, folder, screen, name: name.to_vec() };
        if active {
            self.note(audit);
            return Err(Blocked(screen));
        }
        Ok(Some(audit))
    }

    fn create(&mut self, path: &[u8], length: u64, owner: u32, moment: u32) -> Result<Answer, Refusal> {
        let (parent, name) = self.new_place(path)?;
        let report = if self.screens.is_empty() { None } else { self.judge(parent, name, owner, moment)? };
        let reporting = report.as_ref().map(|audit| audit.screen);
        if let Some(audit) = report {
            // the screen's actions run before those of quotas, and don't if a quota refuses
            self.quotas.judge(&self.volume, parent, NOWHERE, allocated(length))?;
            self.note(audit);
        }
        self.quotas.gain(&mut self.volume, parent, NOWHERE, allocated(length), moment)?;
        if self.scans.has_visited(&self.volume, parent) {
            self.scans.counted += allocated(length);
        }
        self.volume.make(parent, name, Node::new_file(length, owner, moment));
        self.done(reporting, moment)
    }

    fn resize(&mut self, path: &[u8], length: u64, moment: u32) -> Result<(), Refusal> {
        let file = self.find_file(path)?;
        let node = self.volume.node(file);
        let (parent, old, new) = (node.parent, node.allocated(), allocated(length));
        self.quotas.resize(&mut self.volume, parent, old, new, moment)?;
        if self.scans.has_visited(&self.volume, parent) {
            self.scans.counted = self.scans.counted - old + new;
        }
        let node = self.volume.node_mut(file);
        (node.length, node.stamps.modified) = (length, moment);
        Ok(())
    }

    fn relocate(&mut self, path: &[u8], to: &[u8], moment: u32) -> Result<Answer, Refusal> {
        let number = self.find(path)?;
        if number == ROOT {
            return Err(Named("InvalidMove"));
        }
        let (folder, name) = self.place(to)?;
        let node = self.volume.node(number);
        if node.folder.is_some() && self.volume.way_up(folder, NOWHERE).any(|above| above == number) {
            return Err(Named("InvalidMove"));
        }
        if self.volume.child(folder, name).is_some_and(|other| other != number) {
            return Err(Named("AlreadyExists"));
        }
        if !self.volume.has_room_for(name, self.volume.name(node).len()) {
            return Err(Named("NamesFull"));
        }
        let (parent, owner, is_file) = (node.parent, node.stamps.owner, node.folder.is_none());
        let gets_one = node.folder.as_ref().is_some_and(|folder| folder.quota.is_none());
        let source = if gets_one { self.source(folder, name)? } else { None };
        let is_judged = is_file && !self.screens.is_empty();
        let report = if is_judged { self.judge(folder, name, owner, moment)? } else { None };
        let reporting = report.as_ref().map(|audit| audit.screen);
        if let Some(audit) = report {
            self.quotas.judge_move(&self.volume, number, folder)?;
            self.note(audit);
        }
        self.quotas.carry(&mut self.volume, number, folder, moment)?;
        let visited = |folder| self.scans.has_visited(&self.volume, folder);
        let (was_visited, is_visited) = (visited(parent), visited(folder));
        self.volume.relocate(number, folder, name);
        match (was_visited, is_visited) {
            (true, false) => self.scans.forget(&mut self.volume, number),
            (false, true) => self.scans.meet(number, self.volume.node(number)),
            _ => {}
        }
        source.into_iter().for_each(|template| self.derive(number, template, moment));
        self.done(reporting, moment)
    }

    fn remove(&mut self, path: &[u8]) -> Result<(), Refusal> {
        let number = self.find(path)?;
        if number == ROOT {
            return Err(Named("InvalidMove"));
        }
        let node = self.volume.node(number);
        let (parent, bytes) = (node.parent, node.allocated());
        match &node.folder {
            Some(folder) if !folder.children.is_empty() => return Err(Named("NotEmpty")),
            Some(_) => {
                self.delete_quota(number);
                self.take_auto(number);
                self.delete_guard(number);
            }
            None => self.quotas.lose(&mut self.volume, parent, NOWHERE, bytes),
        }
        if self.scans.has_visited(&self.volume, parent) {
            self.scans.forget(&mut self.volume, number);
        }
        self.volume.remove(number);
        Ok(())
    }

    fn step(&mut self, visits: u64, moment: u32) -> Result<Answer, Refusal> {
        let scanned = self.scans.active().ok_or(Named("NothingToScan"))?;
        let folders = (0..visits).take_while(|_| self.scans.visit(&mut self.volume)).count() as u64;
        let used = self.scans.is_finished().then_some(self.scans.counted);
        if let Some(used) = used {
            quota_of(&mut self.volume, scanned).complete(scanned, used, moment, &mut self.quotas.runs);
            self.scans.leave(scanned);
            self.last = moment;
        }
        Ok(Answer::Visited { folders, scanned, used })
    }

    fn add_quota(&mut self, path: &[u8], given: &Settings, moment: u32) -> Result<(), Refusal> {
        let folder = self.find_folder(path)?;
        if self.volume.folder(folder).quota.is_some() {
            return Err(Named("AlreadyExists"));
        }
        let number = given.source.as_ref().map(|name| self.templates.find(name)).transpose()?;
        let template = number.map(|number| self.templates.template(number));
        let thresholds = thresholds::changed(template.map_or(&[], |template| &template.thresholds), given);
        if thresholds::are_too_many(&thresholds) {
            return Err(Named("OutOfRange"));
        }
        if self.quotas.would_be_full(1) {
            return Err(Named("TableFull"));
        }
        let limit = given.limit.or(template.map(|template| template.limit)).unwrap_or_default();
        let hard = given.hard.or(template.map(|template| template.hard)).unwrap_or(true);
        self.room.replace(0, text_bytes(&thresholds))?;
        self.put_quota(folder, number, Quota::new(limit, hard, thresholds, moment));
        self.set_enabled(folder, given.enabled.unwrap_or(true));
        Ok(())
    }

    fn modify_quota(&mut self, folder: u32, given: &Settings, moment: u32) -> Result<(), Refusal> {
        let quota = quota_of(&mut self.volume, folder);
        if !thresholds::may_remove(&quota.thresholds, &given.removed) {
            return Err(Named("NotFound"));
        }
        let changed = thresholds::changed(&quota.thresholds, given);
        if thresholds::are_too_many(&changed) {
            return Err(Named("OutOfRange"));
        }
        self.room.replace(text_bytes(&quota.thresholds), text_bytes(&changed))?;
        let (reached, enabled) = (quota.reached(), quota.state != State::Disabled);
        quota.limit = given.limit.unwrap_or(quota.limit);
        quota.hard = given.hard.unwrap_or(quota.hard);
        quota.thresholds = changed;
        self.set_enabled(folder, given.enabled.unwrap_or(enabled));
        quota_of(&mut self.volume, folder).settle(folder, &reached, moment, &mut self.quotas.runs);
        Ok(())
    }

    // Takes a command on the quota that a folder has.
    fn change_quota(&mut self, folder: u32, verb: &Verb, given: &Settings, moment: u32) -> Result<Answer, Refusal> {
        let quota = quota_of(&mut self.volume, folder);
        match (verb, quota.state) {
            (Verb::Add, _) => return Err(Named("AlreadyExists")),
            (Verb::Modify, _) => self.modify_quota(folder, given, moment)?,
            (Verb::ResetPeak, _) => quota.reset_peak(moment),
            (Verb::Scan, State::Complete) => self.queue_scan(folder),
            (Verb::Scan, State::Disabled) => return Err(Named("InvalidCombination")),
            (Verb::Scan, State::Rebuilding) => return Ok(Answer::Done),
            (Verb::List, _) => return Ok(Answer::Quotas(vec![folder])),
            (Verb::Delete, _) => self.delete_quota(folder),
        }
        self.last = moment;
        Ok(Answer::Done)
    }

    // A quota that is enabled counts at once if its folder is empty, and else waits for its scan.
    pub fn set_enabled(&mut self, folder: u32, enabled: bool) {
        let empty = self.volume.folder(folder).children.is_empty();
        let quota = quota_of(&mut self.volume, folder);
        match (quota.state == State::Disabled, enabled) {
            (true, true) if empty => quota.enter(State::Complete),
            (true, true) => self.queue_scan(folder),
            (false, false) => {
                quota.enter(State::Disabled);
                self.scans.leave(folder);
            }
            _ => {}
        }
    }

    fn queue_scan(&mut self, folder: u32) {
        let quota = quota_of(&mut self.volume, folder);
        quota.enter(State::Rebuilding);
        self.scans.join(folder);
    }

    fn delete_quota(&mut self, folder: u32) {
        if let Some(quota) = self.quotas.delete(&mut self.volume, folder) {
            self.room.give_back(text_bytes(&quota.thresholds));
            self.templates.leave(quota.template);
            if quota.state == State::Rebuilding {
                self.scans.leave(folder);
            }
        }
    }

    fn change_group(&mut self, name: &[u8], verb: Verb, given: &Settings) -> Result<(), Refusal> {
        match verb {
            Verb::Add => self.groups.add(name, given, &mut self.room),
            Verb::Modify => self.groups.modify(self.groups.find(name)?, given, &mut self.room),
            _ => self.groups.delete(self.groups.find(name)?, &mut self.room),
        }
    }
}

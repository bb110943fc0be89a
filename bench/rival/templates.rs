// Templates of quotas, and auto-apply quotas, by which folders get quotas of them.
//
// The quotas that are derived from a template are those that bear its number. Its change goes through all quotas once,
// and they share its actions' texts. An auto-apply quota stands in its folder.
use crate::line::Refusal::{self, Named};
use crate::machine::{quota_of, Machine};
use crate::names;
use crate::numbers::Counted;
use crate::options::Settings;
use crate::places::Places;
use crate::quotas::Quota;
use crate::room::Room;
use crate::thresholds::{self, text_bytes, Threshold};

const MOST_TEMPLATES: usize = 1_024;
const MOST_AUTOS: usize = 1_024;
pub const MOST_EXCLUDED: usize = 32;

pub struct Template {
    pub name: Vec<u8>,
    pub limit: u64,
    pub hard: bool,
    pub thresholds: Vec<Threshold>,
    // so many bytes their texts have
    bytes: usize,
    // so many quotas are derived from it, and so many auto-apply quotas name it
    derived: usize,
    uses: usize,
}

pub struct Auto {
    pub template: u16,
    pub excluded: Vec<Vec<u8>>,
}

// Which derived quotas a change reaches: none, those that are as the template was, or all.
#[derive(Clone, Copy, PartialEq)]
pub enum Update {
    None,
    Matching,
    All,
}

pub struct Templates {
    // by their numbers
    rows: Vec<Option<Template>>,
    named: Places,
    // the folders that have an auto-apply quota
    autos: Counted,
}

impl Template {
    fn is_as(&self, quota: &Quota) -> bool {
        let (limit, hard) = (quota.limit, quota.hard);
        self.limit == limit && self.hard == hard && thresholds::are(&self.thresholds, &quota.thresholds)
    }
}

impl Auto {
    fn excludes(&self, name: &[u8]) -> bool {
        self.excluded.iter().any(|excluded| names::same(excluded, name))
    }

    fn bytes(&self) -> usize {
        self.excluded.iter().map(Vec::len).sum()
    }
}

impl Templates {
    pub fn new() -> Templates {
        Templates { rows: Vec::new(), named: Places::new(), autos: Counted::new() }
    }

    // All of them, in the order of their numbers.
    pub fn iter(&self) -> impl Iterator<Item = &Template> {
        self.rows.iter().flatten()
    }

    // The folders that have an auto-apply quota.
    pub fn folders(&self) -> impl Iterator<Item = u32> + '_ {
        self.autos.iter()
    }

    pub fn template(&self, number: u16) -> &Template {
        self.rows[number as usize].as_ref().expect("a template")
    }

    fn template_mut(&mut self, number: u16) -> &mut Template {
        self.rows[number as usize].as_mut().expect("a template")
    }

    pub fn find(&self, name: &[u8]) -> Result<u16, Refusal> {
        let has_name = |number| names::same(&self.template(number as u16).name, name);
        self.named.find(names::hash(0, name), has_name).map(|number| number as u16).ok_or(Named("NotFound"))
    }

    pub fn add(&mut self, name: &[u8], given: &Settings, room: &mut Room) -> Result<(), Refusal> {
        if self.find(name).is_ok() {
            return Err(Named("DuplicateName"));
        }
        let thresholds = thresholds::changed(&[], given);
        if thresholds::are_too_many(&thresholds) {
            return Err(Named("OutOfRange"));
        }
        let number = self.rows.iter().position(Option::is_none).unwrap_or(self.rows.len());
        if number == MOST_TEMPLATES {
            return Err(Named("TableFull"));
        }
        let (limit, hard, bytes) =
            (given.limit.unwrap_or_default(), given.hard.unwrap_or(true), text_bytes(&thresholds));
        room.replace(0, name.len() + bytes)?;
        if number == self.rows.len() {
            self.rows.push(None);
        }
        self.named.insert(names::hash(0, name), number as u32);
        self.rows[number] = Some(Template { name: name.to_vec(), limit, hard, thresholds, bytes, derived: 0, uses: 0 });
        Ok(())
    }

    // Notes that a quota is derived from a template, if it is.
    pub fn join(&mut self, template: Option<u16>) {
        template.into_iter().for_each(|number| self.template_mut(number).derived += 1);
    }

    // Notes that it no longer is.
    pub fn leave(&mut self, template: Option<u16>) {
        template.into_iter().for_each(|number| self.template_mut(number).derived -= 1);
    }
}

impl Machine {
    // The folders, in the order of their numbers, of the quotas that are derived from a template and are wanted.
    fn derived(&self, number: u16, is_wanted: impl Fn(&Quota) -> bool) -> Vec<u32> {
        if self.templates.template(number).derived == 0 {
            return Vec::new();
        }
        let quota = |folder: u32| self.volume.folder(folder).quota.as_ref();
        let is_one = |quota: &Quota| quota.template == Some(number) && is_wanted(quota);
        self.quotas.folders().filter(|folder| quota(*folder).is_some_and(is_one)).collect()
    }

    pub fn modify_template(&mut self, number: u16, given: &Settings, moment: u32) -> Result<(), Refusal> {
        let old = self.templates.template(number);
        if !thresholds::may_remove(&old.thresholds, &given.removed) {
            return Err(Named("NotFound"));
        }
        let changed = thresholds::changed(&old.thresholds, given);
        if thresholds::are_too_many(&changed) {
            return Err(Named("OutOfRange"));
        }
        let reached = match given.update {
            None | Some(Update::None) => Vec::new(),
            Some(Update::Matching) => self.derived(number, |quota| old.is_as(quota)),
            Some(Update::All) => self.derived(number, |_| true),
        };
        let bytes = text_bytes(&changed);
        let bytes_of = |folder: &u32| self.volume.folder(*folder).quota.as_ref().map_or(0, Quota::text_bytes);
        let before = old.bytes + reached.iter().map(bytes_of).sum::<usize>();
        self.room.replace(before, (reached.len() + 1) * bytes)?;
        let template = self.templates.template_mut(number);
        template.limit = given.limit.unwrap_or(template.limit);
        template.hard = given.hard.unwrap_or(template.hard);
        (template.thresholds, template.bytes) = (changed, bytes);
        for folder in reached {
            let quota = quota_of(&mut self.volume, folder);
            let before = quota.reached();
            (quota.limit, quota.hard) = (template.limit, template.hard);
            quota.thresholds.clone_from(&template.thresholds);
            quota.settle(folder, &before, moment, &mut self.quotas.runs);
        }
        Ok(())
    }

    pub fn delete_template(&mut self, number: u16) -> Result<(), Refusal> {
        if self.templates.template(number).uses > 0 {
            return Err(Named("InUse"));
        }
        for folder in self.derived(number, |_| true) {
            quota_of(&mut self.volume, folder).template = None;
        }
        let Some(template) = self.templates.rows[number as usize].take() else { return Ok(()) };
        self.templates.named.remove(names::hash(0, &template.name), number as u32);
        self.room.give_back(template.name.len() + template.bytes);
        Ok(())
    }

    // The template of which a folder gives one of this name in it a quota, if it does and there is room for one.
    pub fn source(&self, folder: u32, name: &[u8]) -> Result<Option<u16>, Refusal> {
        let Some(auto) = &self.volume.folder(folder).auto else { return Ok(None) };
        if auto.excludes(name) {
            return Ok(None);
        }
        self.judge_derived(auto.template, 1, 0)?;
        Ok(Some(auto.template))
    }

    // Whether so many quotas of a template may come, with so many bytes beside those of their texts.
    fn judge_derived(&self, template: u16, count: usize, beside: usize) -> Result<(), Refusal> {
        if self.quotas.would_be_full(count) {
            return Err(Named("TableFull"));
        }
        self.room.judge(0, beside + count * self.templates.template(template).bytes)
    }

    // Gives a folder a quota of a template. There is room for it.
    pub fn derive(&mut self, folder: u32, number: u16, moment: u32) {
        let template = self.templates.template(number);
        let quota = Quota::new(template.limit, template.hard, template.thresholds.clone(), moment);
        self.room.take(template.bytes);
        self.put_quota(folder, Some(number), quota);
        self.set_enabled(folder, true);
    }

    // Puts a quota on a folder that has none.
    pub fn put_quota(&mut self, folder: u32, template: Option<u16>, mut quota: Quota) {
        quota.template = template;
        self.templates.join(template);
        self.quotas.add(&mut self.volume, folder, quota);
    }

    pub fn add_auto(&mut self, folder: u32, source: &[u8], excluded: &[Vec<u8>], moment: u32) -> Result<(), Refusal> {
        if self.volume.folder(folder).auto.is_some() {
            return Err(Named("AlreadyExists"));
        }
        let template = self.templates.find(source)?;
        if self.templates.autos.count() == MOST_AUTOS {
            return Err(Named("TableFull"));
        }
        let auto = Auto { template, excluded: excluded.to_vec() };
        let gets_one = |child: &u32| {
            let node = self.volume.node(*child);
            let has_none = node.folder.as_ref().is_some_and(|folder| folder.quota.is_none());
            has_none && !auto.excludes(self.volume.name(node))
        };
        let mut children: Vec<u32> = self.volume.folder(folder).children.iter().copied().filter(gets_one).collect();
        self.judge_derived(template, children.len(), auto.bytes())?;
        children.sort_unstable();
        self.room.take(auto.bytes());
        self.templates.autos.insert(folder);
        self.templates.template_mut(template).uses += 1;
        self.volume.folder_mut(folder).auto = Some(Box::new(auto));
        children.into_iter().for_each(|child| self.derive(child, template, moment));
        Ok(())
    }

    pub fn delete_auto(&mut self, folder: u32) -> Result<(), Refusal> {
        self.take_auto(folder).then_some(()).ok_or(Named("NotFound"))
    }

    // Takes the auto-apply quota of a folder away, and tells whether there was one.
    pub fn take_auto(&mut self, folder: u32) -> bool {
        let Some(auto) = self.volume.folder_mut(folder).auto.take() else { return false };
        self.room.give_back(auto.bytes());
        self.templates.autos.remove(folder);
        self.templates.template_mut(auto.template).uses -= 1;
        true
    }
}

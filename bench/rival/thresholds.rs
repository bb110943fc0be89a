// The thresholds of quotas: percentages of the limit, and the actions that run when what is used comes up to them. The
// actions of screens run as these do.
use crate::options::Settings;
use std::collections::VecDeque;
use std::rc::Rc;

const MOST_THRESHOLDS: usize = 16;
pub const MOST_ACTIONS: usize = 8;
const MOST_ENTRIES: usize = 1_024;
const RUN_LIMIT: u64 = 60;

#[derive(Clone)]
pub struct Threshold {
    pub percent: u64,
    pub actions: Vec<Action>,
}

#[derive(Clone)]
pub struct Action {
    pub kind: u8,
    // none stands for the setting
    pub minutes: Option<u64>,
    pub text: Rc<[u8]>,
    pub last_run: Option<u32>,
}

// One more action of a threshold.
pub struct Notice {
    pub percent: u64,
    pub action: Action,
}

// What has an action run: a threshold at this place among those of the folder's quota, or the folder's screen.
#[derive(Clone, Copy)]
pub enum Cause {
    Threshold { place: usize, percent: u64 },
    Screen,
}

// An entry of the log.
pub struct Entry {
    pub moment: u32,
    pub folder: u32,
    pub cause: Cause,
    pub kind: u8,
}

// An action that ran, by its place.
pub struct Act {
    pub folder: u32,
    pub cause: Cause,
    pub action: usize,
}

pub struct Runs {
    pub run_limit: u64,
    pub log: VecDeque<Entry>,
    // those of the last command
    pub acts: Vec<Act>,
}

impl Threshold {
    // How many bytes reach it.
    pub fn bytes(&self, limit: u64) -> u64 {
        limit / 100 * self.percent + (limit % 100 * self.percent).div_ceil(100)
    }

    // Whether another one has the same actions, whenever they ran.
    fn is(&self, other: &Threshold) -> bool {
        self.percent == other.percent && are_same(&self.actions, &other.actions, Action::is)
    }
}

impl Action {
    // A text that was copied from a template is the same one.
    fn is(&self, other: &Action) -> bool {
        let is_text = Rc::ptr_eq(&self.text, &other.text) || self.text == other.text;
        self.kind == other.kind && self.minutes == other.minutes && is_text
    }
}

fn are_same<T>(some: &[T], others: &[T], is: fn(&T, &T) -> bool) -> bool {
    some.len() == others.len() && some.iter().zip(others).all(|(one, other)| is(one, other))
}

// Whether these are the same, whenever their actions ran.
pub fn are(some: &[Threshold], others: &[Threshold]) -> bool {
    are_same(some, others, Threshold::is)
}

impl Runs {
    pub fn new() -> Runs {
        Runs { run_limit: RUN_LIMIT, log: VecDeque::new(), acts: Vec::new() }
    }

    // Has those actions of a threshold run that may.
    pub fn run(&mut self, folder: u32, place: usize, threshold: &mut Threshold, moment: u32) {
        let cause = Cause::Threshold { place, percent: threshold.percent };
        self.run_actions(folder, cause, &mut threshold.actions, moment);
    }

    pub fn run_actions(&mut self, folder: u32, cause: Cause, actions: &mut [Action], moment: u32) {
        for (at, action) in actions.iter_mut().enumerate() {
            let seconds = 60 * action.minutes.unwrap_or(self.run_limit);
            if action.last_run.is_some_and(|run| u64::from(moment) < u64::from(run) + seconds) {
                continue;
            }
            action.last_run = Some(moment);
            if self.log.len() == MOST_ENTRIES {
                self.log.pop_front();
            }
            self.log.push_back(Entry { moment, folder, cause, kind: action.kind });
            self.acts.push(Act { folder, cause, action: at });
        }
    }
}

fn place(thresholds: &[Threshold], percent: u64) -> Result<usize, usize> {
    thresholds.binary_search_by_key(&percent, |threshold| threshold.percent)
}

// Whether these percentages are there, and each is named once.
pub fn may_remove(thresholds: &[Threshold], percents: &[u64]) -> bool {
    let is_named_before = |at: usize| percents[..at].contains(&percents[at]);
    (0..percents.len()).all(|at| place(thresholds, percents[at]).is_ok() && !is_named_before(at))
}

// What a command makes of thresholds.
pub fn changed(thresholds: &[Threshold], given: &Settings) -> Vec<Threshold> {
    let stays = |threshold: &&Threshold| !given.removed.contains(&threshold.percent);
    let mut changed: Vec<Threshold> = thresholds.iter().filter(stays).cloned().collect();
    for percent in &given.percents {
        add(&mut changed, *percent);
    }
    for notice in &given.notices {
        add(&mut changed, notice.percent).actions.push(notice.action.clone());
    }
    changed
}

// The threshold of a percentage. It comes if it wasn't there.
fn add(thresholds: &mut Vec<Threshold>, percent: u64) -> &mut Threshold {
    let at = place(thresholds, percent).unwrap_or_else(|at| {
        thresholds.insert(at, Threshold { percent, actions: Vec::new() });
        at
    });
    &mut thresholds[at]
}

pub fn are_too_many(thresholds: &[Threshold]) -> bool {
    thresholds.len() > MOST_THRESHOLDS || thresholds.iter().any(|threshold| threshold.actions.len() > MOST_ACTIONS)
}

// How many bytes the texts of all actions have.
pub fn text_bytes(thresholds: &[Threshold]) -> usize {
    thresholds.iter().map(|threshold| action_bytes(&threshold.actions)).sum()
}

pub fn action_bytes(actions: &[Action]) -> usize {
    actions.iter().map(|action| action.text.len()).sum()
}

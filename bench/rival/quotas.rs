// The quotas on folders, and what is used there.
use crate::line::Refusal;
use crate::numbers::Counted;
use crate::thresholds::{text_bytes, Runs, Threshold};
use crate::volume::{Folder, Volume, NOWHERE};
use std::ops::Range;

const MOST_QUOTAS: usize = 4_096;

#[derive(Clone, Copy, PartialEq)]
pub enum State {
    Complete,
    Disabled,
    Rebuilding,
}

pub struct Quota {
    pub limit: u64,
    pub hard: bool,
    pub state: State,
    // 0 if the quota isn't complete
    pub used: u64,
    pub peak: u64,
    pub peak_at: u32,
    // in the order of their percentages
    pub thresholds: Vec<Threshold>,
    // the number of the one that it was derived from
    pub template: Option<u16>,
    // as long as what is used is among these, no other thresholds are reached than now
    calm: Range<u64>,
}

impl Quota {
    // One that is disabled.
    pub fn new(limit: u64, hard: bool, thresholds: Vec<Threshold>, moment: u32) -> Quota {
        let (state, calm, template) = (State::Disabled, 0..0, None);
        let mut quota = Quota { limit, hard, state, used: 0, peak: 0, peak_at: moment, thresholds, template, calm };
        quota.calm_down();
        quota
    }

    pub fn reset_peak(&mut self, moment: u32) {
        (self.peak, self.peak_at) = (self.used, moment);
    }

    pub fn raise_peak(&mut self, moment: u32) {
        if self.used > self.peak {
            self.reset_peak(moment);
        }
    }

    // Counts, or no longer. Nothing is used then.
    pub fn enter(&mut self, state: State) {
        (self.state, self.used) = (state, 0);
        self.calm_down();
    }

    // Counts from now on, with so many bytes.
    pub fn complete(&mut self, folder: u32, used: u64, moment: u32, runs: &mut Runs) {
        (self.state, self.used) = (State::Complete, used);
        self.raise_peak(moment);
        self.cross(folder, 0, used, moment, runs);
    }

    pub fn text_bytes(&self) -> usize {
        text_bytes(&self.thresholds)
    }

    fn calm_down(&mut self) {
        self.calm = 0..u64::MAX;
        for threshold in &self.thresholds {
            let bytes = threshold.bytes(self.limit);
            if bytes > self.used {
                self.calm.end = bytes;
                return;
            }
            self.calm.start = bytes;
        }
    }

    // Has the actions run of the thresholds that `now` bytes reach and `before` don't. No threshold is reached by 0.
    pub fn cross(&mut self, folder: u32, before: u64, now: u64, moment: u32, runs: &mut Runs) {
        for (place, threshold) in self.thresholds.iter_mut().enumerate() {
            let bytes = threshold.bytes(self.limit);
            if before < bytes && bytes <= now {
                runs.run(folder, place, threshold, moment);
            }
        }
        self.calm_down();
    }

    // The percentages that are reached.
    pub fn reached(&self) -> Vec<u64> {
        let is_reached = |threshold: &&Threshold| threshold.bytes(self.limit) <= self.used;
        self.thresholds.iter().filter(is_reached).map(|threshold| threshold.percent).collect()
    }

    // Has the actions run of the thresholds that are reached and weren't before.
    pub fn settle(&mut self, folder: u32, reached_before: &[u64], moment: u32, runs: &mut Runs) {
        for (place, threshold) in self.thresholds.iter_mut().enumerate() {
            if threshold.bytes(self.limit) <= self.used && !reached_before.contains(&threshold.percent) {
                runs.run(folder, place, threshold, moment);
            }
        }
        self.calm_down();
    }
}

// The folders that have a quota. Each quota stands in its folder.
pub struct Quotas {
    folders: Counted,
    pub runs: Runs,
}

fn counting(folder: &Folder) -> Option<&Quota> {
    folder.quota.as_ref().filter(|quota| quota.state == State::Complete)
}

fn counting_mut(folder: &mut Folder) -> Option<&mut Quota> {
    folder.quota.as_mut().filter(|quota| quota.state == State::Complete)
}

impl Quotas {
    pub fn new() -> Quotas {
        Quotas { folders: Counted::new(), runs: Runs::new() }
    }

    pub fn is_empty(&self) -> bool {
        self.folders.count() == 0
    }

    // Whether there would be too many, if so many came.
    pub fn would_be_full(&self, coming: usize) -> bool {
        self.folders.count() + coming > MOST_QUOTAS
    }

    pub fn folders(&self) -> impl Iterator<Item = u32> + '_ {
        self.folders.iter()
    }

    pub fn add(&mut self, volume: &mut Volume, folder: u32, quota: Quota) {
        volume.folder_mut(folder).quota = Some(quota);
        self.folders.insert(folder);
    }

    // Takes away the quota of a folder, if there is one.
    pub fn delete(&mut self, volume: &mut Volume, folder: u32) -> Option<Quota> {
        let quota = volume.folder_mut(folder).quota.take()?;
        self.folders.remove(folder);
        Some(quota)
    }

    // Whether bytes may be given to a folder and to those above it, up to another one. The deepest quota refuses that
    // does.
    pub fn judge(&self, volume: &Volume, from: u32, until: u32, bytes: u64) -> Result<(), Refusal> {
        if self.is_empty() || bytes == 0 {
            return Ok(());
        }
        for folder in volume.way_up(from, until) {
            if let Some(quota) = counting(volume.folder(folder)) {
                let (would, limit) = (quota.used + bytes, quota.limit);
                if quota.hard && would > limit {
                    return Err(Refusal::Exceeded { would, limit, folder });
                }
            }
        }
        Ok(())
    }

    // Gives them.
    pub fn gain(&mut self, volume: &mut Volume, from: u32, until: u32, bytes: u64, moment: u32) -> Result<(), Refusal> {
        if self.is_empty() || bytes == 0 {
            return Ok(());
        }
        self.judge(volume, from, until, bytes)?;
        let (mut at, mut crossing) = (from, Vec::new());
        while at != until {
            if let Some(quota) = counting_mut(volume.folder_mut(at)) {
                quota.used += bytes;
                quota.raise_peak(moment);
                if quota.used >= quota.calm.end {
                    crossing.push(at);
                }
            }
            at = volume.node(at).parent;
        }
        self.warn(volume, crossing, bytes, moment);
        Ok(())
    }

    // Has the actions run of the folders that have gained so many bytes, and thereby reached a threshold.
    fn warn(&mut self, volume: &mut Volume, mut crossing: Vec<u32>, bytes: u64, moment: u32) {
        crossing.sort_unstable();
        for folder in crossing {
            if let Some(quota) = counting_mut(volume.folder_mut(folder)) {
                quota.cross(folder, quota.used - bytes, quota.used, moment, &mut self.runs);
            }
        }
    }

    pub fn lose(&self, volume: &mut Volume, from: u32, until: u32, bytes: u64) {
        if self.is_empty() || bytes == 0 {
            return;
        }
        let mut at = from;
        while at != until {
            if let Some(quota) = counting_mut(volume.folder_mut(at)) {
                quota.used -= bytes;
                if quota.used < quota.calm.start {
                    quota.calm_down();
                }
            }
            at = volume.node(at).parent;
        }
    }

    // A file of the folder gets another size.
    pub fn resize(&mut self, volume: &mut Volume, folder: u32, old: u64, new: u64, moment: u32) -> Result<(), Refusal> {
        self.lose(volume, folder, NOWHERE, old.saturating_sub(new));
        self.gain(volume, folder, NOWHERE, new.saturating_sub(old), moment)
    }

    // Whether a node may go into another folder.
    pub fn judge_move(&self, volume: &Volume, node: u32, to: u32) -> Result<(), Refusal> {
        let from = volume.node(node).parent;
        if self.is_empty() || from == to {
            return Ok(());
        }
        self.judge(volume, to, volume.meeting(from, to), volume.usage(node))
    }

    // Something goes from one folder into another. From where their ways up meet nothing changes.
    pub fn carry(&mut self, volume: &mut Volume, node: u32, to: u32, moment: u32) -> Result<(), Refusal> {
        let from = volume.node(node).parent;
        if self.is_empty() || from == to {
            return Ok(());
        }
        let (bytes, meeting) = (volume.usage(node), volume.meeting(from, to));
        self.gain(volume, to, meeting, bytes, moment)?;
        self.lose(volume, from, meeting, bytes);
        Ok(())
    }
}

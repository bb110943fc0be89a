// The scans that count what folders hold, one after another.
//
// A folder is visited if it bears the number of the active scan; then its parent is visited too, or it is the scanned
// folder. So the next scan begins with no folder visited.
use crate::numbers::Numbers;
use crate::volume::{Node, Volume};
use std::collections::VecDeque;

pub struct Scans {
    // the folders of the rebuilding quotas; the first one is scanned
    queue: VecDeque<u32>,
    number: u32,
    // the folders to be visited whose parents are visited, and the scanned one as long as it isn't
    topmost: Numbers,
    pub counted: u64,
}

impl Scans {
    pub fn new() -> Scans {
        Scans { queue: VecDeque::new(), number: 1, topmost: Numbers::new(), counted: 0 }
    }

    pub fn active(&self) -> Option<u32> {
        self.queue.front().copied()
    }

    // How many folders wait, the scanned one among them.
    pub fn waiting(&self) -> usize {
        self.queue.len()
    }

    pub fn is_finished(&self) -> bool {
        self.topmost.least().is_none()
    }

    pub fn join(&mut self, folder: u32) {
        self.queue.push_back(folder);
        if self.queue.len() == 1 {
            self.begin();
        }
    }

    pub fn leave(&mut self, folder: u32) {
        if let Some(place) = self.queue.iter().position(|waiting| *waiting == folder) {
            self.queue.remove(place);
            if place == 0 {
                self.begin();
            }
        }
    }

    // If no folder waits there is nothing to visit, and no folder bears the number.
    fn begin(&mut self) {
        self.topmost.clear();
        self.queue.front().into_iter().for_each(|folder| self.topmost.insert(*folder));
        (self.number, self.counted) = (self.number + 1, 0);
    }

    pub fn has_visited(&self, volume: &Volume, folder: u32) -> bool {
        volume.folder(folder).visited_by == self.number
    }

    // Visits the topmost folder of the least number, if any is left.
    pub fn visit(&mut self, volume: &mut Volume) -> bool {
        let Some(number) = self.topmost.pop_least() else { return false };
        volume.folder_mut(number).visited_by = self.number;
        for child in &volume.folder(number).children {
            self.meet(*child, volume.node(*child));
        }
        true
    }

    // A node that comes to stand in a visited folder: a folder is to be visited, a file counts.
    pub fn meet(&mut self, number: u32, node: &Node) {
        match node.folder {
            Some(_) => self.topmost.insert(number),
            None => self.counted += node.allocated(),
        }
    }

    // Takes a node that leaves a visited folder, and what is visited below it, out of the scan.
    pub fn forget(&mut self, volume: &mut Volume, number: u32) {
        let mut left = vec![number];
        while let Some(number) = left.pop() {
            let node = volume.node_mut(number);
            let bytes = node.allocated();
            match &mut node.folder {
                None => self.counted -= bytes,
                Some(folder) if folder.visited_by == self.number => {
                    folder.visited_by = 0;
                    left.extend(&folder.children);
                }
                Some(_) => self.topmost.remove(number),
            }
        }
    }
}

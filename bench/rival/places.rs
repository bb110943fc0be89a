// Which node has which place: a hash table with open addresses, whose keys are hashes of a folder and a name. Groups
// have such tables too, for their names and endings.
pub struct Places {
    slots: Vec<Slot>,
    taken: usize,
    // a hash without so many bits is the slot where its search begins
    shift: u32,
}

#[derive(Clone, Copy)]
struct Slot {
    hash: u32,
    node: u32,
}

const EMPTY: Slot = Slot { hash: 0, node: u32::MAX };

impl Slot {
    fn is_empty(self) -> bool {
        self.node == EMPTY.node
    }
}

impl Places {
    pub fn new() -> Places {
        Places { slots: vec![EMPTY; 1_024], taken: 0, shift: 22 }
    }

    fn start(&self, hash: u32) -> usize {
        (hash >> self.shift) as usize
    }

    fn next(&self, slot: usize) -> usize {
        (slot + 1) & (self.slots.len() - 1)
    }

    pub fn find(&self, hash: u32, is_it: impl Fn(u32) -> bool) -> Option<u32> {
        let mut at = self.start(hash);
        loop {
            let slot = self.slots[at];
            if slot.is_empty() {
                return None;
            }
            if slot.hash == hash && is_it(slot.node) {
                return Some(slot.node);
            }
            at = self.next(at);
        }
    }

    // Shows all that have this hash.
    pub fn each(&self, hash: u32, mut show: impl FnMut(u32)) {
        let mut at = self.start(hash);
        while !self.slots[at].is_empty() {
            if self.slots[at].hash == hash {
                show(self.slots[at].node);
            }
            at = self.next(at);
        }
    }

    pub fn insert(&mut self, hash: u32, node: u32) {
        if self.taken * 4 >= self.slots.len() * 3 {
            let slots = vec![EMPTY; self.slots.len() * 2];
            let before = std::mem::replace(&mut self.slots, slots);
            self.shift -= 1;
            before.into_iter().filter(|slot| !slot.is_empty()).for_each(|slot| self.put(slot));
        }
        self.taken += 1;
        self.put(Slot { hash, node });
    }

    fn put(&mut self, slot: Slot) {
        let mut at = self.start(slot.hash);
        while !self.slots[at].is_empty() {
            at = self.next(at);
        }
        self.slots[at] = slot;
    }

    // Takes a node out, and moves those after it down that would no longer be found.
    pub fn remove(&mut self, hash: u32, node: u32) {
        let mut gap = self.start(hash);
        while self.slots[gap].node != node {
            gap = self.next(gap);
        }
        self.taken -= 1;
        let mut at = self.next(gap);
        while !self.slots[at].is_empty() {
            let from_start = at.wrapping_sub(self.start(self.slots[at].hash)) & (self.slots.len() - 1);
            let from_gap = at.wrapping_sub(gap) & (self.slots.len() - 1);
            if from_start >= from_gap {
                self.slots[gap] = self.slots[at];
                gap = at;
            }
            at = self.next(at);
        }
        self.slots[gap] = EMPTY;
    }
}

// A set of numbers below 65,536: a bit for each, and above each 64 bits one that tells whether any of them is set.
pub struct Numbers {
    levels: [Vec<u64>; 3],
}

impl Numbers {
    pub fn new() -> Numbers {
        Numbers { levels: [vec![0; 1_024], vec![0; 16], vec![0; 1]] }
    }

    pub fn clear(&mut self) {
        self.levels.iter_mut().for_each(|level| level.fill(0));
    }

    pub fn insert(&mut self, number: u32) {
        let mut at = number as usize;
        for level in &mut self.levels {
            level[at / 64] |= 1 << (at % 64);
            at /= 64;
        }
    }

    pub fn remove(&mut self, number: u32) {
        let mut at = number as usize;
        for level in &mut self.levels {
            level[at / 64] &= !(1 << (at % 64));
            if level[at / 64] != 0 {
                return;
            }
            at /= 64;
        }
    }

    pub fn least(&self) -> Option<u32> {
        let least = |at: usize, level: &Vec<u64>| at * 64 + level[at].trailing_zeros() as usize;
        (self.levels[2][0] != 0).then(|| self.levels.iter().rev().fold(0, least) as u32)
    }

    pub fn pop_least(&mut self) -> Option<u32> {
        let least = self.least()?;
        self.remove(least);
        Some(least)
    }

    // All of them, in rising order.
    pub fn iter(&self) -> impl Iterator<Item = u32> + '_ {
        let words = self.levels[0].iter().enumerate().filter(|(_, word)| **word != 0);
        words
            .flat_map(|(at, word)| (0..64).filter(move |bit| word >> bit & 1 == 1).map(move |bit| at as u32 * 64 + bit))
    }
}

// A set of them, and how many it has.
pub struct Counted {
    numbers: Numbers,
    count: usize,
}

impl Counted {
    pub fn new() -> Counted {
        Counted { numbers: Numbers::new(), count: 0 }
    }

    pub fn count(&self) -> usize {
        self.count
    }

    pub fn iter(&self) -> impl Iterator<Item = u32> + '_ {
        self.numbers.iter()
    }

    // Puts a number in that isn't there.
    pub fn insert(&mut self, number: u32) {
        self.numbers.insert(number);
        self.count += 1;
    }

    // Takes a number out that is there.
    pub fn remove(&mut self, number: u32) {
        self.numbers.remove(number);
        self.count -= 1;
    }
}

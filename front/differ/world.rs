// Sets, tables and ranks of one side, changed and asked by numbers that come by chance. It is included once for each side,
// below `use SIDE as it;`. Each step answers a digest of all that its calls answered and left. Most calls are those that
// front/calls makes.
use it::{BitRows, Block, FixedBitSet, Ranks};

include!("made_world.rs");

/// How many of the calls are by hand.
const BY_HAND: usize = 21;

pub struct World {
    sets: Vec<FixedBitSet>,
    table: BitRows,
    random: u64,
    digest: u64,
    /// The call of the last step, and what its calls answered, to be shown.
    pub said: (usize, Vec<u64>),
}

impl World {
    pub fn new(start: u64) -> Self {
        World {
            sets: (0..6).map(|_| FixedBitSet::new()).collect(),
            table: BitRows::new(3, 70),
            random: start.wrapping_mul(0x9e37_79b9_7f4a_7c15) | 1,
            digest: 0,
            said: (0, Vec::new()),
        }
    }

    fn word(&mut self) -> u64 {
        self.random ^= self.random << 13;
        self.random ^= self.random >> 7;
        self.random ^= self.random << 17;
        self.random.wrapping_mul(0x2545_f491_4f6c_dd1d)
    }

    fn below(&mut self, bound: usize) -> usize {
        (self.word() >> 33) as usize % bound.max(1)
    }

    /// A length: few are long.
    fn length(&mut self) -> usize {
        let most = match self.below(64) {
            0 => 70_000,
            1..8 => 5_000,
            8..24 => 700,
            24..40 => 256,
            _ => 130,
        };
        match self.below(4) {
            0 => 64 * self.below(most / 64 + 1),
            _ => self.below(most + 1),
        }
    }

    /// A position or a number near the length, or past it.
    fn near(&mut self, length: usize) -> usize {
        match self.below(8) {
            0 => length,
            1 => length + self.below(200),
            2 => 64 * self.below(length / 64 + 2),
            _ => self.below(length + 1),
        }
    }

    fn range(&mut self, length: usize) -> (usize, usize) {
        let (a, b) = (self.near(length).min(length), self.near(length).min(length));
        (a.min(b), a.max(b))
    }

    /// A word: few have no pattern.
    fn block(&mut self) -> Block {
        let (a, b) = (self.word(), self.word());
        (match self.below(6) {
            0 => 0,
            1 => u64::MAX,
            2 => a & b & self.word() & self.word(),
            3 => !(a & b),
            4 => u64::MAX << (a % 64),
            _ => a,
        }) as Block
    }

    fn say(&mut self, answer: u64) {
        self.said.1.push(answer);
        self.digest = (self.digest ^ answer)
            .wrapping_mul(0x1000_0000_01b3)
            .rotate_left(23);
    }

    fn say_if(&mut self, answer: Option<usize>) {
        self.say(answer.map_or(u64::MAX, |it| it as u64));
    }

    /// Calls a walk from both ends by chance, and then to its end where it is not long.
    fn walk(&mut self, mut walk: impl DoubleEndedIterator<Item = usize>) {
        let (low, high) = walk.size_hint();
        self.say(low as u64);
        self.say_if(high);
        let bits = self.word();
        for turn in 0..self.below(40) {
            let item = if bits >> (turn % 64) & 1 == 1 {
                walk.next()
            } else {
                walk.next_back()
            };
            self.say_if(item);
        }
        let rest = walk
            .take(3000)
            .fold(0_u64, |made, item| made.wrapping_mul(31) ^ item as u64);
        self.say(rest);
    }

    fn walk_pairs(&mut self, mut walk: impl DoubleEndedIterator<Item = (usize, usize)>) {
        let bits = self.word();
        for turn in 0..self.below(20) {
            let item = if bits >> turn & 1 == 1 {
                walk.next()
            } else {
                walk.next_back()
            };
            self.say_if(item.map(|it| it.0));
            self.say_if(item.map(|it| it.1));
        }
        let rest = walk.take(500).fold(0_u64, |made, it| {
            made.wrapping_mul(31) ^ (it.0 as u64) << 20 ^ it.1 as u64
        });
        self.say(rest);
    }

    fn filled(&mut self) -> FixedBitSet {
        let length = self.length();
        let count = self.near(length / 64 + 1);
        let blocks: Vec<Block> = (0..count).map(|_| self.block()).collect();
        FixedBitSet::with_capacity_and_blocks(length, blocks)
    }

    /// A list of numbers near the length.
    fn numbers(&mut self, length: usize) -> Vec<usize> {
        (0..self.below(9)).map(|_| self.near(length)).collect()
    }

    /// A list of positions below the length, where there is one.
    fn positions(&mut self, length: usize) -> Vec<usize> {
        (0..self.below(9)).map(|_| self.below(length)).collect()
    }

    /// One step, and its digest.
    pub fn step(&mut self) -> u64 {
        let (one, two, three) = (self.below(6), self.below(6), self.below(6));
        let mut set = std::mem::take(&mut self.sets[one]);
        let (other, third) = (self.sets[two].clone(), self.sets[three].clone());
        let call = self.below(BY_HAND + MADE.len());
        self.said = (call, Vec::new());
        match call {
            0..6 => set = self.filled(),
            6 => set = FixedBitSet::with_capacity(self.length()),
            7 => set = &other & &third,
            8 => set = &other | &third,
            9 => set = &other ^ &third,
            10..12 => self.compare(&set, &other),
            12..14 => self.parts(&mut set, &other, call),
            14 => self.walk(set.clone().into_ones()),
            15..BY_HAND => self.rank_and_tabulate(&set, call),
            _ => MADE[call - BY_HAND](self, &mut set, &other, &third),
        }
        self.say(set.len() as u64);
        let mixed = |made: u64, word: &Block| {
            (made ^ *word as u64)
                .wrapping_mul(0x1000_0000_01b3)
                .rotate_left(31)
        };
        let left = set
            .as_slice()
            .iter()
            .fold(set.as_slice().len() as u64, mixed);
        self.say(left);
        self.sets[one] = set;
        self.digest
    }

    fn compare(&mut self, set: &FixedBitSet, other: &FixedBitSet) {
        let bit = self.near(set.len());
        self.say(set[bit] as u64);
        self.say((set == other) as u64);
        self.say(set.cmp(other) as u64);
    }

    fn parts(&mut self, set: &mut FixedBitSet, other: &FixedBitSet, call: usize) {
        if call == 12 {
            let (start, end) = self.range(other.len());
            *set = other.slice(start..end);
            return;
        }
        let bytes = set.to_bytes();
        bytes
            .iter()
            .step_by(7)
            .for_each(|byte| self.say(*byte as u64));
        let (length, count) = (self.length(), self.near(bytes.len()).min(bytes.len()));
        *set = FixedBitSet::from_bytes(length, &bytes[..count]);
    }

    fn rank_and_tabulate(&mut self, set: &FixedBitSet, call: usize) {
        match call {
            15 | 16 => {
                let ranks = Ranks::of(set);
                for _ in 0..4 {
                    let (position, index) = (self.near(set.len()), self.near(set.len() / 2));
                    self.say(ranks.rank(position) as u64);
                    self.say_if(ranks.select(index));
                }
            }
            17 => self.table = BitRows::new(self.below(7), self.below(300)),
            18 | 19 if self.table.rows() > 0 && self.table.columns() > 0 => self.change_table(),
            _ => {
                let mut table = self.table.clone();
                table.close();
                (0..table.rows()).for_each(|row| self.walk(table.row(row)));
            }
        }
    }

    fn change_table(&mut self) {
        let (rows, columns) = (self.table.rows(), self.table.columns());
        for _ in 0..20 {
            let (row, column, enabled) = (self.below(rows), self.below(columns), self.below(4) > 0);
            self.table.set(row, column, enabled);
            let (row, column) = (self.below(rows + 1), self.near(columns));
            self.say(self.table.get(row, column) as u64);
        }
        let (from, into) = (self.below(rows), self.below(rows));
        let changed = self.table.union_rows(from, into);
        self.say(changed as u64);
    }
}

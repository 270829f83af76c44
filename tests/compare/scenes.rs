//! Scenarios from a seed: sizes, memory sound or damaged, keys that meet each other, handles and walks true, stale and forged.

use crate::rows::key_of;
use crate::rules::{Answer, Call, End, Key, Kind, Table, KINDS};

/// SplitMix64.
pub struct Random(pub u64);

impl Random {
    pub fn next(&mut self) -> u64 {
        self.0 = self.0.wrapping_add(0x9E37_79B9_7F4A_7C15);
        let z = (self.0 ^ (self.0 >> 30)).wrapping_mul(0xBF58_476D_1CE4_E5B9);
        let z = (z ^ (z >> 27)).wrapping_mul(0x94D0_49BB_1331_11EB);
        z ^ (z >> 31)
    }

    pub fn below(&mut self, bound: u64) -> u64 {
        self.next() % bound
    }

    /// True once in `times`.
    pub fn once_in(&mut self, times: u64) -> bool {
        self.below(times) == 0
    }

    pub fn pick<T: Clone>(&mut self, of: &[T]) -> T {
        of[self.below(of.len() as u64) as usize].clone()
    }
}

/// What the memory of a scenario is at first.
#[derive(Clone, Copy, PartialEq)]
pub enum Memory {
    /// Filled by the table's own calls.
    Sound,
    /// That, with some places changed.
    Touched,
    /// Anything.
    Any,
}

/// A scenario before its calls.
pub struct Scene {
    pub kind: Kind,
    pub memory: Memory,
    pub tables: [Table; 2],
    pub keys: Vec<Key>,
    pub calls: u64,
    /// Whether sizes or memory are such that much is refused.
    refusing: bool,
    /// The slot that the last entry or fill answered.
    last: Option<(Key, u64)>,
    /// Inserts that reserve said there is room for, and their table.
    due: Vec<(usize, Call)>,
}

/// How often each call is chosen, in the order of `Scene::call`: on sound tables, and on damaged ones of right sizes.
const CHANGING: [u64; 20] = [4, 4, 2, 2, 1, 1, 6, 8, 8, 12, 22, 6, 3, 7, 5, 5, 5, 5, 6, 6];
const DAMAGED: [u64; 20] = [4, 4, 1, 1, 1, 1, 6, 10, 10, 10, 16, 14, 8, 16, 10, 10, 10, 10, 12, 12];

const SMALL: [usize; 9] = [1, 2, 3, 4, 5, 7, 8, 13, 16];
const LARGE: [usize; 6] = [64, 100, 1_024, 1_025, 4_095, 4_096];
const ARENAS: [usize; 10] = [0, 1, 3, 8, 20, 40, 64, 300, 600, 32_768];

fn word(random: &mut Random) -> u64 {
    match random.below(8) {
        0 => u64::MAX - random.below(3),
        1 => random.next(),
        2 => 1 << random.below(64),
        _ => random.below(40),
    }
}

/// Most often few slots, so that keys meet each other.
fn small(random: &mut Random) -> usize {
    if random.once_in(10) {
        1 + random.below(120) as usize
    } else {
        random.pick(&SMALL)
    }
}

fn some_key(random: &mut Random, kind: Kind) -> Key {
    if !kind.bytes {
        return Key::Word(word(random));
    }
    let length = match random.below(24) {
        0 => 255,
        1 => 256 + random.below(3),
        2..=4 => 0,
        5 => random.below(256),
        _ => random.below(5),
    };
    Key::Bytes((0..length).map(|_| b'a' + random.below(3) as u8).collect())
}

impl Scene {
    pub fn new(random: &mut Random, number: u64) -> Scene {
        let kind = KINDS[(number % 4) as usize];
        let large = number % 50 >= 46;
        let slots = if large { LARGE[(number / 50 % 6) as usize] } else { small(random) };
        let memory = match random.below(5) {
            0 => Memory::Any,
            1 | 2 => Memory::Touched,
            _ => Memory::Sound,
        };
        let pool = if large { 60 } else { slots as u64 + 3 };
        let keys: Vec<Key> = (0..pool).map(|_| some_key(random, kind)).collect();
        let long_run = !large && memory == Memory::Sound && random.once_in(12);
        let calls = if long_run { 400 } else if large { 12 } else { 20 + random.below(30) };
        let arena = random.pick(&ARENAS);
        let tables = [Scene::table(random, kind, memory, slots, arena, &keys, large), Scene::second(random, kind, memory, slots, arena, &keys)];
        let mut scene = Scene { kind, memory, tables, keys, calls, refusing: memory != Memory::Sound, last: None, due: Vec::new() };
        if random.once_in(6) {
            scene.refusing = true;
            scene.missize(random);
        }
        scene
    }

    /// The second table: of the same sizes, or of others.
    fn second(random: &mut Random, kind: Kind, memory: Memory, slots: usize, arena: usize, keys: &[Key]) -> Table {
        let slots = if random.once_in(2) { slots.min(100) } else { small(random) };
        let arena = if random.once_in(2) { arena } else { random.pick(&ARENAS) };
        let memory = if memory == Memory::Touched && random.once_in(2) { Memory::Sound } else { memory };
        Scene::table(random, kind, memory, slots, arena, keys, false)
    }

    fn table(random: &mut Random, kind: Kind, memory: Memory, slots: usize, arena: usize, keys: &[Key], large: bool) -> Table {
        let tight = !large && random.once_in(3);
        let mut table = Table::made(kind, slots, if tight { 32_768 } else { arena });
        let other = table.clone();
        let most = slots.min(keys.len()) as u64;
        let puts = if tight { 12 * most } else { random.below(2 * most + 2) };
        for _ in 0..puts {
            let key = random.pick(keys);
            if random.once_in(4) {
                table.call(&other, &Call::Remove(key));
            } else {
                table.call(&other, &Call::Insert(key, word(random)));
            }
        }
        if large {
            Scene::crowd(random, &mut table);
        } else if tight {
            let room = table.used() + random.below(3);
            table.arena.truncate(room as usize);
        }
        match memory {
            Memory::Sound => (),
            Memory::Touched => (0..=random.below(3)).for_each(|_| Scene::touch(random, &mut table)),
            Memory::Any => (0..slots).for_each(|i| Scene::strew(random, &mut table, i)),
        }
        table
    }

    /// Fills a large table, all of it or but for a few slots.
    fn crowd(random: &mut Random, table: &mut Table) {
        let other = table.clone();
        let left = random.pick(&[0, 1, table.slots() / 10, table.slots() / 2]);
        let mut next = 1_000;
        while table.live().len() + left < table.slots() {
            next += 1;
            let key = if table.kind.bytes { Key::Bytes(format!("{next}").into_bytes()) } else { Key::Word(next) };
            if let Answer::Refused(_) = table.call(&other, &Call::Insert(key, next)) {
                return;
            }
        }
    }

    /// Changes one place of a table.
    fn touch(random: &mut Random, t: &mut Table) {
        let i = random.below(t.slots() as u64) as usize;
        let j = random.below(t.slots() as u64) as usize;
        match random.below(8) {
            0 => t.marks[i] = random.below(3),
            1 => t.marks[i] = random.pick(&[3, 4, 255]),
            2 if t.kind.bytes => (t.offsets[i], t.lengths[i]) = (t.offsets[j], t.lengths[j]),
            2 => t.keys[i] = t.keys[j],
            3 | 6 if t.kind.bytes => t.offsets[i] = random.below(t.arena.len() as u64 + 2),
            4 | 7 if t.kind.bytes => t.lengths[i] = random.below(4),
            5 if t.kind.bytes && !t.arena.is_empty() => {
                let at = random.below(t.arena.len() as u64) as usize;
                t.arena[at] = u64::from(b'a') + random.below(3);
            }
            _ => t.marks[i] = 1,
        }
    }

    /// Puts anything into a slot.
    fn strew(random: &mut Random, t: &mut Table, i: usize) {
        t.marks[i] = if random.once_in(12) { 3 + random.below(253) } else { random.below(3) };
        if t.kind.values {
            t.values[i] = word(random);
        }
        if !t.kind.bytes {
            t.keys[i] = word(random);
            return;
        }
        t.offsets[i] = if random.once_in(6) { random.below(65_536) } else { random.below(t.arena.len() as u64 + 1) };
        t.lengths[i] = if random.once_in(6) { random.below(256) } else { random.below(4) };
    }

    /// Gives the first table, or the second, a list of another length, no slots, too many, or too large an arena.
    fn missize(&mut self, random: &mut Random) {
        let which = random.below(3).min(1) as usize;
        let t = &mut self.tables[1 - which];
        match random.below(7) {
            0 => *t = Table::made(self.kind, 0, t.arena.len()),
            1 => *t = Table::made(self.kind, 4_097, t.arena.len()),
            2 => t.marks.push(0),
            3 if t.kind.values => t.values.push(7),
            4 if t.kind.bytes => t.arena = vec![0; 32_769],
            5 if t.kind.bytes => t.lengths.push(1),
            _ if t.kind.bytes => t.offsets.push(1),
            _ => t.keys.push(1),
        }
    }

    fn slot(&mut self, random: &mut Random, on: usize, key: &Key) -> u64 {
        let t = &self.tables[on];
        let slots = t.slots() as u64;
        match random.below(8) {
            0 => slots + random.below(2),
            1 => word(random),
            2 => random.below(slots.max(1)),
            3 => self.last.as_ref().map_or(0, |last| last.1),
            4 if t.sized() => (0..t.slots()).find(|i| t.damaged(*i)).unwrap_or(0) as u64,
            _ if t.sized() && key.room() <= 255 => {
                let path = t.path(key);
                match path.end {
                    End::Holds(slot) => slot as u64,
                    _ => path.free.map_or(slots, |slot| slot as u64),
                }
            }
            _ => 0,
        }
    }

    /// A key: most often one of the scenario's, now and then the last entry's.
    fn key(&mut self, random: &mut Random, on: usize) -> Key {
        let t = &self.tables[on];
        let live = if t.sized() { t.live() } else { Vec::new() };
        match random.below(8) {
            0 | 1 if self.refusing && self.kind.bytes => Key::Bytes(vec![b'a'; 256 + random.below(3) as usize]),
            0 => some_key(random, self.kind),
            2 if self.last.is_some() => self.last.as_ref().unwrap().0.clone(),
            3 if !live.is_empty() => {
                let slot = random.pick(&live);
                if t.damaged(slot) { some_key(random, self.kind) } else { t.key_at(slot) }
            }
            _ => random.pick(&self.keys),
        }
    }

    /// Reserve: of a few keys, by the slots, or by what is left, and one more; of byte tables the same for the bytes.
    fn reserve(&self, random: &mut Random, on: usize) -> Call {
        let t = &self.tables[on];
        let slots = t.slots() as u64;
        let (free, left) = if t.sized() { (slots - t.live().len() as u64, (t.arena.len() as u64).saturating_sub(t.used())) } else { (slots, 0) };
        let keys = random.pick(&[0, 1, 2, 3, 5, slots / 2, slots + 1, free, free, free + 1, u64::MAX]);
        let bytes = random.pick(&[0, 1, 4, 8, 12, 20, left / 2, left, left, left + 1, left + 1, u64::MAX]);
        Call::Reserve(keys, if self.kind.bytes { bytes } else { 0 })
    }

    /// Puts inserts on the list that reserve said there is room for: different keys that are not there, up to so many and so many bytes; the
    /// last of so many takes all bytes that are left.
    pub fn spend(&mut self, random: &mut Random, on: usize, keys: u64, bytes: u64) {
        let t = &self.tables[on];
        let mut taken: Vec<Key> = t.live().into_iter().map(|i| t.key_at(i)).collect();
        let mut left = bytes;
        for turn in 1..=keys.min(8) {
            let length = if turn == keys { left.min(255) } else { random.below(left.min(5) + 1) };
            let tries = (0..4).map(|_| Scene::random_key(random, self.kind, length)).collect::<Vec<Key>>();
            if let Some(key) = tries.into_iter().find(|key| !taken.contains(key)) {
                left -= key.room();
                self.due.push((on, Call::Insert(key.clone(), word(random))));
                taken.push(key);
            }
        }
    }

    /// Any key; a byte key of this length.
    fn random_key(random: &mut Random, kind: Kind, length: u64) -> Key {
        match kind.bytes {
            true => Key::Bytes((0..length).map(|_| b'a' + random.below(9) as u8).collect()),
            false => Key::Word(word(random)),
        }
    }

    /// The next of these inserts, in any order; now and then another call comes between them.
    pub fn due(&mut self, random: &mut Random) -> Option<(usize, Call)> {
        if self.due.is_empty() || random.once_in(6) {
            return None;
        }
        let at = random.below(self.due.len() as u64) as usize;
        Some(self.due.swap_remove(at))
    }

    /// A call on a table; steps of walks that are kept are not made here.
    pub fn call(&mut self, random: &mut Random, on: usize) -> Call {
        let key = self.key(random, on);
        let value = word(random);
        let slot = self.slot(random, on, &key);
        let slots = self.tables[on].slots() as u64;
        match self.choice(random, on) {
            0 => Call::Len,
            1 => Call::IsEmpty,
            2 => Call::Capacity,
            3 => Call::Copy,
            4 => Call::Make,
            5 => Call::Clear,
            6 => self.reserve(random, on),
            7 => Call::Get(key),
            8 => Call::Contains(key),
            9 => Call::Remove(key),
            10 => Call::Insert(key, value),
            11 => Call::Step(random.pick(&[0, slots / 2, slots, slots + 1, u64::MAX, slot, slot, slot]), random.pick(&[0, 0, 1, 2, slots, u64::MAX])),
            12 => Call::Union,
            13 => Call::Entry(key),
            14 => Call::OccupiedGet(key, slot),
            15 => Call::OccupiedSet(key, slot, value),
            16 => Call::OccupiedRemove(key, slot),
            17 => Call::VacantInsert(key, slot, value),
            18 => Call::OrInsert(key, random.once_in(2), slot, value),
            _ => Call::InsertEntry(key, random.once_in(2), slot, value),
        }
    }

    /// The number of a call: where much is refused, any of them, but seldom one that puts damage away.
    fn choice(&self, random: &mut Random, on: usize) -> usize {
        let calls = if self.kind.values { 20 } else { 12 };
        let weights = match (self.refusing, self.tables[on].sized()) {
            (false, _) => &CHANGING,
            (true, true) => &DAMAGED,
            (true, false) => &[1; 20],
        };
        let mut at = random.below(weights[..calls].iter().sum());
        let mut call = 0;
        while at >= weights[call] {
            at -= weights[call];
            call += 1;
        }
        call
    }

    /// Keeps the slot that an entry or a fill answered.
    pub fn note(&mut self, call: &Call, answer: &Answer) {
        if let Answer::Occupied { slot, .. } | Answer::Vacant { slot, .. } | Answer::HandleNow { slot, .. } = answer {
            self.last = key_of(call).map(|key| (key.clone(), *slot as u64));
        }
    }
}

//! The slot rules of the scope, written from its words alone: tables as plain lists, calls, answers and refusals, on any memory.

/// A kind of table.
#[derive(Clone, Copy, PartialEq, Eq, Debug)]
pub struct Kind {
    pub name: &'static str,
    pub bytes: bool,
    pub values: bool,
}

pub const KINDS: [Kind; 4] = [
    Kind { name: "intmap", bytes: false, values: true },
    Kind { name: "intset", bytes: false, values: false },
    Kind { name: "bytemap", bytes: true, values: true },
    Kind { name: "byteset", bytes: true, values: false },
];

#[derive(Clone, PartialEq, Eq, Hash, Debug)]
pub enum Key {
    Word(u64),
    Bytes(Vec<u8>),
}

impl Key {
    /// The bytes that are digested: a word's eight, low byte first.
    fn digested(&self) -> Vec<u8> {
        match self {
            Key::Word(word) => word.to_le_bytes().to_vec(),
            Key::Bytes(bytes) => bytes.clone(),
        }
    }

    /// How many arena bytes the key takes.
    pub fn room(&self) -> u64 {
        match self {
            Key::Word(_) => 0,
            Key::Bytes(bytes) => bytes.len() as u64,
        }
    }
}

pub fn digest(start: u64, bytes: &[u8]) -> u64 {
    bytes.iter().fold(start, |hash, byte| (hash ^ u64::from(*byte)).wrapping_mul(1_099_511_628_211))
}

pub const START: u64 = 14_695_981_039_346_656_037;

/// A table's lent lists; those that its kind does not have are empty.
#[derive(Clone, PartialEq, Debug)]
pub struct Table {
    pub kind: Kind,
    pub marks: Vec<u64>,
    pub keys: Vec<u64>,
    pub offsets: Vec<u64>,
    pub lengths: Vec<u64>,
    pub values: Vec<u64>,
    pub arena: Vec<u64>,
}

/// How a path ends.
#[derive(Clone, Copy, PartialEq)]
pub enum End {
    Holds(usize),
    Missing,
    Damaged,
}

/// A key's path: its end, how many slots it examined, and the first of them with mark 0 or 2.
pub struct Path {
    pub end: End,
    pub examined: u64,
    pub free: Option<usize>,
}

/// Where insert would put a key.
enum Place {
    Present(usize, u64),
    Free(usize, u64),
}

#[derive(Clone, PartialEq, Debug)]
pub enum Call {
    Make,
    Clear,
    Len,
    IsEmpty,
    Capacity,
    Reserve(u64, u64),
    Get(Key),
    Contains(Key),
    Remove(Key),
    Insert(Key, u64),
    Entry(Key),
    OccupiedGet(Key, u64),
    OccupiedRemove(Key, u64),
    OccupiedSet(Key, u64, u64),
    VacantInsert(Key, u64, u64),
    OrInsert(Key, bool, u64, u64),
    InsertEntry(Key, bool, u64, u64),
    Step(u64, u64),
    Union,
    Copy,
}

#[derive(Clone, PartialEq, Debug)]
pub enum Answer {
    Refused(u64),
    Done,
    Length(u64),
    Empty(bool),
    Capacity(u64),
    Room,
    Found { value: u64, examined: u64 },
    Present { examined: u64 },
    Absent { examined: u64 },
    Fresh { slot: usize, examined: u64 },
    Replaced { old: u64, slot: usize, examined: u64 },
    Removed { value: u64, slot: usize, examined: u64 },
    Occupied { slot: usize, value: u64, examined: u64 },
    Vacant { slot: usize, examined: u64 },
    HandleValue { slot: usize, value: u64 },
    HandleSet { slot: usize, old: u64 },
    HandleRemoved { value: u64 },
    HandleNow { slot: usize, value: u64 },
    Pair { slot: usize, walk: u64, examined: u64 },
    Nothing { walk: u64, examined: u64 },
    WalkDone { walk: u64 },
}

type Said<T> = Result<T, u64>;

fn refuse_if(condition: bool, number: u64) -> Said<()> {
    if condition {
        Err(number)
    } else {
        Ok(())
    }
}

impl Table {
    /// A made table of these sizes.
    pub fn made(kind: Kind, slots: usize, arena: usize) -> Table {
        let column = |there: bool, count: usize| vec![0; if there { count } else { 0 }];
        Table {
            kind,
            marks: column(true, slots),
            keys: column(!kind.bytes, slots),
            offsets: column(kind.bytes, slots),
            lengths: column(kind.bytes, slots),
            values: column(kind.values, slots),
            arena: column(kind.bytes, arena),
        }
    }

    /// The lists in their order, each with its name and the bytes of an element in the digest.
    pub fn columns(&self) -> Vec<(&'static str, &Vec<u64>, usize)> {
        let mut columns = vec![("marks", &self.marks, 1)];
        if self.kind.bytes {
            columns.push(("offsets", &self.offsets, 2));
            columns.push(("lengths", &self.lengths, 2));
        } else {
            columns.push(("keys", &self.keys, 8));
        }
        if self.kind.values {
            columns.push(("values", &self.values, 8));
        }
        if self.kind.bytes {
            columns.push(("arena", &self.arena, 1));
        }
        columns
    }

    pub fn slots(&self) -> usize {
        self.marks.len()
    }

    pub fn sized(&self) -> bool {
        let slots = self.slots();
        let agree = if self.kind.bytes {
            self.offsets.len() == slots && self.lengths.len() == slots && self.arena.len() <= 32_768
        } else {
            self.keys.len() == slots
        };
        (1..=4_096).contains(&slots) && agree && (!self.kind.values || self.values.len() == slots)
    }

    pub fn live(&self) -> Vec<usize> {
        (0..self.slots()).filter(|i| self.marks[*i] == 1).collect()
    }

    fn ends(&self, i: usize) -> u64 {
        self.offsets[i] + self.lengths[i]
    }

    pub fn damaged(&self, i: usize) -> bool {
        self.marks[i] > 2 || (self.kind.bytes && self.marks[i] == 1 && self.ends(i) > self.arena.len() as u64)
    }

    pub fn any_damaged(&self) -> bool {
        (0..self.slots()).any(|i| self.damaged(i))
    }

    pub fn used(&self) -> u64 {
        if !self.kind.bytes {
            return 0;
        }
        self.live().iter().map(|i| self.lengths[*i]).sum()
    }

    /// Damage as reserve and union look for it, and the calls of byte tables that examine every slot and store.
    pub fn wholly_damaged(&self) -> bool {
        let used = self.used();
        let beyond = self.kind.bytes && (used > self.arena.len() as u64 || self.live().iter().any(|i| self.ends(*i) > used));
        self.any_damaged() || beyond
    }

    pub fn key_at(&self, i: usize) -> Key {
        if !self.kind.bytes {
            return Key::Word(self.keys[i]);
        }
        let span = self.offsets[i] as usize..self.ends(i) as usize;
        Key::Bytes(self.arena[span].iter().map(|byte| *byte as u8).collect())
    }

    pub fn value_at(&self, i: usize) -> u64 {
        self.values.get(i).copied().unwrap_or(0)
    }

    pub fn path(&self, key: &Key) -> Path {
        let slots = self.slots();
        let home = (digest(START, &key.digested()) % slots as u64) as usize;
        let mut free = None;
        for examined in 1..=slots {
            let i = (home + examined - 1) % slots;
            let end = if self.damaged(i) {
                Some(End::Damaged)
            } else if self.marks[i] == 1 && self.key_at(i) == *key {
                Some(End::Holds(i))
            } else {
                if self.marks[i] != 1 {
                    free = free.or(Some(i));
                }
                if self.marks[i] == 0 { Some(End::Missing) } else { None }
            };
            if let Some(end) = end {
                return Path { end, examined: examined as u64, free };
            }
        }
        Path { end: End::Missing, examined: slots as u64, free }
    }

    /// Refusals 1 and 2.
    fn admit(&self, key: &Key) -> Said<()> {
        refuse_if(!self.sized(), 1)?;
        refuse_if(key.room() > 255, 2)
    }

    fn seek(&self, key: &Key) -> Said<Path> {
        self.admit(key)?;
        let path = self.path(key);
        refuse_if(path.end == End::Damaged, 5)?;
        Ok(path)
    }

    fn place(&self, key: &Key) -> Said<Place> {
        self.admit(key)?;
        refuse_if(self.kind.bytes && self.wholly_damaged(), 5)?;
        let path = self.seek(key)?;
        if let End::Holds(slot) = path.end {
            return Ok(Place::Present(slot, path.examined));
        }
        let slot = path.free.ok_or(7u64)?;
        refuse_if(key.room() > self.arena.len() as u64 - self.used(), 8)?;
        Ok(Place::Free(slot, path.examined))
    }

    fn fill(&mut self, slot: usize, key: &Key, value: u64) {
        let used = self.used();
        match key {
            Key::Word(word) => self.keys[slot] = *word,
            Key::Bytes(bytes) => {
                self.offsets[slot] = used;
                self.lengths[slot] = bytes.len() as u64;
                for (i, byte) in bytes.iter().enumerate() {
                    self.arena[used as usize + i] = u64::from(*byte);
                }
            }
        }
        self.marks[slot] = 1;
        self.give(slot, value);
    }

    fn give(&mut self, slot: usize, value: u64) {
        if self.kind.values {
            self.values[slot] = value;
        }
    }

    fn free(&mut self, slot: usize) {
        if self.kind.bytes {
            self.close(slot);
            self.offsets[slot] = 0;
            self.lengths[slot] = 0;
        } else {
            self.keys[slot] = 0;
        }
        self.marks[slot] = 2;
        self.give(slot, 0);
    }

    /// Moves the arena bytes behind a slot's span down, and the offsets with them.
    fn close(&mut self, slot: usize) {
        let (used, end, length) = (self.used() as usize, self.ends(slot), self.lengths[slot]);
        let by = length as usize;
        for i in end as usize..used {
            self.arena[i - by] = self.arena[i];
        }
        self.arena[used - by..used].fill(0);
        for i in self.live() {
            if self.offsets[i] >= end {
                self.offsets[i] -= length;
            }
        }
    }

    fn count(&self) -> Said<u64> {
        refuse_if(!self.sized(), 1)?;
        refuse_if(self.any_damaged(), 5)?;
        Ok(self.live().len() as u64)
    }

    fn insert(&mut self, key: &Key, value: u64) -> Said<Answer> {
        match self.place(key)? {
            Place::Present(slot, examined) => {
                let old = self.value_at(slot);
                self.give(slot, value);
                Ok(Answer::Replaced { old, slot, examined })
            }
            Place::Free(slot, examined) => {
                self.fill(slot, key, value);
                Ok(Answer::Fresh { slot, examined })
            }
        }
    }

    fn remove(&mut self, key: &Key) -> Said<Answer> {
        self.admit(key)?;
        refuse_if(self.kind.bytes && self.wholly_damaged(), 5)?;
        let Path { end, examined, .. } = self.seek(key)?;
        if let End::Holds(slot) = end {
            let value = self.value_at(slot);
            self.free(slot);
            return Ok(Answer::Removed { value, slot, examined });
        }
        Ok(Answer::Absent { examined })
    }

    /// The slot of an occupied handle, where it is good.
    fn held(&self, key: &Key, slot: u64) -> Said<usize> {
        self.admit(key)?;
        refuse_if(slot >= self.slots() as u64, 6)?;
        let slot = slot as usize;
        refuse_if(self.damaged(slot), 5)?;
        refuse_if(self.marks[slot] != 1 || self.key_at(slot) != *key, 6)?;
        Ok(slot)
    }

    fn set_held(&mut self, key: &Key, slot: u64, value: u64) -> Said<(usize, u64)> {
        let slot = self.held(key, slot)?;
        let old = self.value_at(slot);
        self.give(slot, value);
        Ok((slot, old))
    }

    fn remove_held(&mut self, key: &Key, slot: u64) -> Said<Answer> {
        self.admit(key)?;
        refuse_if(self.kind.bytes && self.wholly_damaged(), 5)?;
        let slot = self.held(key, slot)?;
        let value = self.value_at(slot);
        self.free(slot);
        Ok(Answer::HandleRemoved { value })
    }

    fn fill_vacant(&mut self, key: &Key, slot: u64, value: u64) -> Said<Answer> {
        match self.place(key) {
            Ok(Place::Free(free, _)) if free as u64 == slot => {
                self.fill(free, key, value);
                Ok(Answer::HandleNow { slot: free, value })
            }
            Ok(_) => Err(6),
            Err(number) => Err(number.min(6)),
        }
    }

    fn step(&self, walk: u64, budget: u64) -> Said<Answer> {
        let slots = self.slots() as u64;
        refuse_if(!self.sized(), 1)?;
        refuse_if(budget == 0, 3)?;
        refuse_if(walk > slots, 4)?;
        if walk == slots {
            return Ok(Answer::WalkDone { walk });
        }
        let last = walk.saturating_add(budget).min(slots);
        for at in walk..last {
            refuse_if(self.damaged(at as usize), 5)?;
            if self.marks[at as usize] == 1 {
                return Ok(Answer::Pair { slot: at as usize, walk: at + 1, examined: at + 1 - walk });
            }
        }
        Ok(Answer::Nothing { walk: last, examined: last - walk })
    }

    fn union(&mut self, right: &Table) -> Said<Answer> {
        refuse_if(!self.sized() || !right.sized(), 1)?;
        refuse_if(self.wholly_damaged() || right.wholly_damaged(), 5)?;
        let absent: Vec<Key> = right.absent_in(self);
        refuse_if(absent.len() > self.slots() - self.live().len(), 7)?;
        refuse_if(absent.iter().map(Key::room).sum::<u64>() > self.arena.len() as u64 - self.used(), 8)?;
        for i in right.live() {
            self.insert(&right.key_at(i), right.value_at(i))?;
        }
        Ok(Answer::Done)
    }

    /// The keys of live slots that another table's paths do not find, in slot order.
    fn absent_in(&self, other: &Table) -> Vec<Key> {
        let keys = self.live().into_iter().map(|i| self.key_at(i));
        keys.filter(|key| !matches!(other.path(key).end, End::Holds(_))).collect()
    }

    fn copy(&mut self, from: &Table) -> Said<Answer> {
        let equal = self.slots() == from.slots() && self.arena.len() == from.arena.len();
        refuse_if(!self.sized() || !from.sized() || !equal, 1)?;
        *self = from.clone();
        Ok(Answer::Done)
    }

    fn make(&mut self) -> Said<Answer> {
        refuse_if(!self.sized(), 1)?;
        *self = Table::made(self.kind, self.slots(), self.arena.len());
        Ok(Answer::Done)
    }

    fn by_handle(&mut self, call: &Call) -> Said<Answer> {
        match call {
            Call::OccupiedGet(key, slot) | Call::OrInsert(key, true, slot, _) => {
                let slot = self.held(key, *slot)?;
                let value = self.value_at(slot);
                Ok(if matches!(call, Call::OccupiedGet(..)) {
                    Answer::HandleValue { slot, value }
                } else {
                    Answer::HandleNow { slot, value }
                })
            }
            Call::OccupiedSet(key, slot, value) => {
                let (slot, old) = self.set_held(key, *slot, *value)?;
                Ok(Answer::HandleSet { slot, old })
            }
            Call::InsertEntry(key, true, slot, value) => {
                let (slot, _) = self.set_held(key, *slot, *value)?;
                Ok(Answer::HandleNow { slot, value: *value })
            }
            Call::OccupiedRemove(key, slot) => self.remove_held(key, *slot),
            Call::VacantInsert(key, slot, value) | Call::OrInsert(key, false, slot, value) | Call::InsertEntry(key, false, slot, value) => {
                self.fill_vacant(key, *slot, *value)
            }
            _ => unreachable!(),
        }
    }

    fn looked_up(&self, call: &Call) -> Said<Answer> {
        match call {
            Call::Get(key) => {
                let Path { end, examined, .. } = self.seek(key)?;
                Ok(match end {
                    End::Holds(slot) => Answer::Found { value: self.value_at(slot), examined },
                    _ => Answer::Absent { examined },
                })
            }
            Call::Contains(key) => {
                let Path { end, examined, .. } = self.seek(key)?;
                let present = matches!(end, End::Holds(_));
                Ok(if present { Answer::Present { examined } } else { Answer::Absent { examined } })
            }
            Call::Entry(key) => Ok(match self.place(key)? {
                Place::Present(slot, examined) => Answer::Occupied { slot, value: self.value_at(slot), examined },
                Place::Free(slot, examined) => Answer::Vacant { slot, examined },
            }),
            _ => unreachable!(),
        }
    }

    fn perform(&mut self, other: &Table, call: &Call) -> Said<Answer> {
        match call {
            Call::Make | Call::Clear => self.make(),
            Call::Len => self.count().map(Answer::Length),
            Call::IsEmpty => self.count().map(|count| Answer::Empty(count == 0)),
            Call::Capacity => refuse_if(!self.sized(), 1).map(|()| Answer::Capacity(self.slots() as u64)),
            Call::Reserve(keys, bytes) => {
                refuse_if(!self.sized(), 1)?;
                refuse_if(self.wholly_damaged(), 5)?;
                refuse_if(*keys > (self.slots() - self.live().len()) as u64, 7)?;
                refuse_if(*bytes > self.arena.len() as u64 - self.used(), 8).map(|()| Answer::Room)
            }
            Call::Get(_) | Call::Contains(_) | Call::Entry(_) => self.looked_up(call),
            Call::Insert(key, value) => self.insert(key, *value),
            Call::Remove(key) => self.remove(key),
            Call::Step(walk, budget) => self.step(*walk, *budget),
            Call::Union => self.union(other),
            Call::Copy => self.copy(other),
            _ => self.by_handle(call),
        }
    }

    /// Makes a call; the other table is the right of union and the source of copy.
    pub fn call(&mut self, other: &Table, call: &Call) -> Answer {
        self.perform(other, call).unwrap_or_else(Answer::Refused)
    }
}

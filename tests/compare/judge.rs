//! The finite map or set that a table made and changed by its own calls has to be: std's HashMap and HashSet, and the promise of the walk.

use crate::rules::{Answer, Call, Key, Table};
use std::collections::{HashMap, HashSet};

#[derive(Clone, PartialEq, Debug)]
pub enum Finite {
    Map(HashMap<Key, u64>),
    Set(HashSet<Key>),
}

impl Finite {
    fn empty(values: bool) -> Finite {
        if values {
            Finite::Map(HashMap::new())
        } else {
            Finite::Set(HashSet::new())
        }
    }

    /// A key's value, 0 in sets.
    fn get(&self, key: &Key) -> Option<u64> {
        match self {
            Finite::Map(map) => map.get(key).copied(),
            Finite::Set(set) => set.get(key).map(|_| 0),
        }
    }

    /// Puts a key in; the value it had.
    fn insert(&mut self, key: &Key, value: u64) -> Option<u64> {
        match self {
            Finite::Map(map) => map.insert(key.clone(), value),
            Finite::Set(set) => set.replace(key.clone()).map(|_| 0),
        }
    }

    fn remove(&mut self, key: &Key) -> Option<u64> {
        match self {
            Finite::Map(map) => map.remove(key),
            Finite::Set(set) => set.take(key).map(|_| 0),
        }
    }

    fn keys(&self) -> Vec<Key> {
        match self {
            Finite::Map(map) => map.keys().cloned().collect(),
            Finite::Set(set) => set.iter().cloned().collect(),
        }
    }

    /// How many arena bytes its keys take.
    fn used(&self) -> u64 {
        self.keys().iter().map(Key::room).sum()
    }

    fn len(&self) -> usize {
        match self {
            Finite::Map(map) => map.len(),
            Finite::Set(set) => set.len(),
        }
    }

    /// The live slots of a table, decoded.
    fn of(t: &Table) -> Finite {
        let mut finite = Finite::empty(t.kind.values);
        for i in t.live() {
            finite.insert(&t.key_at(i), t.value_at(i));
        }
        finite
    }
}

/// A walk from slot 0: where it stands, its unrefused steps, the keys there since its start, and the keys handed out and not removed since.
struct Walk {
    at: u64,
    steps: u64,
    staying: HashSet<Key>,
    handed: HashSet<Key>,
}

/// What reserve said there is room for: the keys asked for, and how many of them, with how many bytes, are not put in yet.
#[derive(Clone, Copy)]
pub struct Room {
    asked: u64,
    pub keys: u64,
    pub bytes: u64,
}

/// What is known of a table: its finite map, where it was made and changed by its own calls, its walks, and what reserve said there is room
/// for.
#[derive(Default)]
pub struct Judge {
    finite: Option<Finite>,
    walks: Vec<Walk>,
    room: Option<Room>,
}

type Verdict = Result<(), String>;

fn hold(fact: bool, words: &str) -> Verdict {
    if fact {
        Ok(())
    } else {
        Err(words.to_string())
    }
}

impl Judge {
    /// A table that was made and changed by its own calls.
    pub fn of_reachable(t: &Table) -> Judge {
        Judge { finite: Some(Finite::of(t)), walks: Vec::new(), room: None }
    }

    /// Starts a walk; its number.
    pub fn start_walk(&mut self) -> Option<usize> {
        let staying = self.finite.as_ref()?.keys().into_iter().collect();
        self.walks.push(Walk { at: 0, steps: 0, staying, handed: HashSet::new() });
        Some(self.walks.len() - 1)
    }

    /// The walks that have not ended: their numbers and where they stand.
    pub fn walks(&self) -> Vec<(usize, u64)> {
        self.walks.iter().map(|walk| walk.at).enumerate().collect()
    }

    /// What reserve said there is room for.
    pub fn room(&self) -> Option<Room> {
        self.room
    }

    /// Whether reserve promised that a call, the insert of an absent key of allowed length, goes in.
    pub fn promises(&self, call: &Call) -> bool {
        match (call, &self.finite, self.room) {
            (Call::Insert(key, _), Some(finite), Some(room)) => {
                room.keys > 0 && key.room() <= room.bytes.min(255) && finite.get(key).is_none()
            }
            _ => false,
        }
    }

    /// Whether such an insert is the last of as many keys as asked for, two or more, and in byte tables takes the last of their bytes.
    pub fn fills(&self, call: &Call) -> bool {
        match (call, self.room) {
            (Call::Insert(key, _), Some(room)) => {
                let some = matches!(key, Key::Word(_)) || key.room() > 0;
                self.promises(call) && room.asked > 1 && room.keys == 1 && some && room.bytes == key.room()
            }
            _ => false,
        }
    }

    /// Keeps what reserve said, less what was put in since; another change ends it.
    fn keep_room(&mut self, call: &Call, answer: &Answer, promised: bool, same: bool) {
        self.room = match (call, answer, self.room) {
            (Call::Reserve(keys, bytes), Answer::Room, _) => Some(Room { asked: *keys, keys: *keys, bytes: *bytes }),
            (Call::Insert(key, _), _, Some(room)) if promised => Some(Room { keys: room.keys - 1, bytes: room.bytes - key.room(), ..room }),
            (_, _, room) => room.filter(|_| same),
        };
    }

    /// What a call on a reachable table has to be refused with, as far as the finite map decides it.
    fn refusal(&self, t: &Table, call: &Call) -> Option<u64> {
        let finite = self.finite.as_ref()?;
        match call {
            Call::Get(key) | Call::Contains(key) | Call::Remove(key) => Some(2).filter(|_| key.room() > 255),
            Call::Insert(key, _) | Call::Entry(key) => {
                let absent = finite.get(key).is_none();
                if key.room() > 255 {
                    Some(2)
                } else if absent && finite.len() == t.slots() {
                    Some(7)
                } else if absent && finite.used() + key.room() > t.arena.len() as u64 {
                    Some(8)
                } else {
                    None
                }
            }
            Call::Reserve(keys, _) if *keys > (t.slots() - finite.len()) as u64 => Some(7),
            Call::Reserve(_, bytes) => Some(8).filter(|_| *bytes > t.arena.len() as u64 - finite.used()),
            _ => None,
        }
    }

    /// Holds an answer to the finite map, and changes the map as the call does; `before` is the table before it.
    pub fn judge(&mut self, before: &Table, t: &Table, call: &Call, walk: Option<usize>, answer: &Answer) -> Verdict {
        let due = self.refusal(before, call);
        let promised = self.promises(call);
        hold(!promised || matches!(answer, Answer::Fresh { .. }), "reserve said room")?;
        self.keep_room(call, answer, promised, before == t);
        let finite = match self.finite.as_mut() {
            Some(finite) => finite,
            None => return Ok(()),
        };
        if let Answer::Refused(number) = answer {
            let decided = matches!(call, Call::Get(_) | Call::Contains(_) | Call::Remove(_) | Call::Insert(..) | Call::Entry(_) | Call::Reserve(..));
            hold(!decided || due == Some(*number), "the refusal")?;
            return hold(*number != 5, "damage in a sound table");
        }
        hold(due.is_none(), "a refusal is due")?;
        match call {
            Call::Step(..) => self.judge_step(t, walk, answer)?,
            Call::Remove(key) | Call::OccupiedRemove(key, _) => {
                hold(told_value(answer) == finite.remove(key), "the removed value")?;
                self.forget(Some(key));
            }
            _ => judge_lookup(finite, call, answer)?,
        }
        self.judge_memory(t)
    }

    fn judge_memory(&self, t: &Table) -> Verdict {
        let finite = self.finite.as_ref().unwrap();
        hold(*finite == Finite::of(t), "the live slots")?;
        hold(finite.len() == t.live().len(), "a key stands twice")
    }

    /// A key, or every key, was removed.
    fn forget(&mut self, key: Option<&Key>) {
        for walk in &mut self.walks {
            match key {
                Some(key) => {
                    walk.staying.remove(key);
                    walk.handed.remove(key);
                }
                None => {
                    walk.staying.clear();
                    walk.handed.clear();
                }
            }
        }
    }

    fn judge_step(&mut self, t: &Table, number: Option<usize>, answer: &Answer) -> Verdict {
        let finite = self.finite.as_ref().unwrap();
        if let Answer::Pair { slot, .. } = answer {
            hold(finite.get(&t.key_at(*slot)) == Some(t.value_at(*slot)), "a pair that is not there")?;
        }
        let number = match number {
            Some(number) => number,
            None => return Ok(()),
        };
        let walk = &mut self.walks[number];
        walk.steps += 1;
        match answer {
            Answer::Pair { slot, walk: at, .. } => {
                hold(walk.handed.insert(t.key_at(*slot)), "a key is handed out twice")?;
                walk.at = *at;
            }
            Answer::Nothing { walk: at, .. } => walk.at = *at,
            _ => (),
        }
        if walk.at == t.slots() as u64 {
            let walk = self.walks.swap_remove(number);
            hold(walk.steps <= t.slots() as u64, "a walk of too many steps")?;
            hold(walk.staying.is_subset(&walk.handed), "a staying key is not handed out")?;
        }
        Ok(())
    }

    /// A table was made or cleared.
    pub fn made(&mut self, t: &Table) -> Verdict {
        self.forget(None);
        self.room = None;
        self.finite = Some(Finite::empty(t.kind.values));
        self.judge_memory(t)
    }

    /// Another table was copied onto this one.
    pub fn copied(&mut self, from: &Judge, t: &Table) -> Verdict {
        self.forget(None);
        self.room = None;
        self.finite = from.finite.clone();
        if self.finite.is_some() {
            return self.judge_memory(t);
        }
        *self = Judge::default();
        Ok(())
    }

    /// Another table was joined to this one.
    pub fn joined(&mut self, right: &Judge, t: &Table) -> Verdict {
        if let (Some(finite), Some(other)) = (self.finite.as_mut(), right.finite.as_ref()) {
            for key in other.keys() {
                finite.insert(&key, other.get(&key).unwrap());
            }
            self.room = None;
            return self.judge_memory(t);
        }
        *self = Judge::default();
        Ok(())
    }
}

/// The value that an answer tells; nothing where the key was absent.
fn told_value(answer: &Answer) -> Option<u64> {
    match answer {
        Answer::Found { value, .. } | Answer::Removed { value, .. } | Answer::HandleRemoved { value } => Some(*value),
        Answer::Occupied { value, .. } | Answer::HandleValue { value, .. } | Answer::HandleNow { value, .. } => Some(*value),
        Answer::Replaced { old, .. } | Answer::HandleSet { old, .. } => Some(*old),
        Answer::Present { .. } => Some(0),
        _ => None,
    }
}

/// The calls that look a key up or give it a value.
fn judge_lookup(finite: &mut Finite, call: &Call, answer: &Answer) -> Verdict {
    let told = told_value(answer);
    match call {
        Call::Get(key) | Call::Entry(key) | Call::OccupiedGet(key, _) => hold(told == finite.get(key), "the value"),
        Call::Contains(key) => hold(told.is_some() == finite.get(key).is_some(), "whether it is there"),
        Call::Insert(key, value) | Call::OccupiedSet(key, _, value) => hold(told == finite.insert(key, *value), "the old value"),
        Call::VacantInsert(key, _, value) | Call::OrInsert(key, false, _, value) | Call::InsertEntry(key, false, _, value) => {
            hold(finite.insert(key, *value).is_none(), "a vacant handle of a key that is there")
        }
        Call::OrInsert(key, true, _, _) => hold(told == finite.get(key) && told.is_some(), "the value kept"),
        Call::InsertEntry(key, true, _, value) => hold(finite.insert(key, *value).is_some(), "an occupied handle of an absent key"),
        Call::Len => hold(*answer == Answer::Length(finite.len() as u64), "the length"),
        Call::IsEmpty => hold(*answer == Answer::Empty(finite.len() == 0), "emptiness"),
        _ => Ok(()),
    }
}

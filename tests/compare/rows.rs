//! The table of refusals, row by row: which of them apply to a call, each looked at by itself.

use crate::rules::{Call, End, Key, Table};

/// The key of a call.
pub fn key_of(call: &Call) -> Option<&Key> {
    match call {
        Call::Get(key) | Call::Contains(key) | Call::Remove(key) | Call::Insert(key, _) | Call::Entry(key) => Some(key),
        Call::OccupiedGet(key, _) | Call::OccupiedRemove(key, _) | Call::OccupiedSet(key, _, _) | Call::VacantInsert(key, _, _) => Some(key),
        Call::OrInsert(key, ..) | Call::InsertEntry(key, ..) => Some(key),
        _ => None,
    }
}

/// The slot of an occupied handle.
fn occupied(call: &Call) -> Option<u64> {
    match call {
        Call::OccupiedGet(_, slot) | Call::OccupiedRemove(_, slot) | Call::OccupiedSet(_, slot, _) => Some(*slot),
        Call::OrInsert(_, true, slot, _) | Call::InsertEntry(_, true, slot, _) => Some(*slot),
        _ => None,
    }
}

/// The slot of a vacant handle.
fn vacant(call: &Call) -> Option<u64> {
    match call {
        Call::VacantInsert(_, slot, _) | Call::OrInsert(_, false, slot, _) | Call::InsertEntry(_, false, slot, _) => Some(*slot),
        _ => None,
    }
}

fn damaged_at(t: &Table, slot: u64) -> bool {
    slot < t.slots() as u64 && t.damaged(slot as usize)
}

fn damaged_on_path(t: &Table, key: &Key) -> bool {
    t.path(key).end == End::Damaged
}

/// Whether a step passes a damaged slot: it passes at most `budget` slots and stops after the first live one.
fn damaged_on_the_way(t: &Table, walk: u64, budget: u64) -> bool {
    let last = walk.saturating_add(budget).min(t.slots() as u64);
    let met = (walk..last).map(|at| at as usize).find(|i| t.damaged(*i) || t.marks[*i] == 1);
    met.map_or(false, |i| t.damaged(i))
}

fn sizes(t: &Table, other: &Table, call: &Call) -> bool {
    let differ = t.slots() != other.slots() || t.arena.len() != other.arena.len();
    match call {
        Call::Union => !t.sized() || !other.sized(),
        Call::Copy => !t.sized() || !other.sized() || differ,
        _ => !t.sized(),
    }
}

fn damage(t: &Table, other: &Table, call: &Call) -> bool {
    let every_slot = t.kind.bytes && t.wholly_damaged();
    match call {
        Call::Len | Call::IsEmpty => t.any_damaged(),
        Call::Reserve(..) => t.wholly_damaged(),
        Call::Union => t.wholly_damaged() || other.wholly_damaged(),
        Call::Step(walk, budget) => damaged_on_the_way(t, *walk, *budget),
        Call::OccupiedRemove(_, slot) => every_slot || damaged_at(t, *slot),
        Call::Get(key) | Call::Contains(key) => damaged_on_path(t, key),
        _ if occupied(call).is_some() => damaged_at(t, occupied(call).unwrap()),
        _ => key_of(call).map_or(false, |key| every_slot || damaged_on_path(t, key)),
    }
}

fn lacks_slots(t: &Table, other: &Table, call: &Call) -> bool {
    let free = (t.slots() - t.live().len()) as u64;
    match call {
        Call::Insert(key, _) | Call::Entry(key) => free == 0 && !holds(t, key),
        Call::Reserve(keys, _) => *keys > free,
        Call::Union => absent(t, other).len() as u64 > free,
        _ => false,
    }
}

fn lacks_bytes(t: &Table, other: &Table, call: &Call) -> bool {
    let left = t.arena.len() as i64 - t.used() as i64;
    match call {
        Call::Insert(key, _) | Call::Entry(key) => !holds(t, key) && key.room() as i64 > left,
        Call::Reserve(_, bytes) => i128::from(*bytes) > i128::from(left),
        Call::Union => absent(t, other).iter().map(Key::room).sum::<u64>() as i64 > left,
        _ => false,
    }
}

fn holds(t: &Table, key: &Key) -> bool {
    matches!(t.path(key).end, End::Holds(_))
}

/// The right's keys that are absent in the left; spans past the arena have none.
fn absent(t: &Table, right: &Table) -> Vec<Key> {
    let whole = right.live().into_iter().filter(|i| !right.damaged(*i));
    whole.map(|i| right.key_at(i)).filter(|key| !holds(t, key)).collect()
}

fn bad_handle(t: &Table, other: &Table, call: &Call) -> bool {
    match (key_of(call), occupied(call), vacant(call)) {
        (Some(key), Some(slot), _) => {
            let i = slot as usize;
            slot >= t.slots() as u64 || t.damaged(i) || t.marks[i] != 1 || t.key_at(i) != *key
        }
        (Some(key), _, Some(slot)) => {
            let refused = !applying(t, other, &Call::Insert(key.clone(), 0)).is_empty();
            refused || holds(t, key) || t.path(key).free.map(|free| free as u64) != Some(slot)
        }
        _ => false,
    }
}

/// The numbers of all rows that apply, in their order; without right sizes only those that need no table.
pub fn applying(t: &Table, other: &Table, call: &Call) -> Vec<u64> {
    let long = key_of(call).map_or(false, |key| key.room() > 255);
    let (no_budget, beyond) = match call {
        Call::Step(walk, budget) => (*budget == 0, *walk > t.slots() as u64),
        _ => (false, false),
    };
    let mut rows = vec![(1, sizes(t, other, call)), (2, long), (3, no_budget), (4, beyond)];
    if !rows[0].1 {
        rows.push((5, damage(t, other, call)));
        rows.push((6, bad_handle(t, other, call)));
        rows.push((7, lacks_slots(t, other, call)));
        rows.push((8, lacks_bytes(t, other, call)));
    }
    rows.into_iter().filter(|row| row.1).map(|row| row.0).collect()
}

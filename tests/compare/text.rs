//! Scenarios as text: memory, calls, answers and digests, as the player reads and prints them.

use crate::rules::{digest, Answer, Call, Key, Kind, Table, START};
use std::fmt::Write;

pub fn key_text(key: &Key) -> String {
    match key {
        Key::Word(word) => word.to_string(),
        Key::Bytes(bytes) => bytes.iter().fold("x".to_string(), |text, byte| text + &format!("{byte:02x}")),
    }
}

/// The name of a call.
pub fn name(call: &Call) -> &'static str {
    match call {
        Call::Make => "make",
        Call::Clear => "clear",
        Call::Len => "len",
        Call::IsEmpty => "is_empty",
        Call::Capacity => "capacity",
        Call::Reserve(..) => "reserve",
        Call::Get(_) => "get",
        Call::Contains(_) => "contains",
        Call::Remove(_) => "remove",
        Call::Insert(..) => "insert",
        Call::Entry(_) => "entry",
        Call::OccupiedGet(..) => "occupied_get",
        Call::OccupiedRemove(..) => "occupied_remove",
        Call::OccupiedSet(..) => "occupied_set",
        Call::VacantInsert(..) => "vacant_insert",
        Call::OrInsert(..) => "or_insert",
        Call::InsertEntry(..) => "insert_entry",
        Call::Step(..) => "step",
        Call::Union => "union",
        Call::Copy => "copy",
    }
}

/// The words of a call behind its name, each with a space before it; `other` is the other table's letter.
fn words(kind: Kind, call: &Call, other: char) -> String {
    let key = |key: &Key| key_text(key);
    let value = |value: &u64| if kind.values { value.to_string() } else { "-".to_string() };
    let case = |occupied: &bool| if *occupied { "occupied" } else { "vacant" };
    match call {
        Call::Make => " 0".to_string(),
        Call::Reserve(keys, bytes) => format!(" {keys} {bytes}"),
        Call::Get(k) | Call::Contains(k) | Call::Remove(k) | Call::Entry(k) => format!(" {}", key(k)),
        Call::Insert(k, v) => format!(" {} {}", key(k), value(v)),
        Call::OccupiedGet(k, slot) | Call::OccupiedRemove(k, slot) => format!(" {} {slot}", key(k)),
        Call::OccupiedSet(k, slot, v) | Call::VacantInsert(k, slot, v) => format!(" {} {slot} {v}", key(k)),
        Call::OrInsert(k, occupied, slot, v) | Call::InsertEntry(k, occupied, slot, v) => format!(" {} {} {slot} {v}", key(k), case(occupied)),
        Call::Step(walk, budget) => format!(" {walk} 0 {budget}"),
        Call::Union | Call::Copy => format!(" {other}"),
        _ => String::new(),
    }
}

/// The line of a call on table 0 or 1.
pub fn call_text(kind: Kind, on: usize, call: &Call) -> String {
    let letters = ['A', 'B'];
    format!("call {} {}{}", letters[on], name(call), words(kind, call, letters[1 - on]))
}

/// An answer's text; `t` is the table after the call.
pub fn answer_text(t: &Table, answer: &Answer) -> String {
    let v = |value: &u64| if t.kind.values { value.to_string() } else { "-".to_string() };
    match answer {
        Answer::Refused(number) => format!("refused {number}"),
        Answer::Done => "done".to_string(),
        Answer::Length(count) => format!("length {count}"),
        Answer::Empty(empty) => format!("empty {}", if *empty { "yes" } else { "no" }),
        Answer::Capacity(slots) => format!("capacity {slots}"),
        Answer::Room => "room".to_string(),
        Answer::Found { value, examined } => format!("found value={} examined={examined}", v(value)),
        Answer::Present { examined } => format!("present examined={examined}"),
        Answer::Absent { examined } => format!("absent examined={examined}"),
        Answer::Fresh { slot, examined } => format!("fresh slot={slot} examined={examined}"),
        Answer::Replaced { old, slot, examined } => format!("replaced old={} slot={slot} examined={examined}", v(old)),
        Answer::Removed { value, slot, examined } => format!("removed value={} slot={slot} examined={examined}", v(value)),
        Answer::Occupied { slot, value, examined } => format!("occupied slot={slot} value={value} examined={examined}"),
        Answer::Vacant { slot, examined } => format!("vacant slot={slot} examined={examined}"),
        Answer::HandleValue { slot, value } => format!("handle_value slot={slot} value={value}"),
        Answer::HandleSet { slot, old } => format!("handle_set slot={slot} old={old}"),
        Answer::HandleRemoved { value } => format!("handle_removed value={value}"),
        Answer::HandleNow { slot, value } => format!("handle_now slot={slot} value={value}"),
        Answer::Pair { slot, walk, examined } => {
            format!("pair key={} value={} walk={walk} turn=0 examined={examined}", handed(t, *slot), v(&t.value_at(*slot)))
        }
        Answer::Nothing { walk, examined } => format!("nothing walk={walk} turn=0 examined={examined}"),
        Answer::WalkDone { walk } => format!("walk_done walk={walk} turn=0"),
    }
}

/// A slot's key as a walk hands it out.
fn handed(t: &Table, slot: usize) -> String {
    if t.kind.bytes {
        format!("{}+{}", t.offsets[slot], t.lengths[slot])
    } else {
        t.keys[slot].to_string()
    }
}

/// The digest of both tables.
pub fn memory_digest(tables: &[Table; 2]) -> u64 {
    tables.iter().fold(START, |hash, table| {
        let hash = digest(hash, &[0; 12]);
        table.columns().into_iter().fold(hash, |hash, (_, column, width)| {
            let hash = digest(hash, &(column.len() as u64).to_le_bytes());
            column.iter().fold(hash, |hash, element| digest(hash, &element.to_le_bytes()[..width]))
        })
    })
}

/// A table's memory; four or more equal elements are written once.
pub fn table_text(letter: char, table: &Table) -> String {
    let mut text = format!("table {letter}\nrecord 0 0\n");
    for (name, column, _) in table.columns() {
        write!(text, "{name} {}", column.len()).unwrap();
        let mut at = 0;
        while at < column.len() {
            let run = column[at..].iter().take_while(|element| **element == column[at]).count();
            let run = if run < 4 { 1 } else { run };
            write!(text, " {}", column[at]).unwrap();
            if run > 1 {
                write!(text, "*{run}").unwrap();
            }
            at += run;
        }
        text.push('\n');
    }
    text
}

//! How often each case and each refusal of each call came, and which of them document by document have to come.

use crate::rules::{Answer, Call, Kind, KINDS};
use crate::text::{answer_text, name};
use std::collections::BTreeMap;

/// The least number of times that each admitted case, refusal and pair of refusals comes, where every case is asked for.
pub const LEAST: u64 = 20;

/// Counts by kind, call and case.
#[derive(Default)]
pub struct Tally(BTreeMap<(&'static str, &'static str, String), u64>);

/// The cases of each call, sets having only the first part of the list; a case ending in `#` is of byte tables alone.
const TABLES: [(&str, &str); 11] = [
    ("make", "done,refused 1"),
    ("clear", "done,refused 1"),
    ("len", "length,refused 1,refused 5"),
    ("is_empty", "empty yes,empty no,refused 1,refused 5"),
    ("capacity", "capacity,refused 1"),
    ("reserve", "room,refused 1,refused 5,refused 7,refused 8#,5 before 7,5 before 8#,7 before 8#"),
    ("get", "found,absent,refused 1,refused 2#,refused 5,1 before 2#,2 before 5#"),
    ("contains", "present,absent,refused 1,refused 2#,refused 5,1 before 2#,2 before 5#"),
    ("remove", "removed,absent,refused 1,refused 2#,refused 5,1 before 2#,2 before 5#"),
    ("insert", INSERTS),
    ("step", "pair,nothing,walk_done,refused 1,refused 3,refused 4,refused 5,1 before 3,1 before 4,3 before 4"),
];
const COPY: (&str, &str) = ("copy", "done,refused 1");
const INSERTS: &str = "fresh,room told,room filled,replaced,refused 1,refused 2#,refused 5,refused 7,refused 8#,1 before 2#,2 before 5#,2 before 7#,2 before 8#,5 before 7#,5 before 8#,7 before 8#";
const HANDLES: &str = "refused 1,refused 2#,refused 5,refused 6,1 before 2#,2 before 5#,2 before 6#,5 before 6";
const MAPS: [(&str, &str); 7] = [
    ("entry", "occupied,vacant,refused 1,refused 2#,refused 5,refused 7,refused 8#,1 before 2#,2 before 5#,2 before 7#,2 before 8#,5 before 7#,5 before 8#,7 before 8#"),
    ("occupied_get", "handle_value"),
    ("occupied_set", "handle_set"),
    ("occupied_remove", "handle_removed"),
    ("vacant_insert", "handle_now"),
    ("or_insert", "handle_now"),
    ("insert_entry", "handle_now"),
];
const UNION: (&str, &str) = ("union", "done,refused 1,refused 5,refused 7,refused 8#,5 before 7,5 before 8#,7 before 8#");

/// The cases that the scope admits for a kind: call and case.
fn admitted(kind: Kind) -> Vec<(&'static str, &'static str)> {
    let mut rows: Vec<(&str, &str)> = TABLES.to_vec();
    rows.push(COPY);
    if kind.values {
        rows.extend(MAPS);
        rows.push(UNION);
        rows.extend(MAPS[1..].iter().map(|row| (row.0, HANDLES)));
    }
    let cases = rows.into_iter().flat_map(|(call, cases)| cases.split(',').map(move |case| (call, case)));
    let here = cases.filter(|(_, case)| kind.bytes || !case.ends_with('#'));
    here.map(|(call, case)| (call, case.trim_end_matches('#'))).collect()
}

impl Tally {
    fn count(&mut self, kind: Kind, call: &Call, case: String) {
        *self.0.entry((kind.name, name(call), case)).or_insert(0) += 1;
    }

    /// Counts an answer, and each refusal that applied behind the one given.
    pub fn note(&mut self, kind: Kind, call: &Call, answer: &Answer, table: &crate::rules::Table, applying: &[u64]) {
        let text = answer_text(table, answer);
        let whole = matches!(answer, Answer::Refused(_) | Answer::Empty(_));
        let case = if whole { text } else { text.split(' ').next().unwrap().to_string() };
        self.count(kind, call, case);
        for later in applying.iter().skip(1) {
            self.count(kind, call, format!("{} before {later}", applying[0]));
        }
    }

    /// Counts an insert of which reserve promised that it goes in, and whether all that was asked for, two keys or more, is then in.
    pub fn note_told(&mut self, kind: Kind, call: &Call, filled: bool) {
        self.count(kind, call, "room told".to_string());
        if filled {
            self.count(kind, call, "room filled".to_string());
        }
    }

    /// Prints the counts; how many of the admitted cases came too seldom, where every case is asked for.
    pub fn report(&self, every: bool) -> usize {
        let mut seldom = 0;
        for kind in KINDS {
            for (call, case) in admitted(kind) {
                let times = self.0.get(&(kind.name, call, case.to_string())).copied().unwrap_or(0);
                let few = every && times < LEAST;
                seldom += usize::from(few);
                println!("{} {call}: {case} {times}{}", kind.name, if few { " TOO FEW" } else { "" });
            }
        }
        seldom
    }

    /// The cases that came and that the scope does not admit.
    pub fn strangers(&self) -> Vec<String> {
        let known: Vec<_> = KINDS.into_iter().flat_map(|kind| admitted(kind).into_iter().map(move |row| (kind.name, row.0, row.1))).collect();
        let strange = self.0.keys().filter(|(kind, call, case)| !case.contains("before") && !known.contains(&(kind, call, case.as_str())));
        strange.map(|(kind, call, case)| format!("{kind} {call}: {case}")).collect()
    }
}

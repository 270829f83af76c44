//! Plays scenarios made from a seed through a player of the library, and compares answers and whole memory with the slot rules written
//! anew here, and tables made and changed by their own calls with std's HashMap and HashSet.
//!
//! `compare SEED COUNT PLAYER...` plays COUNT scenarios and prints how often each case came; with `--every-case` in front it fails where
//! one came too seldom. `compare --write SEED COUNT` prints the scenarios.

mod judge;
mod rows;
mod rules;
mod scenes;
mod tally;
mod text;

use judge::Judge;
use rules::{Answer, Call, Table};
use scenes::{Memory, Random, Scene};
use std::io::{Read, Write};
use std::process::{exit, Command, Stdio};
use tally::Tally;

/// A scenario that is being written, with what is known of its tables.
struct Stage<'a> {
    scene: Scene,
    judges: [Judge; 2],
    text: String,
    tally: &'a mut Tally,
}

impl Stage<'_> {
    /// The next call: on which table, the call, and which of its walks is stepped.
    fn next(&mut self, random: &mut Random) -> (usize, Call, Option<usize>) {
        if let Some((on, call)) = self.scene.due(random) {
            return (on, call, None);
        }
        let on = usize::from(random.once_in(4));
        let walks = self.judges[on].walks();
        let budget = random.pick(&[1, 1, 2, 3, self.scene.tables[on].slots() as u64]);
        if walks.is_empty() && random.once_in(3) {
            if let Some(walk) = self.judges[on].start_walk() {
                return (on, Call::Step(0, budget), Some(walk));
            }
        }
        if !walks.is_empty() && random.once_in(3) {
            let (walk, at) = random.pick(&walks);
            return (on, Call::Step(at, budget), Some(walk));
        }
        (on, self.scene.call(random, on), None)
    }

    /// Makes a call by the rules, and holds it to the rows of refusals and to the finite map.
    fn play(&mut self, on: usize, call: &Call, walk: Option<usize>) -> Result<(), String> {
        let (before, other) = (self.scene.tables[on].clone(), self.scene.tables[1 - on].clone());
        let answer = self.scene.tables[on].call(&other, call);
        let table = &self.scene.tables[on];
        let applying = rows::applying(&before, &other, call);
        let given = if let Answer::Refused(number) = answer { Some(number) } else { None };
        self.tally.note(self.scene.kind, call, &answer, table, &applying);
        self.text += &format!("{}\nanswer {}\n", text::call_text(self.scene.kind, on, call), text::answer_text(table, &answer));
        self.text += &format!("digest {:016x}\n", text::memory_digest(&self.scene.tables));
        if given != applying.first().copied() {
            return Err(format!("refused {given:?}, of {applying:?}"));
        }
        if given.is_some() && *table != before {
            return Err("refused and stored".to_string());
        }
        if self.judges[on].promises(call) {
            self.tally.note_told(self.scene.kind, call, self.judges[on].fills(call));
        }
        self.judge(on, &before, call, walk, &answer)?;
        self.scene.note(call, &answer);
        Ok(())
    }

    fn judge(&mut self, on: usize, before: &Table, call: &Call, walk: Option<usize>, answer: &Answer) -> Result<(), String> {
        let [first, second] = &mut self.judges;
        let (judge, other) = if on == 0 { (first, second) } else { (second, first) };
        let table = &self.scene.tables[on];
        match (call, answer) {
            (Call::Make | Call::Clear, Answer::Done) => judge.made(table),
            (Call::Copy, Answer::Done) => judge.copied(other, table),
            (Call::Union, Answer::Done) => judge.joined(other, table),
            (Call::Make | Call::Clear | Call::Copy | Call::Union, _) => Ok(()),
            _ => judge.judge(before, table, call, walk, answer),
        }
    }
}

/// Writes one scenario.
fn scenario(random: &mut Random, number: u64, tally: &mut Tally) -> String {
    let scene = Scene::new(random, number);
    let known = |table: &Table| if scene.memory == Memory::Sound && table.sized() { Judge::of_reachable(table) } else { Judge::default() };
    let judges = [known(&scene.tables[0]), known(&scene.tables[1])];
    let head = format!("scenario {number} {} after 3\n", scene.kind.name);
    let tables = text::table_text('A', &scene.tables[0]) + &text::table_text('B', &scene.tables[1]);
    let calls = scene.calls;
    let mut stage = Stage { scene, judges, text: head + &tables, tally };
    for _ in 0..calls {
        let (on, call, walk) = stage.next(random);
        if let Err(words) = stage.play(on, &call, walk) {
            println!("{}the rules and the finite map differ: {words}", stage.text);
            exit(1);
        }
        if let (Call::Reserve(..), Some(room)) = (&call, stage.judges[on].room()) {
            stage.scene.spend(random, on, room.keys, room.bytes);
        }
    }
    stage.text + "end\n"
}

/// What the player prints for a text.
fn played(player: &[String], text: &str) -> String {
    let mut child = Command::new(&player[0]).args(&player[1..]).stdin(Stdio::piped()).stdout(Stdio::piped()).spawn().expect("the player");
    let mut input = child.stdin.take().unwrap();
    let given = text.to_string();
    let writer = std::thread::spawn(move || input.write_all(given.as_bytes()));
    let mut printed = String::new();
    child.stdout.take().unwrap().read_to_string(&mut printed).expect("text");
    let _ = writer.join();
    let status = child.wait().expect("the player's status");
    if !status.success() {
        println!("the player ended with {status}");
    }
    printed
}

/// The first line where two texts differ, with the scenario and the call it belongs to.
fn difference(expected: &str, printed: &str) -> Option<String> {
    let mut place = [String::new(), String::new()];
    let mut lines = printed.lines();
    for line in expected.lines() {
        let other = lines.next();
        if other != Some(line) {
            return Some(format!("{}\n{}\nexpected {line}\nprinted  {}", place[0], place[1], other.unwrap_or("nothing")));
        }
        if line.starts_with("scenario") {
            place[0] = line.to_string();
        } else if line.starts_with("call") {
            place[1] = line.to_string();
        }
    }
    lines.next().map(|line| format!("more lines: {line}"))
}

fn number(word: Option<&String>) -> u64 {
    word.and_then(|word| word.parse().ok()).unwrap_or_else(|| {
        eprintln!("usage: compare [--every-case] SEED COUNT PLAYER...   compare --write SEED COUNT");
        exit(2)
    })
}

fn main() {
    let words: Vec<String> = std::env::args().skip(1).collect();
    let asked = |flag: &str| words.first().map_or(false, |word| word == flag);
    let (write, every) = (asked("--write"), asked("--every-case"));
    let words = &words[usize::from(write || every)..];
    let (seed, count) = (number(words.first()), number(words.get(1)));
    let mut tally = Tally::default();
    let text: String = (0..count).map(|i| scenario(&mut Random(seed.wrapping_mul(1_000_003).wrapping_add(i)), i, &mut tally)).collect();
    if write {
        print!("{text}");
        return;
    }
    if words.len() < 3 {
        number(None);
    }
    if let Some(words) = difference(&text, &played(&words[2..], &text)) {
        println!("{words}");
        exit(1);
    }
    let (seldom, strangers) = (tally.report(every), tally.strangers());
    for stranger in &strangers {
        println!("not admitted: {stranger}");
    }
    let few = if every { format!("; {seldom} cases below {}", tally::LEAST) } else { String::new() };
    println!("{count} scenarios of seed {seed}, {} calls: no difference{few}", text.matches("\nanswer ").count());
    exit(i32::from(seldom > 0 || !strangers.is_empty()));
}

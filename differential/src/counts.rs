//! What was reached, counted.

use std::collections::BTreeMap;

use crate::calls::Answer;

pub const CALLS: [&str; 11] =
    ["resolve", "lookup", "index", "indexed", "errors", "sorted", "live", "once", "occurrences", "rename", "name"];

/// Lists of error rows that sorting by place must have met.
pub const CHANGED: &str = "error rows: lists that sorting changes";
pub const CHANGED_WITH_EQUALS: &str = "error rows: lists that sorting changes, with several rows at one place";

/// Rows 4 that must have been met at an argument whose name stands further back than the nearest earlier named one.
pub const APART: &str = "error rows 4, the nearest earlier named argument of another name";

/// Lists with a row 4 that must have been met in the default mode.
pub const BY_DEFAULT: &str = "error rows: lists of mode 0 with a row 4";

/// Renames that must have been met: given with another name than the variable's own, also where one of the places is an app
/// head; and not given, since the list would be another.
pub const RENAMED: &str = "renames given: to another name";
pub const RENAMED_HEAD: &str = "renames given: to another name, of an app head too";
pub const KEPT: &str = "renames not given: the list would be another";

#[derive(Default)]
pub struct Counts {
    /// By call and answer.
    answers: BTreeMap<(String, &'static str), u64>,
    /// Other things seen.
    seen: BTreeMap<String, u64>,
    /// By kind and case of nodes in accepted images.
    kinds: BTreeMap<(u32, Option<u32>), u64>,
    largest: BTreeMap<&'static str, u64>,
}

fn label(call: &str, answer: Answer) -> String {
    match answer {
        Answer::Refused(r) => format!("{r:2} refused"),
        Answer::Twice(..) => "50 twice".to_string(),
        Answer::Result(..) => match call {
            "once" => "53 ok".to_string(),
            _ => "51 result".to_string(),
        },
        Answer::Located(..) => "51 result".to_string(),
        Answer::Other(..) => match call {
            "once" => "54 lone".to_string(),
            _ => "52 none".to_string(),
        },
    }
}

impl Counts {
    pub fn answer(&mut self, call: &'static str, answer: Answer) {
        *self.answers.entry((label(call, answer), call)).or_default() += 1;
    }

    pub fn see(&mut self, what: &str) {
        self.see_times(what, 1);
    }

    pub fn see_times(&mut self, what: &str, times: u64) {
        match self.seen.get_mut(what) {
            Some(count) => *count += times,
            None => {
                self.seen.insert(what.to_string(), times);
            }
        }
    }

    pub fn kind(&mut self, kind: u32, case: Option<u32>) {
        *self.kinds.entry((kind, case)).or_default() += 1;
    }

    pub fn most(&mut self, what: &'static str, value: u64) {
        let most = self.largest.entry(what).or_default();
        *most = value.max(*most);
    }

    pub fn of(&self, what: &str) -> u64 {
        self.seen.get(what).copied().unwrap_or(0)
    }

    /// The refusals and answers that no call has given, of those that some call can give.
    pub fn missing(&self) -> Vec<String> {
        let mut missing: Vec<String> = Vec::new();
        let wanted = (1..=21).map(|r| format!("{r:2} refused"));
        let others = ["50 twice", "51 result", "52 none", "53 ok", "54 lone"].map(String::from);
        for label in wanted.chain(others) {
            if !self.answers.keys().any(|k| k.0 == label) {
                missing.push(label);
            }
        }
        for kind in 0..=40 {
            let cases = match kind {
                1 => 7,
                12 => 8,
                15 | 23 | 29 => 3,
                26 => 2,
                28 | 36 => 4,
                _ => 0,
            };
            let found = |case: Option<u32>| self.kinds.contains_key(&(kind, case));
            if cases == 0 && !found(None) {
                missing.push(format!("kind {kind}"));
            }
            missing.extend((0..cases).filter(|&c| !found(Some(c))).map(|c| format!("kind {kind} case {c}")));
        }
        for row in 1..=4 {
            if self.of(&format!("error rows {row}")) == 0 {
                missing.push(format!("error row {row}"));
            }
        }
        for what in [CHANGED, CHANGED_WITH_EQUALS, APART, BY_DEFAULT, RENAMED, RENAMED_HEAD, KEPT] {
            if self.of(what) == 0 {
                missing.push(what.to_string());
            }
        }
        missing
    }

    pub fn print(&self) {
        println!("answers by call:");
        print!("  {:12}", "");
        CALLS.iter().for_each(|c| print!(" {c:>11}"));
        println!();
        let mut labels: Vec<&String> = self.answers.keys().map(|k| &k.0).collect();
        labels.dedup();
        for label in labels {
            let text = label.trim_start();
            let text = match text.split_once(' ') {
                Some((number, "refused")) => format!("refused {number}"),
                Some((_, text)) => text.to_string(),
                None => text.to_string(),
            };
            print!("  {text:12}");
            for call in CALLS {
                match self.answers.get(&(label.clone(), call)) {
                    Some(count) => print!(" {count:>11}"),
                    None => print!(" {:>11}", "-"),
                }
            }
            println!();
        }
        println!("nodes of accepted images by kind (and case):");
        let mut line = String::from(" ");
        for ((kind, case), count) in &self.kinds {
            let name = match case {
                Some(case) => format!(" {kind}.{case}: {count}"),
                None => format!(" {kind}: {count}"),
            };
            if line.len() + name.len() > 110 {
                println!("{line}");
                line = String::from(" ");
            }
            line.push_str(&name);
        }
        println!("{line}");
        println!("seen:");
        for (what, count) in &self.seen {
            println!("  {what}: {count}");
        }
        for (what, most) in &self.largest {
            println!("  largest {what}: {most}");
        }
    }
}

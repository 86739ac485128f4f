//! Recorded answers, for the program that replays them without any Rust.
//!
//! A record is 31 little-endian words: the image's length in bytes, the table's and the rows' in words, the mode, the scope,
//! the length of the name looked up, the name number asked for, the index's length in words; then the packed answers of
//! eqlog_resolve, eqlog_errors, eqlog_once, eqlog_occurrences, eqlog_lookup, eqlog_name, eqlog_sorted, eqlog_index and
//! eqlog_lookup_indexed, low word first; then the binding and the name number for eqlog_rename, the output's length in
//! bytes, and the packed answer. After them the image, the name, and what the calls leave: the table after resolve, the
//! rows after errors, occurrences and sorted, the index after index, the output after rename. Every lent word, and each byte
//! of the output, is 7 before each call but the lookups and index, which are given the table that resolve leaves, and
//! lookup_indexed the index that index leaves.

use crate::calls::{Answer, Calls};
use crate::compare::{pairs, Compare};
use crate::counts::Counts;
use crate::inputs::input;
use crate::random::Random;
use crate::reading::layout::{index_words, rows_words, table_words};
use crate::reading::rename::renamed;
use crate::reading::tests::{sizes, verdict};
use crate::reading::walk::Rows;
use crate::reading::Reading;

fn packed(answer: Answer) -> u64 {
    let fields = |tag: u64, a: u32, b: u32, c: u32| tag << 48 | (a as u64) << 32 | (b as u64) << 16 | c as u64;
    match answer {
        Answer::Refused(r) => fields(0, 0, 0, r),
        Answer::Twice(name, first, second) => fields(1, name, first, second),
        Answer::Result(a, b) => fields(2, 0, a, b),
        Answer::Located(scope, symbol, node) => fields(2, scope, symbol, node),
        Answer::Other(a, b) => fields(3, 0, a, b),
    }
}

/// A binding and a name number for eqlog_rename, of an image of n nodes and s names with this list. Few lists have an app head:
/// of those the binding is an app head's, and the name another that is given, if drawing some finds one.
fn renaming(image: &[u8], list: &[(u32, u32)], n: usize, s: usize, r: &mut Random) -> (u32, u32) {
    if list.is_empty() || r.one_in(10) {
        return (r.below(n.max(1)) as u32, r.below(s + 1) as u32);
    }
    let rows = Rows::new(image);
    let heads: Vec<u32> = list.iter().filter(|row| rows.kind(row.0) == 15).map(|row| row.1).collect();
    if heads.is_empty() {
        return (r.pick(list).1, r.below(s + 1) as u32);
    }
    let binding = *r.pick(&heads);
    let names: Vec<u32> = (0..20).map(|_| r.below(s + 1) as u32).collect();
    let given = |&name: &u32| Some(name) != rows.name(binding) && renamed(image, list, binding, name).is_ok();
    (binding, names.iter().copied().find(given).unwrap_or(names[0]))
}

/// One record. The answers are those of the reading; `Compare` has held them to the original where it has any.
fn record(image: &[u8], r: &mut Random) -> Vec<u8> {
    let n = if verdict(image).is_none() { sizes(image).n } else { r.below(8) };
    let spare = if r.one_in(4) { 3 } else { 0 };
    let short = r.below(60);
    let table_len = table_words(n) - (short == 0) as usize + spare;
    let rows_len = rows_words(n) - (short == 1) as usize + spare;
    let mode = if r.one_in(20) { 3 } else { r.below(3) as u32 };
    let mut table = vec![7; table_len];
    let resolved = Reading.resolve(image, &mut table);
    let mut errors = vec![7; rows_len];
    let error_answer = Reading.errors(image, &mut vec![7; table_len], &mut errors, mode);
    let mut sorted = vec![7; rows_len];
    let sorted_answer = Reading.sorted(image, &mut vec![7; table_len], &mut sorted, mode);
    let once = Reading.once(image, &mut vec![7; table_len]);
    let mut list = vec![7; rows_len];
    let list_answer = Reading.occurrences(image, &mut vec![7; table_len], &mut list);
    let scope = match resolved {
        // sometimes one that the table does not have
        Answer::Result(k, _) if r.one_in(10) => k,
        Answer::Result(k, _) => r.below(k as usize) as u32,
        _ => 0,
    };
    let name_number = if verdict(image).is_none() { r.below(sizes(image).s + 1) as u32 } else { 0 };
    let (from, len) = Reading.name(image, name_number);
    let name = if len == 0 { b"nowhere".to_vec() } else { image[from..from + len].to_vec() };
    let found = Reading.lookup(image, &table, scope, &name);
    let s = if verdict(image).is_none() { sizes(image).s } else { r.below(8) };
    let mut index = vec![7; index_words(n, s) - (n + s > 0 && r.one_in(20)) as usize + spare];
    let index_answer = Reading.index(image, &table, &mut index);
    let chained = Reading.lookup_indexed(image, &table, &index, scope, &name);
    let (binding, new_name) = renaming(image, &pairs(&list, n, list_answer), n, s, r);
    let out_len = match r.below(20) {
        0 => image.len().saturating_sub(1),
        1..=4 => image.len() + 3,
        _ => image.len(),
    };
    let mut out = vec![7; out_len];
    let rename_answer = Reading.rename(image, &mut vec![7; table_len], &mut vec![7; rows_len], binding, new_name, &mut out);
    let place = (from as u64) << 32 | len as u64;
    let mut bytes: Vec<u8> = Vec::new();
    for word in [image.len(), table_len, rows_len, mode as usize, scope as usize, name.len(), name_number as usize, index.len()] {
        bytes.extend((word as u32).to_le_bytes());
    }
    for answer in [resolved, error_answer, once, list_answer, found] {
        bytes.extend(packed(answer).to_le_bytes());
    }
    bytes.extend(place.to_le_bytes());
    for answer in [sorted_answer, index_answer, chained] {
        bytes.extend(packed(answer).to_le_bytes());
    }
    for word in [binding, new_name, out_len as u32] {
        bytes.extend(word.to_le_bytes());
    }
    bytes.extend(packed(rename_answer).to_le_bytes());
    bytes.extend(image);
    bytes.extend(name);
    for words in [table, errors, list, sorted, index] {
        bytes.extend(words.iter().flat_map(|w| w.to_le_bytes()));
    }
    bytes.extend(out);
    bytes
}

/// Records of so many images, made from the seed: small ones, then one of the largest size.
pub fn records(seed: u64, count: u64) -> Result<Vec<u8>, String> {
    let compare = Compare { subject: &Reading, alone: true };
    let mut counts = Counts::default();
    let mut bytes = Vec::new();
    let mut made = 0;
    let mut i = 0;
    while made < count {
        let last = made + 1 == count;
        let (input, mut r) = input(seed, i, 35, if last { 2048 } else { 50 });
        i += 1;
        let size = input.image.len();
        if (last && (size < 40_000 || verdict(&input.image).is_some())) || (!last && size > 1_200) {
            continue;
        }
        compare.image(&input.image, &mut r, &mut counts)?;
        // drawn apart from what the comparison draws
        let mut own = Random::new(seed ^ 0x5eed, i);
        bytes.extend(record(&input.image, &mut own));
        made += 1;
    }
    Ok(bytes)
}

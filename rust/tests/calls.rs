//! Each call on case A, the rule `if x = x`, and on what is refused.

use eqlog_scopes::*;

/// Rows as kind and words after the location, which is (0, 0); names in order.
fn image(rows: &[(u32, &[u32])], names: &[&str]) -> Vec<u8> {
    image_at(rows, &vec![0; rows.len()], names)
}

/// The same with the second location word of each row.
fn image_at(rows: &[(u32, &[u32])], places: &[u32], names: &[&str]) -> Vec<u8> {
    let mut operands: Vec<u32> = Vec::new();
    let mut starts = Vec::new();
    for ((_, words), place) in rows.iter().zip(places) {
        starts.push(operands.len() as u32);
        operands.extend([0, *place]);
        operands.extend(*words);
    }
    let mut ends = Vec::new();
    let mut bytes: Vec<u8> = Vec::new();
    for name in names {
        bytes.extend(name.as_bytes());
        ends.push(bytes.len() as u32);
    }
    let sizes = [rows.len(), operands.len(), names.len(), bytes.len()].map(|n| n as u32);
    let kinds: Vec<u32> = rows.iter().map(|r| r.0).collect();
    let words = [&sizes[..], &kinds, &starts, &operands, &ends];
    let mut image: Vec<u8> = words.into_iter().flatten().flat_map(|w| w.to_le_bytes()).collect();
    image.extend(bytes);
    image
}

fn case_a() -> Vec<u8> {
    let rows: [(u32, &[u32]); 11] = [
        (13, &[0]),
        (12, &[0, 0]),
        (13, &[0]),
        (12, &[0, 2]),
        (30, &[1, 3]),
        (28, &[0, 4]),
        (37, &[5]),
        (36, &[0, 6]),
        (6, &[0, 1, 7]),
        (1, &[4, 8]),
        (0, &[1, 9]),
    ];
    image(&rows, &["x"])
}

/// A predicate p, and a model M with one of its own.
fn model() -> Vec<u8> {
    let rows: [(u32, &[u32]); 9] = [
        (11, &[0]),
        (3, &[0, 0]),
        (1, &[1, 1]),
        (11, &[0]),
        (3, &[0, 3]),
        (1, &[1, 4]),
        (8, &[1, 1, 5]),
        (1, &[6, 6]),
        (0, &[2, 2, 7]),
    ];
    image(&rows, &["p", "M"])
}

/// Enum E with a constructor E.
fn twice() -> Vec<u8> {
    let rows: [(u32, &[u32]); 5] = [(11, &[0]), (9, &[0, 0]), (7, &[0, 1, 1]), (1, &[5, 2]), (0, &[1, 3])];
    image(&rows, &["E"])
}

/// One rule `then x := y!`.
fn lone() -> Vec<u8> {
    let rows: [(u32, &[u32]); 11] = [
        (13, &[0]),
        (12, &[0, 0]),
        (13, &[1]),
        (12, &[0, 2]),
        (34, &[2, 3]),
        (29, &[1, 4]),
        (38, &[5]),
        (36, &[1, 6]),
        (6, &[0, 1, 7]),
        (1, &[4, 8]),
        (0, &[1, 9]),
    ];
    image(&rows, &["x", "y"])
}

/// One rule `if x = y` with `if x(y)!` after it, of names x, y and z; the first variable has the name of this number.
fn applied(x: u32) -> Vec<u8> {
    let rows: [(u32, &[u32]); 22] = [
        (13, &[x]),
        (12, &[0, 0]),
        (13, &[1]),
        (12, &[0, 2]),
        (30, &[1, 3]),
        (28, &[0, 4]),
        (37, &[5]),
        (36, &[0, 6]),
        (13, &[x]),
        (15, &[0, 8]),
        (13, &[1]),
        (12, &[0, 10]),
        (22, &[1, 11]),
        (14, &[9, 12]),
        (12, &[2, 13]),
        (32, &[14]),
        (28, &[1, 15]),
        (37, &[16]),
        (36, &[0, 17]),
        (6, &[0, 2, 7, 18]),
        (1, &[4, 19]),
        (0, &[1, 20]),
    ];
    image(&rows, &["x", "y", "z"])
}

/// One rule `then x = y` with `then z = z` after it; the terms x, y and z have these places.
fn three_new(places: [u32; 3]) -> Vec<u8> {
    let rows: [(u32, &[u32]); 19] = [
        (13, &[0]),
        (12, &[0, 0]),
        (13, &[1]),
        (12, &[0, 2]),
        (30, &[1, 3]),
        (29, &[0, 4]),
        (38, &[5]),
        (36, &[1, 6]),
        (13, &[2]),
        (12, &[0, 8]),
        (13, &[2]),
        (12, &[0, 10]),
        (30, &[9, 11]),
        (29, &[0, 12]),
        (38, &[13]),
        (36, &[1, 14]),
        (6, &[0, 2, 7, 15]),
        (1, &[4, 16]),
        (0, &[1, 17]),
    ];
    let mut words = [0; 19];
    for (term, place) in [1, 3, 9].into_iter().zip(places) {
        words[term] = place;
    }
    image_at(&rows, &words, &["x", "y", "z"])
}

fn lent() -> (Vec<u32>, Vec<u32>) {
    (vec![7; table_len(11)], vec![7; rows_len(11)])
}

#[test]
fn image_of_case_a() {
    assert_eq!(case_a().len(), 277);
}

#[test]
fn resolve_fills_the_table() {
    let (mut table, _) = lent();
    assert_eq!(resolve(&case_a(), &mut table), Resolve::Done { scopes: 2, symbols: 1 });
    assert_eq!(table[..3], [11, 2, 1]);
    // x is introduced by the first term: its entry is the module's scope, its exit the new one
    let at = |array, i| table[place(array, 11, i)];
    assert_eq!((at(Array::Entry, 0), at(Array::Exit, 0)), (0, 1));
    assert_eq!((at(Array::Parent, 0), at(Array::Parent, 1)), (NO_SCOPE, 0));
    assert_eq!((at(Array::SymbolScope, 0), at(Array::SymbolNode, 0)), (1, 0));
}

#[test]
fn resolve_says_twice_and_clears_the_table() {
    let mut table = vec![7; table_len(5) + 2];
    assert_eq!(resolve(&twice(), &mut table), Resolve::Twice(Twice { name: 0, first: 2, second: 1 }));
    assert!(table[..table_len(5)].iter().all(|&w| w == 0));
    assert_eq!(table[table_len(5)..], [7, 7]);
}

#[test]
fn resolve_refuses_and_alters_nothing() {
    let (mut table, _) = lent();
    assert_eq!(resolve(&[], &mut []), Resolve::Refused(Refusal::Header));
    assert_eq!(resolve(&case_a()[..276], &mut table), Resolve::Refused(Refusal::Length));
    let short = table_len(11) - 1;
    assert_eq!(resolve(&case_a(), &mut table[..short]), Resolve::Refused(Refusal::Table));
    assert!(table.iter().all(|&w| w == 7));
}

#[test]
fn lookup_climbs() {
    let (mut table, _) = lent();
    resolve(&case_a(), &mut table);
    assert_eq!(lookup(&case_a(), &table, 1, b"x"), Lookup::Found { symbol: Symbol::Var, node: 0, scope: 1 });
    assert_eq!(lookup(&case_a(), &table, 0, b"x"), Lookup::Nothing);
    assert_eq!(lookup(&case_a(), &table, 1, b"y"), Lookup::Nothing);
    assert_eq!(lookup(&case_a(), &table, 1, b""), Lookup::Nothing);
    assert_eq!(lookup(&case_a(), &table, 2, b"x"), Lookup::Refused(Refusal::Scope));
    table[0] = 12;
    assert_eq!(lookup(&case_a(), &table, 1, b"x"), Lookup::Refused(Refusal::Unsound));
}

#[test]
fn lookup_tells_where() {
    let (image, mut table) = (model(), vec![0; table_len(9)]);
    assert_eq!(resolve(&image, &mut table), Resolve::Done { scopes: 2, symbols: 3 });
    // the model's own p, the module's, and the model's name, which the module has
    assert_eq!(lookup(&image, &table, 1, b"p"), Lookup::Found { symbol: Symbol::Pred, node: 4, scope: 1 });
    assert_eq!(lookup(&image, &table, 0, b"p"), Lookup::Found { symbol: Symbol::Pred, node: 1, scope: 0 });
    assert_eq!(lookup(&image, &table, 1, b"M"), Lookup::Found { symbol: Symbol::Model, node: 6, scope: 0 });
}

#[test]
fn index_chains_the_symbols_of_a_name() {
    let (image, mut table) = (model(), vec![0; table_len(9)]);
    assert_eq!(resolve(&image, &mut table), Resolve::Done { scopes: 2, symbols: 3 });
    let mut words = vec![7; index_len(9, 2) + 1];
    assert_eq!(index(&image, &table, &mut words), Index::Made(3));
    // p stands in rows 0 and 2, M in row 1; nothing past the index is written
    assert_eq!(rows_of(&words, 2, 0).collect::<Vec<_>>(), [0, 2]);
    assert_eq!(rows_of(&words, 2, 1).collect::<Vec<_>>(), [1]);
    assert_eq!(words[..5], [0, 1, 2, NO_ROW, NO_ROW]);
    assert!(words[5..11].iter().all(|&w| w == NO_ROW));
    assert_eq!(words[11], 7);
    let node = |row| table[place(Array::SymbolNode, 9, row)];
    assert_eq!((node(0), node(1), node(2)), (1, 6, 4));
    // refused, it alters nothing
    let mut short = vec![7; index_len(9, 2) - 1];
    assert_eq!(index(&image, &table, &mut short), Index::Refused(Refusal::Index));
    assert_eq!(index(&image, &table[1..], &mut words), Index::Refused(Refusal::Table));
    assert!(short.iter().all(|&w| w == 7));
    assert_eq!(words[..5], [0, 1, 2, NO_ROW, NO_ROW]);
}

#[test]
fn lookup_by_the_index() {
    let (image, mut table) = (model(), vec![0; table_len(9)]);
    resolve(&image, &mut table);
    let mut words = vec![7; index_len(9, 2) + 1];
    index(&image, &table, &mut words);
    for scope in 0..3 {
        for name in [&b"p"[..], b"M", b"q", b""] {
            assert_eq!(lookup_indexed(&image, &table, &words, scope, name), lookup(&image, &table, scope, name));
        }
    }
    let refused = |words: &[u32], scope| lookup_indexed(&image, &table, words, scope, b"p");
    assert_eq!(refused(&words[..10], 1), Lookup::Refused(Refusal::Index));
    // a scope that there is not comes before a wrong index
    assert_eq!(refused(&words[..10], 2), Lookup::Refused(Refusal::Scope));
    words[11] = 8;
    assert_eq!(refused(&words, 1), Lookup::Found { symbol: Symbol::Pred, node: 4, scope: 1 });
    words[10] = 0;
    assert_eq!(refused(&words, 1), Lookup::Refused(Refusal::Index));
}

#[test]
fn rows_of_any_words() {
    assert_eq!(rows_of(&[], 0, 0).count(), 0);
    assert_eq!(rows_of(&[0, 0], 1, 0).count(), 2);
    assert_eq!(rows_of(&[5, 9], 1, 0).collect::<Vec<_>>(), [5]);
    assert_eq!(rows_of(&[5, 9], 1, 1).count(), 0);
    assert_eq!(rows_of(&[1, 2], usize::MAX, 0).collect::<Vec<_>>(), [1]);
}

#[test]
fn errors_writes_rows() {
    let (mut table, mut rows) = lent();
    assert_eq!(errors(&case_a(), &mut table, &mut rows, Mode::Plain), Rows::Written(0));
    assert!(rows.iter().all(|&w| w == 0));
    // y is introduced in a then-statement
    assert_eq!(errors(&lone(), &mut table, &mut rows, Mode::Default), Rows::Written(1));
    assert_eq!(pairs(&rows, 11).collect::<Vec<_>>(), [(1, 3)]);
    assert_eq!(errors_by_number(&lone(), &mut table, &mut rows, 3), Rows::Refused(Refusal::Mode));
    let short = rows_len(11) - 1;
    assert_eq!(errors(&lone(), &mut table, &mut rows[..short], Mode::Strict), Rows::Refused(Refusal::Rows));
    let mut small = vec![0; table_len(5)];
    assert_eq!(
        errors(&twice(), &mut small, &mut rows, Mode::Plain),
        Rows::Twice(Twice { name: 0, first: 2, second: 1 })
    );
}

/// A predicate with arguments of so many names, each a number from 1 on, or 0 for none; their list has them in the sequence of
/// `order`. Argument i is node 3 i + 2.
fn arguments(names: &[u32], order: &[u32]) -> Vec<u8> {
    let mut rows: Vec<(u32, Vec<u32>)> = Vec::new();
    for name in names {
        let n = rows.len() as u32;
        rows.extend([(24, vec![0]), (23, vec![0, n]), (10, vec![*name, n + 1])]);
    }
    let n = rows.len() as u32;
    let list = [names.len() as u32].into_iter().chain(order.iter().map(|i| 3 * i + 2)).collect();
    rows.extend([(11, list), (3, vec![0, n]), (1, vec![1, n + 1]), (0, vec![1, n + 2])]);
    let rows: Vec<(u32, &[u32])> = rows.iter().map(|(kind, words)| (*kind, &words[..])).collect();
    image(&rows, &["a", "b", "c"])
}

#[test]
fn strict_finds_repeated_arguments() {
    let strict = |names: &[u32], order: &[u32]| {
        let image = arguments(names, order);
        let n = 3 * names.len() + 4;
        let (mut table, mut rows) = (vec![0; table_len(n)], vec![0; rows_len(n)]);
        assert_eq!(errors(&image, &mut table, &mut rows, Mode::Plain), Rows::Written(0));
        let Rows::Written(count) = errors(&image, &mut table, &mut rows, Mode::Strict) else { panic!("no rows") };
        let list: Vec<_> = pairs(&rows, n).collect();
        assert_eq!(list.len(), count as usize);
        assert!(list.iter().all(|row| row.0 == 4));
        list.iter().map(|row| row.1).collect::<Vec<_>>()
    };
    // next to one another, and further apart
    assert_eq!(strict(&[1, 1], &[0, 1]), [5]);
    assert_eq!(strict(&[1, 2, 1], &[0, 1, 2]), [8]);
    assert_eq!(strict(&[1, 1, 1], &[0, 1, 2]), [5, 8]);
    assert_eq!(strict(&[1, 2, 1, 2, 3, 1], &[0, 1, 2, 3, 4, 5]), [8, 11, 17]);
    // no name twice; no names
    assert_eq!(strict(&[1, 2, 3], &[0, 1, 2]), []);
    assert_eq!(strict(&[0, 0, 1, 0], &[0, 1, 2, 3]), []);
    assert_eq!(strict(&[1, 0, 2, 0, 1], &[0, 1, 2, 3, 4]), [14]);
    // earlier in the list's sequence; rows by rising node number
    assert_eq!(strict(&[1, 2, 1], &[2, 1, 0]), [2]);
    assert_eq!(strict(&[1, 2, 1, 2], &[3, 2, 1, 0]), [2, 5]);
}

#[test]
fn strict_unless_told_otherwise() {
    // a, b, a
    let image = arguments(&[1, 2, 1], &[0, 1, 2]);
    let done = |call: &dyn Fn(&mut [u32], &mut [u32]) -> Rows| {
        let (mut table, mut rows) = (vec![7; table_len(13)], vec![7; rows_len(13)]);
        (call(&mut table, &mut rows), table, rows)
    };
    let strict = done(&|table, rows| errors(&image, table, rows, Mode::Strict));
    assert_eq!((strict.0, pairs(&strict.2, 13).collect()), (Rows::Written(1), vec![(4, 8)]));
    assert_eq!(done(&|table, rows| errors(&image, table, rows, Mode::default())), strict);
    assert_eq!(done(&|table, rows| errors_by_number(&image, table, rows, 0)), strict);
    assert_eq!(done(&|table, rows| sorted(&image, table, rows, Mode::default())), strict);
    // the live check is plain
    let plain = done(&|table, rows| errors_by_number(&image, table, rows, 1));
    assert_eq!(plain.0, Rows::Written(0));
    assert_eq!(done(&|table, rows| errors(&image, table, rows, Mode::Plain)), plain);
    assert_eq!(done(&|table, rows| live_check(&image, table, rows)), plain);
}

#[test]
fn live_check_is_plain_errors() {
    let (mut table, mut rows) = lent();
    // y is introduced in a then-statement
    assert_eq!(live_check(&lone(), &mut table, &mut rows), Rows::Written(1));
    assert_eq!(pairs(&rows, 11).collect::<Vec<_>>(), [(1, 3)]);
    assert_eq!(live_check(&lone(), &mut table, &mut rows[..rows_len(11) - 1]), Rows::Refused(Refusal::Rows));
    let clash = Twice { name: 0, first: 2, second: 1 };
    assert_eq!(live_check(&twice(), &mut table, &mut rows), Rows::Twice(clash));
}

#[test]
fn sorted_writes_rows_by_place() {
    let mut table = vec![7; table_len(19) + 1];
    let mut rows = vec![7; rows_len(19) + 1];
    let mut by_place = |places| {
        let answer = sorted(&three_new(places), &mut table, &mut rows, Mode::Plain);
        assert_eq!(answer, Rows::Written(3));
        assert_eq!((table[table_len(19)], rows[rows_len(19)]), (7, 7));
        assert!(rows[4..20].iter().all(|&w| w == 0));
        pairs(&rows, 19).collect::<Vec<_>>()
    };
    // x, y and z are introduced in then-statements; rows of one place stay in that sequence
    assert_eq!(by_place([5, 6, 7]), [(1, 1), (1, 3), (1, 9)]);
    assert_eq!(by_place([7, 6, 5]), [(1, 9), (1, 3), (1, 1)]);
    assert_eq!(by_place([6, 5, 6]), [(1, 3), (1, 1), (1, 9)]);
    assert_eq!(by_place([0, 0, 0]), [(1, 1), (1, 3), (1, 9)]);
    assert_eq!(by_place([u32::MAX, 0, 1]), [(1, 3), (1, 9), (1, 1)]);
    // otherwise as errors
    let image = three_new([7, 6, 5]);
    assert_eq!(errors(&image, &mut table, &mut rows, Mode::Plain), Rows::Written(3));
    assert_eq!(pairs(&rows, 19).collect::<Vec<_>>(), [(1, 1), (1, 3), (1, 9)]);
    assert_eq!(sorted_by_number(&image, &mut table, &mut rows, 3), Rows::Refused(Refusal::Mode));
    let short = rows_len(19) - 1;
    assert_eq!(sorted(&image, &mut table, &mut rows[..short], Mode::Strict), Rows::Refused(Refusal::Rows));
    assert_eq!(pairs(&rows, 19).collect::<Vec<_>>(), [(1, 1), (1, 3), (1, 9)]);
    let mut small = vec![7; table_len(5)];
    let clash = Twice { name: 0, first: 2, second: 1 };
    assert_eq!(sorted(&twice(), &mut small, &mut rows, Mode::Default), Rows::Twice(clash));
    assert_eq!(pairs(&rows, 19).collect::<Vec<_>>(), [(1, 1), (1, 3), (1, 9)]);
}

#[test]
fn once_finds_the_lone_one() {
    let (mut table, _) = lent();
    assert_eq!(once(&case_a(), &mut table), Once::Ok);
    assert_eq!(once(&lone(), &mut table), Once::Lone { node: 1, binding: 0 });
    assert_eq!(once(&[1], &mut table), Once::Refused(Refusal::Header));
}

#[test]
fn occurrences_are_listed() {
    let (mut table, mut rows) = lent();
    assert_eq!(occurrences(&case_a(), &mut table, &mut rows), Rows::Written(2));
    assert_eq!(pairs(&rows, 11).collect::<Vec<_>>(), [(1, 0), (3, 0)]);
    // a defined-then's variable before its term
    assert_eq!(occurrences(&lone(), &mut table, &mut rows), Rows::Written(2));
    assert_eq!(pairs(&rows, 11).collect::<Vec<_>>(), [(1, 0), (3, 2)]);
}

#[test]
fn rename_writes_the_image_with_a_variable_renamed() {
    let old = applied(0);
    let len = old.len();
    let (mut table, mut rows) = (vec![7; table_len(22) + 1], vec![7; rows_len(22) + 1]);
    let mut out = vec![7; len + 2];
    // x to z, at any place in memory: its two places, the second an app head; past the image nothing is written
    assert_eq!(rename(&old, &mut table, &mut rows, 0, 2, &mut out[1..]), Rename::Written(len));
    assert_eq!(out[1..=len], applied(2));
    assert_eq!((out[0], out[len + 1]), (7, 7));
    assert_eq!((table[table_len(22)], rows[rows_len(22)]), (7, 7));
    // table and rows are those of the image, which are those of the new one
    let list = [(1, 0), (3, 2), (9, 0), (11, 2)];
    let done = |image: &[u8]| {
        let (mut table, mut rows) = (vec![7; table_len(22) + 1], vec![7; rows_len(22) + 1]);
        assert_eq!(occurrences(image, &mut table, &mut rows), Rows::Written(4));
        assert_eq!(pairs(&rows, 22).collect::<Vec<_>>(), list);
        (table, rows)
    };
    assert_eq!(done(&old), (table, rows));
    assert_eq!(done(&out[1..=len]).1, done(&old).1);
    // and back; the own name copies
    let (mut table, mut rows) = done(&old);
    let mut back = vec![7; len];
    assert_eq!(rename(&out[1..=len], &mut table, &mut rows, 0, 0, &mut back), Rename::Written(len));
    assert_eq!(back, old);
    assert_eq!(rename(&old, &mut table, &mut rows, 2, 1, &mut out), Rename::Written(len));
    assert_eq!(out[..len], old);
}

#[test]
fn rename_refuses() {
    let image = applied(0);
    let len = image.len();
    let (mut table, mut rows) = (vec![7; table_len(22)], vec![7; rows_len(22)]);
    let mut out = vec![7; len];
    let altered = |table: &[u32], rows: &[u32]| table.iter().chain(rows).any(|&word| word != 7);
    // buffers, and what is lent without any words or bytes: nothing is altered
    assert_eq!(rename(&[], &mut [], &mut [], 0, 0, &mut []), Rename::Refused(Refusal::Header));
    let short = rows_len(22) - 1;
    assert_eq!(rename(&image, &mut table, &mut rows[..short], 0, 2, &mut out), Rename::Refused(Refusal::Rows));
    assert_eq!(rename(&image, &mut table, &mut rows, 0, 2, &mut out[1..]), Rename::Refused(Refusal::Rows));
    assert_eq!(rename(&image, &mut table, &mut rows, 1, 3, &mut []), Rename::Refused(Refusal::Rows));
    assert!(!altered(&table, &rows));
    // table and rows are as occurrences leaves them: of nodes that are no binding (a name that there is not comes after that),
    // of a name number that there is not, and of a name that the rule has for the other variable
    let mut refused = |binding, name, refusal| {
        let (mut table, mut rows) = (vec![7; table_len(22)], vec![7; rows_len(22)]);
        assert_eq!(rename(&image, &mut table, &mut rows, binding, name, &mut out), Rename::Refused(refusal));
        assert_eq!(pairs(&rows, 22).collect::<Vec<_>>(), [(1, 0), (3, 2), (9, 0), (11, 2)]);
        assert_eq!(table[..3], [22, 3, 2]);
    };
    for binding in [1, 8, 21, 22, u32::MAX] {
        refused(binding, 2, Refusal::Binding);
        refused(binding, 3, Refusal::Binding);
    }
    refused(0, 3, Refusal::Name);
    refused(2, u32::MAX, Refusal::Name);
    refused(0, 1, Refusal::Occurrences);
    refused(2, 0, Refusal::Occurrences);
    assert!(out.iter().all(|&byte| byte == 7));
    // twice: the table is cleared, the rest unaltered
    let clash = Twice { name: 0, first: 2, second: 1 };
    assert_eq!(rename(&twice(), &mut table, &mut rows, 0, 0, &mut out), Rename::Twice(clash));
    assert!(table[..table_len(5)].iter().all(|&word| word == 0));
    assert!(!altered(&table[table_len(5)..], &rows));
    assert!(out.iter().all(|&byte| byte == 7));
}

#[test]
fn names_are_parts_of_the_image() {
    let image = lone();
    assert_eq!(name(&image, 0), b"x");
    assert_eq!(name(&image, 1), b"y");
    assert_eq!(name(&image, 1).as_ptr(), image[image.len() - 1..].as_ptr());
    assert_eq!(name(&image, 2), b"");
    assert_eq!(name(&image[1..], 0), b"");
}

#[test]
fn refusals_by_number() {
    for number in 1..=21 {
        assert_eq!(Refusal::from_number(number).map(Refusal::number), Some(number));
    }
    assert_eq!(Refusal::from_number(0), None);
    assert_eq!(Refusal::from_number(22), None);
}

#[test]
fn an_empty_module() {
    let mut table = [0; table_len(1)];
    assert_eq!(resolve(&EMPTY_MODULE, &mut table), Resolve::Done { scopes: 1, symbols: 0 });
}

#[test]
fn pairs_of_any_words() {
    assert_eq!(pairs(&[], 11).count(), 0);
    assert_eq!(pairs(&[7], 0).count(), 0);
    assert_eq!(pairs(&[9, 1, 2], 1).collect::<Vec<_>>(), [(1, 2)]);
    assert_eq!(pairs(&[9, 1, 2], usize::MAX).count(), 0);
}

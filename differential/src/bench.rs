//! The original Rust and this library on the same inputs, in one run: medians in microseconds.
//!
//! The Rust has its `Ast` built before the clock starts. The library tests the image and resolves in every call, into
//! buffers that are reused and not cleared.

use std::time::Instant;

use differential::calls::{Answer, Calls, PLAIN, STRICT};
use differential::image::{Sketch, Word};
use differential::inputs::{deep, pad, Deep};
use differential::make::{Make, Style};
use differential::random::Random;
use differential::reading::layout::{index_words, rows_words, table_words};
use differential::reading::tests::{sizes, verdict};
use differential::reading::walk::Rows;
use original::Built;
use Word::{Child, MaybeName, Name, Plain};

/// Rows of rule files as a person writes them.
#[derive(Default)]
struct File {
    s: Sketch,
    decls: Vec<usize>,
}

impl File {
    fn name(&mut self, text: &str) -> u32 {
        if let Some(i) = self.s.names.iter().position(|n| n == text.as_bytes()) {
            return i as u32;
        }
        self.s.names.push(text.as_bytes().to_vec());
        self.s.names.len() as u32 - 1
    }

    fn list(&mut self, kind: u32, mut words: Vec<Word>, items: &[usize]) -> usize {
        words.push(Plain(items.len() as u32));
        words.extend(items.iter().map(|&i| Child(i)));
        self.s.push(kind, words)
    }

    fn decl(&mut self, case: u32, child: usize) {
        let decl = self.s.push(1, vec![Plain(case), Child(child)]);
        self.decls.push(decl);
    }

    fn type_expr(&mut self, name: &str) -> usize {
        let name = self.name(name);
        let child = self.s.push(24, vec![Name(name)]);
        self.s.push(23, vec![Plain(0), Child(child)])
    }

    /// Arguments, each a name, if it has one, and a type.
    fn args<'a>(&mut self, args: impl Iterator<Item = (Option<&'a str>, &'a str)>) -> usize {
        let args: Vec<usize> = args
            .map(|(name, typ)| {
                let typ = self.type_expr(typ);
                let name = name.map(|name| self.name(name));
                self.s.push(10, vec![MaybeName(name), Child(typ)])
            })
            .collect();
        self.list(11, Vec::new(), &args)
    }

    fn type_decl(&mut self, name: &str) {
        let name = self.name(name);
        let child = self.s.push(2, vec![Name(name)]);
        self.decl(0, child);
    }

    fn pred_decl<'a>(&mut self, name: &str, args: impl Iterator<Item = (Option<&'a str>, &'a str)>) {
        let name = self.name(name);
        let args = self.args(args);
        let child = self.s.push(3, vec![Name(name), Child(args)]);
        self.decl(1, child);
    }

    fn func_decl(&mut self, name: &str, types: &[&str], result: &str) {
        let name = self.name(name);
        let args = self.args(unnamed(types));
        let result = self.type_expr(result);
        let child = self.s.push(4, vec![Name(name), Child(args), Child(result)]);
        self.decl(2, child);
    }

    fn ident(&mut self, name: &str) -> usize {
        let name = self.name(name);
        let ident = self.s.push(13, vec![Name(name)]);
        self.s.push(12, vec![Plain(0), Child(ident)])
    }

    fn terms(&mut self, names: &[&str]) -> usize {
        let terms: Vec<usize> = names.iter().map(|n| self.ident(n)).collect();
        self.list(22, Vec::new(), &terms)
    }

    fn app(&mut self, head: &str, args: &[&str]) -> usize {
        let name = self.name(head);
        let ident = self.s.push(13, vec![Name(name)]);
        let head = self.s.push(15, vec![Plain(0), Child(ident)]);
        let args = self.terms(args);
        let app = self.s.push(14, vec![Child(head), Child(args)]);
        self.s.push(12, vec![Plain(2), Child(app)])
    }

    fn pred(&mut self, name: &str, args: &[&str]) -> usize {
        let name = self.name(name);
        let child = self.s.push(27, vec![Name(name)]);
        let pred = self.s.push(26, vec![Plain(0), Child(child)]);
        let args = self.terms(args);
        self.s.push(31, vec![Child(pred), Child(args)])
    }

    fn if_stmt(&mut self, case: u32, atom: usize) -> usize {
        let atom = self.s.push(28, vec![Plain(case), Child(atom)]);
        let stmt = self.s.push(37, vec![Child(atom)]);
        self.s.push(36, vec![Plain(0), Child(stmt)])
    }

    fn then_stmt(&mut self, case: u32, atom: usize) -> usize {
        let atom = self.s.push(29, vec![Plain(case), Child(atom)]);
        let stmt = self.s.push(38, vec![Child(atom)]);
        self.s.push(36, vec![Plain(1), Child(stmt)])
    }

    fn if_pred(&mut self, name: &str, args: &[&str]) -> usize {
        let atom = self.pred(name, args);
        self.if_stmt(2, atom)
    }

    fn if_equal(&mut self, lhs: usize, rhs: usize) -> usize {
        let atom = self.s.push(30, vec![Child(lhs), Child(rhs)]);
        self.if_stmt(0, atom)
    }

    fn rule(&mut self, body: &[usize]) {
        let rule = self.list(6, vec![MaybeName(None)], body);
        self.decl(4, rule);
    }

    /// The whole file, with declarations that fill it up to so many nodes.
    fn done(mut self, nodes: usize) -> Vec<u8> {
        let decls = std::mem::take(&mut self.decls);
        self.list(0, Vec::new(), &decls);
        if nodes > self.s.rows.len() + 1 {
            pad(&mut self.s, nodes);
        }
        let image = self.s.parts(&self.s.natural()).encode();
        assert_eq!(verdict(&image), None, "{} nodes, {} operands", self.s.rows.len(), self.s.operands());
        image
    }
}

/// Arguments of these types, without names.
fn unnamed<'a>(types: &'a [&'a str]) -> impl Iterator<Item = (Option<&'a str>, &'a str)> {
    types.iter().map(|typ| (None, *typ))
}

/// Sharing rules: some types, predicates and functions, then rules of 5 to 10 variables each, every variable used twice.
fn typical(rules: usize, nodes: usize) -> Vec<u8> {
    let mut f = File::default();
    for t in ["Person", "Vault", "Login"] {
        f.type_decl(t);
    }
    f.pred_decl("shares", unnamed(&["Person", "Vault", "Person"]));
    f.func_decl("owner", &["Vault"], "Person");
    let vars: Vec<String> = (0..10).map(|i| format!("v{i}")).collect();
    for made in 0..rules {
        let count: usize = [5, 6, 5, 7, 5, 8, 6, 10, 5, 9][made % 10];
        if f.s.rows.len() + 13 * (2 * count).div_ceil(3) + 20 > nodes {
            break;
        }
        // the variables in turn, each twice or more
        let mut next = 0;
        let mut var = || {
            next += 1;
            vars[(next - 1) % count].as_str()
        };
        let mut body = Vec::new();
        for i in 0..(2 * count).div_ceil(3) {
            body.push(if i == 1 {
                let lhs = f.app("owner", &[var()]);
                let rhs = f.ident(var());
                f.if_equal(lhs, rhs)
            } else {
                f.if_pred("shares", &[var(), var(), var()])
            });
        }
        let atom = f.pred("shares", &[var(), var(), var()]);
        body.push(f.then_stmt(2, atom));
        f.rule(&body);
    }
    f.done(nodes)
}

/// One rule of so many statements `if a = b`, over so many variables, each used at least twice.
fn long_rule(statements: usize, variables: usize, nodes: usize) -> Vec<u8> {
    let mut f = File::default();
    let names: Vec<String> = (0..variables).map(|i| format!("v{i}")).collect();
    let body: Vec<usize> = (0..statements)
        .map(|i| {
            let lhs = f.ident(&names[i % variables]);
            let rhs = f.ident(&names[(i * 7 + 1) % variables]);
            f.if_equal(lhs, rhs)
        })
        .collect();
    f.rule(&body);
    f.done(nodes)
}

/// Branches in branches, each of which introduces a variable and uses it.
fn deep_branches(levels: usize, nodes: usize) -> Vec<u8> {
    let mut f = File::default();
    let names: Vec<String> = (0..levels).map(|i| format!("v{i}")).collect();
    let mut inner: Option<usize> = None;
    for name in names.iter().rev() {
        let lhs = f.ident(name);
        let rhs = f.ident(name);
        let mut block = vec![f.if_equal(lhs, rhs)];
        block.extend(inner);
        let branch = f.list(39, vec![Plain(1)], &block);
        inner = Some(f.s.push(36, vec![Plain(2), Child(branch)]));
    }
    f.rule(&[inner.expect("a level")]);
    f.done(nodes)
}

/// One rule of one atom, `if` or `then`, with so many variables, all different.
fn one_atom(then: bool, variables: usize) -> Vec<u8> {
    one_atom_at(then, variables, |_| 0)
}

/// The same, with a second location word for each row by its number.
fn one_atom_at(then: bool, variables: usize, mut place: impl FnMut(u32) -> u32) -> Vec<u8> {
    let mut f = File::default();
    let names: Vec<String> = (0..variables).map(|i| format!("v{i}")).collect();
    let args: Vec<&str> = names.iter().map(String::as_str).collect();
    let atom = f.pred("shares", &args);
    let stmt = if then { f.then_stmt(2, atom) } else { f.if_stmt(2, atom) };
    f.rule(&[stmt]);
    for (i, row) in f.s.rows.iter_mut().enumerate() {
        row.location = [0, place(i as u32)];
    }
    f.done(0)
}

fn declarations(count: usize) -> Vec<u8> {
    let mut f = File::default();
    for i in 0..count {
        f.type_decl(&format!("t{i}"));
    }
    f.done(0)
}

fn mixed(nodes: usize) -> Vec<u8> {
    let mut r = Random::new(7, 7);
    let mut style = Style::even();
    style.clash = 0;
    style.long = 12;
    let mut m = Make::new(&mut r, style, nodes - 100);
    m.module();
    m.name_all(differential::make::Letters::Short, 0);
    let mut s = m.sketch;
    pad(&mut s, nodes);
    let image = s.parts(&s.natural()).encode();
    assert_eq!(verdict(&image), None);
    image
}

fn deep_terms(nodes: usize) -> Vec<u8> {
    let mut r = Random::new(1, 1);
    let s = deep(Deep::Terms, nodes, &mut r);
    s.parts(&s.natural()).encode()
}

const ROUNDS: usize = 101;

/// The median of some rounds, in microseconds.
fn median(times: &mut [f64]) -> f64 {
    times.sort_by(f64::total_cmp);
    times[times.len() / 2]
}

fn clock(mut f: impl FnMut()) -> f64 {
    let started = Instant::now();
    f();
    started.elapsed().as_secs_f64() * 1e6
}

fn sink(value: usize) {
    std::hint::black_box(value);
}

struct Line {
    name: String,
    nodes: usize,
    rust: [f64; 4],
    here: [f64; 4],
    tests: f64,
}

fn time(name: &str, image: &[u8], subject: &dyn Calls) -> Line {
    let n = sizes(image).n;
    let built = Built::new(image).expect("the original sources");
    let mut table = vec![0u32; table_words(n)];
    let mut rows = vec![0u32; rows_words(n)];
    let mut rust = vec![Vec::new(); 4];
    let mut here = vec![Vec::new(); 4];
    let mut tests = Vec::new();
    let mut sum = 0usize;
    let mut add = |answer: Answer| sum += count(answer);
    for _ in 0..ROUNDS {
        rust[0].push(clock(|| sink(built.resolve())));
        here[0].push(clock(|| add(subject.resolve(image, &mut table))));
        rust[1].push(clock(|| sink(built.errors())));
        here[1].push(clock(|| add(subject.errors(image, &mut table, &mut rows, PLAIN))));
        rust[2].push(clock(|| sink(built.once())));
        here[2].push(clock(|| add(subject.once(image, &mut table))));
        rust[3].push(clock(|| sink(built.all())));
        here[3].push(clock(|| add(subject.occurrences(image, &mut table, &mut rows))));
        // lent no table, Resolve tests the image and refuses
        tests.push(clock(|| match subject.resolve(image, &mut []) {
            Answer::Refused(13) => {}
            other => panic!("{name}: {other:?}"),
        }));
    }
    std::hint::black_box(sum);
    let medians = |times: &mut Vec<Vec<f64>>| [0, 1, 2, 3].map(|i| median(&mut times[i]));
    Line { name: name.to_string(), nodes: n, rust: medians(&mut rust), here: medians(&mut here), tests: median(&mut tests) }
}

/// The numbers of an answer that is neither a refusal nor "twice", added up.
fn count(answer: Answer) -> usize {
    match answer {
        Answer::Result(a, b) | Answer::Other(a, b) => (a + b) as usize,
        other => panic!("{other:?}"),
    }
}

/// Errors and Sorted on one image, in turn: medians in microseconds, and the rows.
fn time_sorted(image: &[u8], subject: &dyn Calls) -> (f64, f64, u32) {
    let n = sizes(image).n;
    let mut table = vec![0u32; table_words(n)];
    let mut rows = vec![0u32; rows_words(n)];
    let (mut errors, mut sorted) = (Vec::new(), Vec::new());
    for _ in 0..ROUNDS {
        errors.push(clock(|| sink(count(subject.errors(image, &mut table, &mut rows, PLAIN)))));
        sorted.push(clock(|| sink(count(subject.sorted(image, &mut table, &mut rows, PLAIN)))));
    }
    (median(&mut errors), median(&mut sorted), rows[0])
}

/// Sorted beside Errors: 1,000 error rows whose places rise, are equal, fall or are drawn; and files with few error rows.
fn run_sorted(subject: &dyn Calls) {
    let mut r = Random::new(3, 3);
    let inputs: [(&str, Vec<u8>); 6] = [
        ("1,000 error rows, places rise", one_atom_at(true, 1000, |i| i)),
        ("1,000 error rows, one place", one_atom(true, 1000)),
        ("1,000 error rows, places fall", one_atom_at(true, 1000, |i| u32::MAX - i)),
        ("1,000 error rows, places drawn", one_atom_at(true, 1000, |_| r.word() as u32)),
        ("typical, 30 rules", typical(30, 2047)),
        ("largest, mixed", mixed(2048)),
    ];
    println!();
    println!("| input | error rows | L errors | L sorted | sorted / errors |");
    println!("|---|---|---|---|---|");
    for (name, image) in &inputs {
        let (errors, sorted, count) = time_sorted(image, subject);
        println!("| {name} | {count} | {errors:.1} | {sorted:.1} | {:.2} |", sorted / errors);
    }
}

/// So many predicates of so many arguments each, which have so many names in turn; with 0 they have none.
fn arguments(predicates: usize, count: usize, names: usize) -> Vec<u8> {
    let mut f = File::default();
    let args: Vec<Option<String>> = (0..count).map(|i| (names > 0).then(|| format!("a{}", i % names))).collect();
    for i in 0..predicates {
        f.pred_decl(&format!("p{i}"), args.iter().map(|name| (name.as_deref(), "Person")));
    }
    f.done(0)
}

/// Errors in plain and in strict mode on one image, in turn: medians in microseconds, and the rows of strict mode.
fn time_strict(image: &[u8], subject: &dyn Calls) -> (f64, f64, u32) {
    let n = sizes(image).n;
    let mut table = vec![0u32; table_words(n)];
    let mut rows = vec![0u32; rows_words(n)];
    let mut times = [Vec::new(), Vec::new()];
    for _ in 0..ROUNDS {
        for (times, mode) in times.iter_mut().zip([PLAIN, STRICT]) {
            times.push(clock(|| sink(count(subject.errors(image, &mut table, &mut rows, mode)))));
        }
    }
    let [mut plain, mut strict] = times;
    (median(&mut plain), median(&mut strict), rows[0])
}

/// Strict mode beside plain: lists of 600 arguments, many short lists, and files with few named arguments.
fn run_strict(subject: &dyn Calls) {
    let inputs: [(&str, Vec<u8>); 8] = [
        ("600 arguments, all of different names", arguments(1, 600, 600)),
        ("600 arguments, the last named as the first", arguments(1, 600, 599)),
        ("600 arguments, two names in turn", arguments(1, 600, 2)),
        ("600 arguments, one name", arguments(1, 600, 1)),
        ("600 arguments, no name", arguments(1, 600, 0)),
        ("150 lists of three arguments, two names in turn", arguments(150, 3, 2)),
        ("typical, 30 rules", typical(30, 2047)),
        ("typical of 128 nodes", typical(1000, 128)),
    ];
    println!();
    println!("| input | N | error rows, strict | L plain | L strict | strict / plain |");
    println!("|---|---|---|---|---|---|");
    for (name, image) in &inputs {
        let (plain, strict, count) = time_strict(image, subject);
        println!("| {name} | {} | {count} | {plain:.2} | {strict:.2} | {:.2} |", sizes(image).n, strict / plain);
    }
}

/// The image test, the call that makes the index, and both lookups from the last scope, of so many names in turn: medians in
/// microseconds, of one lookup. First how many symbols and scopes there are.
fn time_indexed(image: &[u8], subject: &dyn Calls) -> (u32, u32, [f64; 4]) {
    let (n, s) = (sizes(image).n, sizes(image).s);
    let mut table = vec![0u32; table_words(n)];
    let Answer::Result(scopes, symbols) = subject.resolve(image, &mut table) else { panic!("no table") };
    let mut index = vec![0u32; index_words(n, s)];
    assert_eq!(subject.index(image, &table, &mut index), Answer::Result(0, symbols));
    let names: Vec<&[u8]> = (0..s)
        .step_by(s.div_ceil(20))
        .map(|i| {
            let (start, len) = subject.name(image, i as u32);
            &image[start..start + len]
        })
        .collect();
    let mut times = vec![Vec::new(); 4];
    for _ in 0..ROUNDS {
        times[0].push(clock(|| sink(refused(subject.resolve(image, &mut [])))));
        times[1].push(clock(|| sink(count(subject.index(image, &table, &mut index)))));
        let each = |f: &dyn Fn(&[u8]) -> Answer| clock(|| names.iter().for_each(|name| sink(found(f(name))))) / names.len() as f64;
        times[2].push(each(&|name| subject.lookup(image, &table, scopes - 1, name)));
        times[3].push(each(&|name| subject.lookup_indexed(image, &table, &index, scopes - 1, name)));
    }
    (symbols, scopes, [0, 1, 2, 3].map(|i| median(&mut times[i])))
}

/// The number of a refusal.
fn refused(answer: Answer) -> usize {
    match answer {
        Answer::Refused(number) => number as usize,
        other => panic!("{other:?}"),
    }
}

/// What a lookup found, as a number.
fn found(answer: Answer) -> usize {
    match answer {
        Answer::Located(scope, _, node) => (scope + node) as usize,
        Answer::Other(0, 0) => 0,
        other => panic!("{other:?}"),
    }
}

/// Lookup beside lookup through the index. Both test image and table first, which is most of their time; the index test is
/// in the second.
fn run_indexed(subject: &dyn Calls) {
    let inputs: [(&str, Vec<u8>); 5] = [
        ("typical, 30 rules", typical(30, 2047)),
        ("typical of 128 nodes", typical(1000, 128)),
        ("1,000 declarations", declarations(1000)),
        ("900 scopes in one chain", one_atom(false, 900)),
        ("largest, mixed", mixed(2048)),
    ];
    println!();
    println!("| input | N | symbols | scopes | L tests | L index | L lookup | L indexed | indexed / lookup |");
    println!("|---|---|---|---|---|---|---|---|---|");
    for (name, image) in &inputs {
        let (symbols, scopes, [tests, index, lookup, indexed]) = time_indexed(image, subject);
        println!(
            "| {name} | {} | {symbols} | {scopes} | {tests:.1} | {index:.1} | {lookup:.1} | {indexed:.1} | {:.2} |",
            sizes(image).n,
            indexed / lookup
        );
    }
}

/// A binding of the image, the name number of another name that Rename gives it, and its own: the first such binding of the
/// list, and the first such name.
fn renaming(image: &[u8], subject: &dyn Calls) -> (u32, u32, u32) {
    let z = sizes(image);
    let (mut table, mut rows) = (vec![0u32; table_words(z.n)], vec![0u32; rows_words(z.n)]);
    let mut out = vec![0u8; image.len()];
    let Answer::Result(_, count) = subject.occurrences(image, &mut table, &mut rows) else { panic!("no list") };
    let names = Rows::new(image);
    for binding in rows[1 + z.n..][..count as usize].to_vec() {
        let own = names.name(binding).expect("a named node");
        for name in (0..z.s as u32).filter(|&name| name != own) {
            if let Answer::Result(..) = subject.rename(image, &mut table, &mut rows, binding, name, &mut out) {
                return (binding, name, own);
            }
        }
    }
    panic!("no variable can be renamed");
}

/// Occurrences, then Rename to another name and to the own name, in turn: medians in microseconds, and how often the variable
/// occurs.
fn time_rename(image: &[u8], subject: &dyn Calls) -> ([f64; 3], usize) {
    let n = sizes(image).n;
    let (mut table, mut rows) = (vec![0u32; table_words(n)], vec![0u32; rows_words(n)]);
    let mut out = vec![0u8; image.len()];
    let (binding, other, own) = renaming(image, subject);
    let mut times = [Vec::new(), Vec::new(), Vec::new()];
    for _ in 0..ROUNDS {
        times[0].push(clock(|| sink(count(subject.occurrences(image, &mut table, &mut rows)))));
        for (times, name) in times[1..].iter_mut().zip([other, own]) {
            times.push(clock(|| sink(count(subject.rename(image, &mut table, &mut rows, binding, name, &mut out)))));
        }
    }
    let places = rows[1 + n..][..rows[0] as usize].iter().filter(|&&found| found == binding).count();
    (times.map(|mut times| median(&mut times)), places)
}

/// Rename beside Occurrences, which it calls twice: of the image and of the new one.
fn run_rename(subject: &dyn Calls) {
    let inputs: [(&str, Vec<u8>); 3] = [
        ("typical, 30 rules", typical(30, 2047)),
        ("typical of 128 nodes", typical(1000, 128)),
        ("largest, mixed", mixed(2048)),
    ];
    println!();
    println!("| input | N | places | L occurrences | L rename | rename / occurrences | L rename, own name | own / occurrences |");
    println!("|---|---|---|---|---|---|---|---|");
    for (name, image) in &inputs {
        let ([list, other, own], places) = time_rename(image, subject);
        println!(
            "| {name} | {} | {places} | {list:.1} | {other:.1} | {:.2} | {own:.1} | {:.2} |",
            sizes(image).n,
            other / list,
            own / list
        );
    }
}

#[cfg(feature = "library")]
fn subject() -> impl Calls {
    differential::calls::Library
}

#[cfg(not(feature = "library"))]
fn subject() -> impl Calls {
    println!("built without the library: the times are those of the plain reading in Rust");
    differential::reading::Reading
}

fn run() {
    if !original::PRESENT {
        println!("no benchmark: the original sources were not there when this was built (EQLOG_SRC)");
        return;
    }
    let mut inputs: Vec<(String, Vec<u8>)> = vec![
        ("typical, 30 rules".into(), typical(30, 2047)),
        ("long rule, 200 statements, 10 variables".into(), long_rule(200, 10, 0)),
        ("long rule, 200 statements, 190 variables".into(), long_rule(200, 190, 0)),
        ("largest, one rule of 255 statements".into(), long_rule(255, 40, 2048)),
        ("largest, mixed".into(), mixed(2048)),
        ("deep, 195 branches with a variable each".into(), deep_branches(195, 0)),
        ("deep, 1,000 terms".into(), deep_terms(2047)),
        ("1,000 declarations".into(), declarations(1000)),
        ("one if-atom, 1,000 variables".into(), one_atom(false, 1000)),
        ("one then-atom, 1,000 variables".into(), one_atom(true, 1000)),
    ];
    for n in [128, 256, 512, 1024, 2048] {
        inputs.push((format!("growth, typical of {n} nodes"), typical(1000, n)));
    }
    for n in [128, 256, 512, 1024, 2048] {
        inputs.push((format!("growth, long rule of {n} nodes"), long_rule((n - 8) / 8, 10, n)));
    }
    let subject = subject();
    println!("median of {ROUNDS}, microseconds; R the Rust with its Ast built, L this library from the image's bytes");
    println!("R all: resolve_scopes, check_bindings, check_occurrences. L both: eqlog_errors (mode 1) and eqlog_once.");
    println!("L tests: the image alone, as each call tests it first. ns: nanoseconds of L both for a node.");
    println!();
    println!("| input | N | R resolve | L tests | L resolve | L occurrences | R all | L errors | L once | L both | ns | R all / L both |");
    println!("|---|---|---|---|---|---|---|---|---|---|---|---|");
    for (name, image) in &inputs {
        let line = time(name, image, &subject);
        let both = line.here[1] + line.here[2];
        println!(
            "| {} | {} | {:.1} | {:.1} | {:.1} | {:.1} | {:.1} | {:.1} | {:.1} | {:.1} | {:.0} | {:.1} |",
            line.name,
            line.nodes,
            line.rust[0],
            line.tests,
            line.here[0],
            line.here[3],
            line.rust[3],
            line.here[1],
            line.here[2],
            both,
            both * 1000.0 / line.nodes as f64,
            line.rust[3] / both
        );
    }
    run_sorted(&subject);
    run_strict(&subject);
    run_indexed(&subject);
    run_rename(&subject);
}

fn main() {
    let child = std::thread::Builder::new().stack_size(256 << 20).spawn(run).expect("a thread");
    child.join().expect("the benchmark");
}

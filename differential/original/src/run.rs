//! What the Rust says of an image, as numbers.

use std::hash::{Hash, Hasher};

use crate::ast::*;
use crate::bindings::check_bindings;
use crate::build::{Built, Id};
use crate::error::CompileError;
use crate::occurrences::check_occurrences;
use crate::scopes::{resolve_scopes, ScopeId, Scopes, Symbol};
use crate::{Answers, Resolved};

/// Takes the one number that an id hashes to: the fields of `NodeId` and `ScopeId` are private.
#[derive(Default)]
struct Number(Option<usize>);

impl Hasher for Number {
    fn write(&mut self, _bytes: &[u8]) {
        panic!("an id is one usize");
    }

    fn write_usize(&mut self, number: usize) {
        assert!(self.0.is_none(), "an id is one usize");
        self.0 = Some(number);
    }

    fn finish(&self) -> u64 {
        0
    }
}

fn number(id: impl Hash) -> u32 {
    let mut n = Number::default();
    id.hash(&mut n);
    n.0.expect("an id is one usize") as u32
}

fn symbol(sym: Symbol) -> (u32, u32) {
    match sym {
        Symbol::Type(id) => (0, number(id)),
        Symbol::Pred(id) => (1, number(id)),
        Symbol::Func(id) => (2, number(id)),
        Symbol::Const(id) => (3, number(id)),
        Symbol::Enum(id) => (4, number(id)),
        Symbol::Ctor(id) => (5, number(id)),
        Symbol::Model(id) => (6, number(id)),
        Symbol::Rule(id) => (7, number(id)),
        Symbol::Arg(id) => (8, number(id)),
        Symbol::Var(id) => (9, number(id)),
    }
}

fn place(scopes: &Scopes, id: Id) -> Option<(ScopeId, ScopeId)> {
    macro_rules! all {
        (unordered: $($u:ident)*; ordered: $($o:ident)*) => {
            match id {
                $(Id::$u(id) => { let scope = scopes.unordered(id); Some((scope, scope)) })*
                $(Id::$o(id) => { let at = scopes.ordered(id); Some((at.entry, at.exit)) })*
                Id::AppHeadMember(_) => None,
            }
        };
    }
    all!(
        unordered: Module Decl TypeDecl PredDecl FuncDecl ConstDecl RuleDecl EnumDecl ModelDecl CtorDecl;
        ordered: ArgDecl ArgDeclList Term IdentTerm AppTerm AppHead TermMember DomTerm CodTerm IdTerm CompTerm TermList
            TypeExpr AmbientTypeExpr MorTypeExpr PredExpr AmbientPredExpr IfAtom ThenAtom EqualAtom PredAtom DefinedIfAtom
            VarIfAtom DefinedThenAtom MatchCase Stmt IfStmt ThenStmt BranchStmt MatchStmt
    )
}

impl Built {
    fn name_number(&self, name: &str) -> u32 {
        self.names.iter().position(|n| n == name).expect("a name of the image") as u32
    }

    /// All that the Rust says of the image, and what each name asked for is in a scope (those below K).
    pub fn answers(&self, asked: &[(u32, &str)]) -> (Answers, Vec<Option<(u32, u32)>>) {
        let scopes = match resolve_scopes(&self.ast, self.module) {
            Ok(scopes) => scopes,
            Err(CompileError::SymbolDeclaredTwice { name, first_declaration, second_declaration }) => {
                let twice = Answers::Twice(
                    self.name_number(&name),
                    first_declaration.0 as u32,
                    second_declaration.0 as u32,
                );
                return (twice, Vec::new());
            }
            Err(other) => panic!("resolve_scopes gives {other:?}"),
        };
        let mut places = Vec::new();
        let mut known: Vec<Option<ScopeId>> = Vec::new();
        for &id in &self.ids {
            let at = place(&scopes, id);
            if let Some((entry, exit)) = at {
                for scope in [entry, exit] {
                    let n = number(scope) as usize;
                    if known.len() <= n {
                        known.resize(n + 1, None);
                    }
                    known[n] = Some(scope);
                }
            }
            places.push(at.map(|(entry, exit)| (number(entry), number(exit))));
        }
        let ids: Vec<ScopeId> = known.into_iter().map(|id| id.expect("each scope is some node's")).collect();
        let mut numbers: std::collections::HashMap<&str, u32> = std::collections::HashMap::new();
        for (n, name) in self.names.iter().enumerate() {
            numbers.insert(name, n as u32);
        }
        let mut list = Vec::new();
        for &id in &ids {
            let scope = scopes.scope(id);
            let mut symbols: Vec<(u32, u32, u32)> = scope
                .symbols
                .iter()
                .map(|(name, &sym)| {
                    let (number, node) = symbol(sym);
                    (numbers[name.as_str()], number, node)
                })
                .collect();
            symbols.sort_unstable();
            list.push((scope.parent.map(number), symbols));
        }
        let found = asked
            .iter()
            .map(|&(scope, name)| scopes.lookup(ids[scope as usize], name).map(symbol))
            .collect();
        let errors = check_bindings(&self.ast, &scopes, self.module)
            .into_iter()
            .map(|e| match e {
                CompileError::VariableIntroducedInThenStmt { location } => (1, location.0 as u32),
                CompileError::ThenDefinedVarNotNew { location } => (2, location.0 as u32),
                CompileError::MatchPatternArgVarIsNotFresh { location } => (3, location.0 as u32),
                other => panic!("check_bindings gives {other:?}"),
            })
            .collect();
        let collect = Collect { built: self, scopes: &scopes };
        let lone = match check_occurrences(&self.ast, &scopes, self.module) {
            Ok(()) => None,
            Err(CompileError::VariableOccursOnlyOnce { name, location }) => {
                let node = location.0 as u32;
                let (ident, exit) = match self.ids[node as usize] {
                    Id::Term(id) => match *self.ast.term(id) {
                        Term::Ident(ident) => (ident, scopes.exit(id)),
                        _ => panic!("a lone term is an ident"),
                    },
                    Id::AppHead(id) => match *self.ast.app_head(id) {
                        AppHead::Ident(ident) => (ident, scopes.exit(id)),
                        _ => panic!("a lone app head is an ident"),
                    },
                    _ => panic!("a lone occurrence is a term or an app head"),
                };
                assert_eq!(name, self.ast.ident_term(ident).name);
                match scopes.lookup(exit, &name) {
                    Some(Symbol::Var(binding)) => Some((node, number(binding))),
                    other => panic!("a lone occurrence is {other:?}"),
                }
            }
            Err(other) => panic!("check_occurrences gives {other:?}"),
        };
        let resolved = Resolved { places, scopes: list, errors, lone, occurrences: collect.module() };
        (Answers::Resolved(Box::new(resolved)), found)
    }

    /// For timing: the number of scopes is not to be had, so this hands back whether it resolved.
    pub fn resolve(&self) -> usize {
        let scopes = resolve_scopes(&self.ast, self.module);
        let done = scopes.is_ok() as usize;
        std::hint::black_box(&scopes);
        done
    }

    /// For timing: resolve_scopes and check_bindings.
    pub fn errors(&self) -> usize {
        match resolve_scopes(&self.ast, self.module) {
            Ok(scopes) => check_bindings(&self.ast, &scopes, self.module).len(),
            Err(_) => 0,
        }
    }

    /// For timing: resolve_scopes and check_occurrences.
    pub fn once(&self) -> usize {
        match resolve_scopes(&self.ast, self.module) {
            Ok(scopes) => check_occurrences(&self.ast, &scopes, self.module).is_ok() as usize,
            Err(_) => 0,
        }
    }

    /// For timing: resolve_scopes, check_bindings and check_occurrences, one after another.
    pub fn all(&self) -> usize {
        match resolve_scopes(&self.ast, self.module) {
            Ok(scopes) => {
                let errors = check_bindings(&self.ast, &scopes, self.module);
                let once = check_occurrences(&self.ast, &scopes, self.module);
                errors.len() + once.is_ok() as usize
            }
            Err(_) => 0,
        }
    }
}

/// The list that check_occurrences collects for each rule: its own is private, so the same walk is made again over
/// the same `Scopes`, by lookup at the exit of each node.
struct Collect<'a> {
    built: &'a Built,
    scopes: &'a Scopes,
}

impl Collect<'_> {
    fn module(&self) -> Vec<(u32, u32)> {
        let mut list = Vec::new();
        for &decl in &self.built.ast.module(self.built.module).decls {
            self.decl(decl, &mut list);
        }
        list
    }

    fn decl(&self, decl: DeclId, list: &mut Vec<(u32, u32)>) {
        let ast = &self.built.ast;
        match *ast.decl(decl) {
            Decl::Rule(id) => self.block(&ast.rule_decl(id).body, list),
            Decl::Model(id) => ast.model_decl(id).body.iter().for_each(|&d| self.decl(d, list)),
            _ => {}
        }
    }

    fn block(&self, stmts: &[StmtId], list: &mut Vec<(u32, u32)>) {
        stmts.iter().for_each(|&stmt| self.stmt(stmt, list));
    }

    fn stmt(&self, stmt: StmtId, list: &mut Vec<(u32, u32)>) {
        let ast = &self.built.ast;
        match *ast.stmt(stmt) {
            Stmt::If(id) => match *ast.if_atom(ast.if_stmt(id).atom) {
                IfAtom::Equal(id) => self.terms(&[ast.equal_atom(id).lhs, ast.equal_atom(id).rhs], list),
                IfAtom::Defined(id) => self.term(ast.defined_if_atom(id).term, list),
                IfAtom::Pred(id) => self.pred(id, list),
                IfAtom::Var(id) => {
                    if let TypeExpr::Member(member) = *ast.type_expr(ast.var_if_atom(id).typ) {
                        self.term(ast.term_member(member).term, list);
                    }
                    self.term(ast.var_if_atom(id).term, list);
                }
            },
            Stmt::Then(id) => match *ast.then_atom(ast.then_stmt(id).atom) {
                ThenAtom::Equal(id) => self.terms(&[ast.equal_atom(id).lhs, ast.equal_atom(id).rhs], list),
                ThenAtom::Defined(id) => {
                    if let Some(var) = ast.defined_then_atom(id).var {
                        self.term(var, list);
                    }
                    self.term(ast.defined_then_atom(id).term, list);
                }
                ThenAtom::Pred(id) => self.pred(id, list),
            },
            Stmt::Branch(id) => ast.branch_stmt(id).blocks.iter().for_each(|b| self.block(b, list)),
            Stmt::Match(id) => {
                self.term(ast.match_stmt(id).term, list);
                for &case in &ast.match_stmt(id).cases {
                    self.term(ast.match_case(case).pattern, list);
                    self.block(&ast.match_case(case).body, list);
                }
            }
        }
    }

    fn pred(&self, atom: PredAtomId, list: &mut Vec<(u32, u32)>) {
        let ast = &self.built.ast;
        if let PredExpr::Member(member) = *ast.pred_expr(ast.pred_atom(atom).pred) {
            self.term(ast.term_member(member).term, list);
        }
        self.terms(&ast.term_list(ast.pred_atom(atom).args).terms, list);
    }

    fn terms(&self, terms: &[TermId], list: &mut Vec<(u32, u32)>) {
        terms.iter().for_each(|&term| self.term(term, list));
    }

    fn found(&self, node: u32, exit: ScopeId, ident: IdentTermId, list: &mut Vec<(u32, u32)>) {
        let name = &self.built.ast.ident_term(ident).name;
        if let Some(Symbol::Var(binding)) = self.scopes.lookup(exit, name) {
            list.push((node, number(binding)));
        }
    }

    fn term(&self, term: TermId, list: &mut Vec<(u32, u32)>) {
        let ast = &self.built.ast;
        match *ast.term(term) {
            Term::Ident(ident) => self.found(number(term), self.scopes.exit(term), ident, list),
            Term::Wildcard => {}
            Term::App(id) => {
                let AppTerm { head, args } = *ast.app_term(id);
                match *ast.app_head(head) {
                    AppHead::Ident(ident) => self.found(number(head), self.scopes.exit(head), ident, list),
                    AppHead::Member(id) => self.term(ast.app_head_member(id).receiver, list),
                    AppHead::Term(term) => self.term(term, list),
                }
                self.terms(&ast.term_list(args).terms, list);
            }
            Term::Member(id) => self.term(ast.term_member(id).term, list),
            Term::Dom(id) => self.term(ast.dom_term(id).arg, list),
            Term::Cod(id) => self.term(ast.cod_term(id).arg, list),
            Term::Id(id) => self.term(ast.id_term(id).arg, list),
            Term::Comp(id) => self.terms(&[ast.comp_term(id).first, ast.comp_term(id).second], list),
        }
    }
}

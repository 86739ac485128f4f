//! An accepted image as the Rust's `Ast`, node by node.

use crate::ast::*;
use crate::grammar_util::Location;

/// A node by its kind, with the Rust's own id.
#[derive(Copy, Clone)]
pub(crate) enum Id {
    Module(ModuleId),
    Decl(DeclId),
    TypeDecl(TypeDeclId),
    PredDecl(PredDeclId),
    FuncDecl(FuncDeclId),
    ConstDecl(ConstDeclId),
    RuleDecl(RuleDeclId),
    EnumDecl(EnumDeclId),
    ModelDecl(ModelDeclId),
    CtorDecl(CtorDeclId),
    ArgDecl(ArgDeclId),
    ArgDeclList(ArgDeclListId),
    Term(TermId),
    IdentTerm(IdentTermId),
    AppTerm(AppTermId),
    AppHead(AppHeadId),
    AppHeadMember(AppHeadMemberId),
    TermMember(TermMemberId),
    DomTerm(DomTermId),
    CodTerm(CodTermId),
    IdTerm(IdTermId),
    CompTerm(CompTermId),
    TermList(TermListId),
    TypeExpr(TypeExprId),
    AmbientTypeExpr(AmbientTypeExprId),
    MorTypeExpr(MorTypeExprId),
    PredExpr(PredExprId),
    AmbientPredExpr(AmbientPredExprId),
    IfAtom(IfAtomId),
    ThenAtom(ThenAtomId),
    EqualAtom(EqualAtomId),
    PredAtom(PredAtomId),
    DefinedIfAtom(DefinedIfAtomId),
    VarIfAtom(VarIfAtomId),
    DefinedThenAtom(DefinedThenAtomId),
    MatchCase(MatchCaseId),
    Stmt(StmtId),
    IfStmt(IfStmtId),
    ThenStmt(ThenStmtId),
    BranchStmt(BranchStmtId),
    MatchStmt(MatchStmtId),
}

macro_rules! typed {
    ($($getter:ident $kind:ident $id:ident;)*) => {
        impl Rows {
            $(fn $getter(&self, node: u32) -> $id {
                match self.ids[node as usize] {
                    Id::$kind(id) => id,
                    _ => panic!("node {node} is no {}", stringify!($kind)),
                }
            })*
        }
    };
}

typed! {
    decl Decl DeclId;
    type_decl TypeDecl TypeDeclId;
    pred_decl PredDecl PredDeclId;
    func_decl FuncDecl FuncDeclId;
    const_decl ConstDecl ConstDeclId;
    rule_decl RuleDecl RuleDeclId;
    enum_decl EnumDecl EnumDeclId;
    model_decl ModelDecl ModelDeclId;
    ctor_decl CtorDecl CtorDeclId;
    arg_decl ArgDecl ArgDeclId;
    arg_decl_list ArgDeclList ArgDeclListId;
    term Term TermId;
    ident_term IdentTerm IdentTermId;
    app_term AppTerm AppTermId;
    app_head AppHead AppHeadId;
    app_head_member AppHeadMember AppHeadMemberId;
    term_member TermMember TermMemberId;
    dom_term DomTerm DomTermId;
    cod_term CodTerm CodTermId;
    id_term IdTerm IdTermId;
    comp_term CompTerm CompTermId;
    term_list TermList TermListId;
    type_expr TypeExpr TypeExprId;
    ambient_type_expr AmbientTypeExpr AmbientTypeExprId;
    mor_type_expr MorTypeExpr MorTypeExprId;
    pred_expr PredExpr PredExprId;
    ambient_pred_expr AmbientPredExpr AmbientPredExprId;
    if_atom IfAtom IfAtomId;
    then_atom ThenAtom ThenAtomId;
    equal_atom EqualAtom EqualAtomId;
    pred_atom PredAtom PredAtomId;
    defined_if_atom DefinedIfAtom DefinedIfAtomId;
    var_if_atom VarIfAtom VarIfAtomId;
    defined_then_atom DefinedThenAtom DefinedThenAtomId;
    match_case MatchCase MatchCaseId;
    stmt Stmt StmtId;
    if_stmt IfStmt IfStmtId;
    then_stmt ThenStmt ThenStmtId;
    branch_stmt BranchStmt BranchStmtId;
    match_stmt MatchStmt MatchStmtId;
}

/// The words of one image, and the nodes made so far.
struct Rows {
    kinds: Vec<u32>,
    starts: Vec<u32>,
    operands: Vec<u32>,
    names: Vec<String>,
    ids: Vec<Id>,
}

/// Reads one row, operand by operand.
struct Row<'a> {
    rows: &'a Rows,
    at: usize,
}

impl Row<'_> {
    fn word(&mut self) -> u32 {
        self.at += 1;
        self.rows.operands[self.at - 1]
    }

    fn name(&mut self) -> String {
        let number = self.word();
        self.rows.names[number as usize].clone()
    }

    fn name_if_any(&mut self) -> Option<String> {
        match self.word() {
            0 => None,
            number => Some(self.rows.names[number as usize - 1].clone()),
        }
    }

    fn list<T>(&mut self, child: impl Fn(&Rows, u32) -> T) -> Vec<T> {
        let count = self.word();
        (0..count).map(|_| child(self.rows, self.word())).collect()
    }
}

/// An accepted image as an `Ast`.
pub struct Built {
    pub(crate) ast: Ast,
    pub(crate) module: ModuleId,
    pub(crate) ids: Vec<Id>,
    pub(crate) names: Vec<String>,
}

fn words(bytes: &[u8]) -> Vec<u32> {
    bytes.chunks_exact(4).map(|b| u32::from_le_bytes([b[0], b[1], b[2], b[3]])).collect()
}

impl Built {
    /// The image is one that the tests accept. None where a name is not UTF-8, which no `String` can hold.
    pub fn new(image: &[u8]) -> Option<Built> {
        let sizes: Vec<usize> = words(&image[..16]).iter().map(|&w| w as usize).collect();
        let (n, c, s) = (sizes[0], sizes[1], sizes[2]);
        let ends = words(&image[16 + 8 * n + 4 * c..16 + 8 * n + 4 * c + 4 * s]);
        let bytes = &image[16 + 8 * n + 4 * c + 4 * s..];
        let mut names = Vec::new();
        let mut from = 0;
        for end in ends {
            names.push(std::str::from_utf8(&bytes[from..end as usize]).ok()?.to_string());
            from = end as usize;
        }
        let mut rows = Rows {
            kinds: words(&image[16..16 + 4 * n]),
            starts: words(&image[16 + 4 * n..16 + 8 * n]),
            operands: words(&image[16 + 8 * n..16 + 8 * n + 4 * c]),
            names,
            ids: Vec::with_capacity(n),
        };
        let mut ast = Ast::new();
        for node in 0..n {
            let id = rows.push(&mut ast, node);
            rows.ids.push(id);
        }
        let Id::Module(module) = rows.ids[n - 1] else {
            panic!("the last node is no Module");
        };
        Some(Built { ast, module, ids: rows.ids, names: rows.names })
    }
}

impl Rows {
    fn push(&self, ast: &mut Ast, node: usize) -> Id {
        let loc = Location(node, node);
        let mut r = Row { rows: self, at: self.starts[node] as usize + 2 };
        match self.kinds[node] {
            0 => Id::Module(ast.push_module(loc, Module { decls: r.list(Rows::decl) })),
            1 => {
                let case = r.word();
                let child = r.word();
                let decl = match case {
                    0 => Decl::Type(self.type_decl(child)),
                    1 => Decl::Pred(self.pred_decl(child)),
                    2 => Decl::Func(self.func_decl(child)),
                    3 => Decl::Const(self.const_decl(child)),
                    4 => Decl::Rule(self.rule_decl(child)),
                    5 => Decl::Enum(self.enum_decl(child)),
                    6 => Decl::Model(self.model_decl(child)),
                    _ => panic!("a case of Decl"),
                };
                Id::Decl(ast.push_decl(loc, decl))
            }
            2 => Id::TypeDecl(ast.push_type_decl(loc, TypeDecl { name: r.name() })),
            3 => {
                let name = r.name();
                let args = self.arg_decl_list(r.word());
                Id::PredDecl(ast.push_pred_decl(loc, PredDecl { name, args }))
            }
            4 => {
                let name = r.name();
                let args = self.arg_decl_list(r.word());
                let result = self.type_expr(r.word());
                Id::FuncDecl(ast.push_func_decl(loc, FuncDecl { name, args, result }))
            }
            5 => {
                let name = r.name();
                let result = self.type_expr(r.word());
                Id::ConstDecl(ast.push_const_decl(loc, ConstDecl { name, result }))
            }
            6 => {
                let name = r.name_if_any();
                let body = r.list(Rows::stmt);
                Id::RuleDecl(ast.push_rule_decl(loc, RuleDecl { name, body }))
            }
            7 => {
                let name = r.name();
                let ctors = r.list(Rows::ctor_decl);
                Id::EnumDecl(ast.push_enum_decl(loc, EnumDecl { name, ctors }))
            }
            8 => {
                let name = r.name();
                let body = r.list(Rows::decl);
                Id::ModelDecl(ast.push_model_decl(loc, ModelDecl { name, body }))
            }
            9 => {
                let name = r.name();
                let args = self.arg_decl_list(r.word());
                Id::CtorDecl(ast.push_ctor_decl(loc, CtorDecl { name, args }))
            }
            10 => {
                let name = r.name_if_any();
                let typ = self.type_expr(r.word());
                Id::ArgDecl(ast.push_arg_decl(loc, ArgDecl { name, typ }))
            }
            11 => Id::ArgDeclList(ast.push_arg_decl_list(loc, ArgDeclList { args: r.list(Rows::arg_decl) })),
            12 => {
                let term = match r.word() {
                    0 => Term::Ident(self.ident_term(r.word())),
                    1 => Term::Wildcard,
                    2 => Term::App(self.app_term(r.word())),
                    3 => Term::Member(self.term_member(r.word())),
                    4 => Term::Dom(self.dom_term(r.word())),
                    5 => Term::Cod(self.cod_term(r.word())),
                    6 => Term::Id(self.id_term(r.word())),
                    7 => Term::Comp(self.comp_term(r.word())),
                    _ => panic!("a case of Term"),
                };
                Id::Term(ast.push_term(loc, term))
            }
            13 => Id::IdentTerm(ast.push_ident_term(loc, IdentTerm { name: r.name() })),
            14 => {
                let head = self.app_head(r.word());
                let args = self.term_list(r.word());
                Id::AppTerm(ast.push_app_term(loc, AppTerm { head, args }))
            }
            15 => {
                let case = r.word();
                let child = r.word();
                let head = match case {
                    0 => AppHead::Ident(self.ident_term(child)),
                    1 => AppHead::Member(self.app_head_member(child)),
                    2 => AppHead::Term(self.term(child)),
                    _ => panic!("a case of AppHead"),
                };
                Id::AppHead(ast.push_app_head(loc, head))
            }
            16 => {
                let receiver = self.term(r.word());
                let names = r.list(Rows::ident_term);
                Id::AppHeadMember(ast.push_app_head_member(loc, AppHeadMember { receiver, names }))
            }
            17 => {
                let term = self.term(r.word());
                let name = self.ident_term(r.word());
                Id::TermMember(ast.push_term_member(loc, TermMember { term, name }))
            }
            18 => Id::DomTerm(ast.push_dom_term(loc, DomTerm { arg: self.term(r.word()) })),
            19 => Id::CodTerm(ast.push_cod_term(loc, CodTerm { arg: self.term(r.word()) })),
            20 => Id::IdTerm(ast.push_id_term(loc, IdTerm { arg: self.term(r.word()) })),
            21 => {
                let first = self.term(r.word());
                let second = self.term(r.word());
                Id::CompTerm(ast.push_comp_term(loc, CompTerm { first, second }))
            }
            22 => Id::TermList(ast.push_term_list(loc, TermList { terms: r.list(Rows::term) })),
            23 => {
                let case = r.word();
                let child = r.word();
                let typ = match case {
                    0 => TypeExpr::Ambient(self.ambient_type_expr(child)),
                    1 => TypeExpr::Member(self.term_member(child)),
                    2 => TypeExpr::Mor(self.mor_type_expr(child)),
                    _ => panic!("a case of TypeExpr"),
                };
                Id::TypeExpr(ast.push_type_expr(loc, typ))
            }
            24 => Id::AmbientTypeExpr(ast.push_ambient_type_expr(loc, AmbientTypeExpr { name: r.name() })),
            25 => Id::MorTypeExpr(ast.push_mor_type_expr(loc, MorTypeExpr { name: r.name() })),
            26 => {
                let case = r.word();
                let child = r.word();
                let pred = match case {
                    0 => PredExpr::Ambient(self.ambient_pred_expr(child)),
                    1 => PredExpr::Member(self.term_member(child)),
                    _ => panic!("a case of PredExpr"),
                };
                Id::PredExpr(ast.push_pred_expr(loc, pred))
            }
            27 => Id::AmbientPredExpr(ast.push_ambient_pred_expr(loc, AmbientPredExpr { name: r.name() })),
            28 => {
                let case = r.word();
                let child = r.word();
                let atom = match case {
                    0 => IfAtom::Equal(self.equal_atom(child)),
                    1 => IfAtom::Defined(self.defined_if_atom(child)),
                    2 => IfAtom::Pred(self.pred_atom(child)),
                    3 => IfAtom::Var(self.var_if_atom(child)),
                    _ => panic!("a case of IfAtom"),
                };
                Id::IfAtom(ast.push_if_atom(loc, atom))
            }
            29 => {
                let case = r.word();
                let child = r.word();
                let atom = match case {
                    0 => ThenAtom::Equal(self.equal_atom(child)),
                    1 => ThenAtom::Defined(self.defined_then_atom(child)),
                    2 => ThenAtom::Pred(self.pred_atom(child)),
                    _ => panic!("a case of ThenAtom"),
                };
                Id::ThenAtom(ast.push_then_atom(loc, atom))
            }
            30 => {
                let lhs = self.term(r.word());
                let rhs = self.term(r.word());
                Id::EqualAtom(ast.push_equal_atom(loc, EqualAtom { lhs, rhs }))
            }
            31 => {
                let pred = self.pred_expr(r.word());
                let args = self.term_list(r.word());
                Id::PredAtom(ast.push_pred_atom(loc, PredAtom { pred, args }))
            }
            32 => Id::DefinedIfAtom(ast.push_defined_if_atom(loc, DefinedIfAtom { term: self.term(r.word()) })),
            33 => {
                let term = self.term(r.word());
                let typ = self.type_expr(r.word());
                Id::VarIfAtom(ast.push_var_if_atom(loc, VarIfAtom { term, typ }))
            }
            34 => {
                let var = match r.word() {
                    0 => None,
                    child => Some(self.term(child - 1)),
                };
                let term = self.term(r.word());
                Id::DefinedThenAtom(ast.push_defined_then_atom(loc, DefinedThenAtom { var, term }))
            }
            35 => {
                let pattern = self.term(r.word());
                let body = r.list(Rows::stmt);
                Id::MatchCase(ast.push_match_case(loc, MatchCase { pattern, body }))
            }
            36 => {
                let case = r.word();
                let child = r.word();
                let stmt = match case {
                    0 => Stmt::If(self.if_stmt(child)),
                    1 => Stmt::Then(self.then_stmt(child)),
                    2 => Stmt::Branch(self.branch_stmt(child)),
                    3 => Stmt::Match(self.match_stmt(child)),
                    _ => panic!("a case of Stmt"),
                };
                Id::Stmt(ast.push_stmt(loc, stmt))
            }
            37 => Id::IfStmt(ast.push_if_stmt(loc, IfStmt { atom: self.if_atom(r.word()) })),
            38 => Id::ThenStmt(ast.push_then_stmt(loc, ThenStmt { atom: self.then_atom(r.word()) })),
            39 => {
                let count = r.word();
                let blocks = (0..count).map(|_| r.list(Rows::stmt)).collect();
                Id::BranchStmt(ast.push_branch_stmt(loc, BranchStmt { blocks }))
            }
            40 => {
                let term = self.term(r.word());
                let cases = r.list(Rows::match_case);
                Id::MatchStmt(ast.push_match_stmt(loc, MatchStmt { term, cases }))
            }
            kind => panic!("kind {kind}"),
        }
    }
}

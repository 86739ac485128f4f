//! Stands in for eqlog's error.rs: the five kinds that the ported files give, and nothing else of it.

use crate::grammar_util::Location;

#[derive(Clone, Debug, PartialEq, Eq)]
pub enum CompileError {
    SymbolDeclaredTwice {
        name: String,
        first_declaration: Location,
        second_declaration: Location,
    },
    VariableIntroducedInThenStmt {
        location: Location,
    },
    ThenDefinedVarNotNew {
        location: Location,
    },
    MatchPatternArgVarIsNotFresh {
        location: Location,
    },
    VariableOccursOnlyOnce {
        name: String,
        location: Location,
    },
}

//! Token ids can't be set while a run of the definition lives: the borrow rules refuse this.
#![tactic(auto)]

use lrlex::{LRLexError, LRNonStreamingLexerDef, LexerDef};
use lrlex_base::LexerTypes;
use std::alloc::{AllocError, Global};
use std::collections::HashMap;

pub fn ids_under_a_run<L: LexerTypes<LexErrorT = LRLexError>>(
    alloc: Global,
    definition: &mut LRNonStreamingLexerDef<L>,
    ids: &HashMap<&str, L::StorageT>,
    text: &str,
) -> Result<usize, AllocError> {
    let run = definition.run(alloc, text)?;
    let _ = definition.set_rule_ids(alloc, ids)?;
    Ok(run.tiles())
}

//! The answer of a search as a text, its tree included.
use crate::crates::mapf_cbs::plain::solve_plain;
use crate::crates::mapf_cbs::{Answer, Cause, solve, solve_with};
use crate::crates::mapf_constraints::{ListBars, TickBars};
use crate::crates::mapf_model::{Block, Item, Label, Path, Problem};
use crate::rattle_std::alloc::Global;

/// The searches: as the search is called without naming a table of constraints, with either table, and the simple one.
#[derive(Clone, Copy, Debug)]
pub enum Search {
    Unnamed,
    ByTick,
    ByList,
    Plain,
}

/// What a search answers.
pub fn answer_of(search: Search, problem: &Problem, limit: u32) -> Answer {
    let answer = match search {
        Search::Unnamed => solve(Global, problem, limit),
        Search::ByTick => solve_with::<TickBars>(Global, problem, limit),
        Search::ByList => solve_with::<ListBars>(Global, problem, limit),
        Search::Plain => solve_plain(Global, problem, limit),
    };
    answer.expect("memory")
}

/// The answer that all searches give, as a text.
#[track_caller]
pub fn common_text(problem: &Problem, limit: u32) -> String {
    let text = text_of(&answer_of(Search::ByTick, problem, limit));
    for search in [Search::ByList, Search::Unnamed, Search::Plain] {
        assert_eq!(text_of(&answer_of(search, problem, limit)), text, "{search:?}");
    }
    text
}

/// An answer as a text: the paths by their cells, or what else was found, and behind each slash a node of the tree.
pub fn text_of(answer: &Answer) -> String {
    let head = match answer {
        Answer::Found { plan, .. } => {
            plan.paths().iter().map(path_text).fold("found".to_owned(), |text, path| text + &path)
        }
        Answer::Impossible { .. } => "impossible".to_owned(),
        Answer::Limit { cause: Cause::Ticks, bound, .. } => format!("limit ticks bound {bound}"),
        Answer::Limit { cause: Cause::Splits(splits), bound, .. } => format!("limit {splits} bound {bound}"),
    };
    tree_of(answer).iter().fold(head, |text, item| format!("{text} / {}", item_text(item)))
}

/// The tree of an answer.
pub fn tree_of(answer: &Answer) -> &[Item] {
    match answer {
        Answer::Found { tree, .. } | Answer::Impossible { tree } | Answer::Limit { tree, .. } => tree,
    }
}

/// The cells of a path after a colon.
fn path_text(path: &Path) -> String {
    path.cells().iter().fold(":".to_owned(), |text, cell| format!("{text} {}", cell.0))
}

/// A node and its blocks.
fn item_text(item: &Item) -> String {
    let node = match item {
        Item::Vertex { i, j, cell, tick, .. } => format!("vertex {i} {j} {} {tick}", cell.0),
        Item::Swap { i, j, from, to, tick, .. } => format!("swap {i} {j} {} {} {tick}", from.0, to.0),
        Item::Leaf(_) => "leaf".to_owned(),
        Item::Clash { i, j } => format!("clash {i} {j}"),
    };
    item.blocks().iter().fold(node, |text, block| text + &block_text(block))
}

/// A block, with its entries as cell@tick=label.
fn block_text(block: &Block) -> String {
    block.entries.iter().fold(format!(" {}:", block.agent), |text, entry| {
        let label = match entry.label {
            Label::Ticks(ticks) => ticks.to_string(),
            Label::Never => "inf".to_owned(),
        };
        format!("{text} {}@{}={label}", entry.cell.0, entry.tick)
    })
}

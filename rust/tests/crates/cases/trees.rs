//! Small trees of cases.
use super::{clear, least, most, not_at, not_move, of};
use crate::crates::mapf_cases::{CaseFault, CaseProgress, ScopeAgents, SplitFault, TreeProblem};
use crate::crates::mapf_lemmas::{Amount, Split, Statement};
use crate::crates::mapf_model::Cell;
use crate::made::{list, problem_of};
use crate::rattle_std::alloc::Global;

/// The starts and goals of three agents, on nine cells.
const ENDS: [(u32, u32); 3] = [(0, 8), (2, 6), (1, 6)];

/// A node of a tree.
#[derive(Clone, Copy, Debug)]
enum Node {
    Branch(Split),
    Leaf,
    Clash { i: u32, j: u32 },
}

fn vertex(i: u32, j: u32, cell: u32) -> Node {
    Node::Branch(Split::Vertex { i, j, cell: Cell(cell), tick: 2 })
}

fn swap(from: u32, to: u32) -> Node {
    Node::Branch(Split::Swap { i: 0, j: 1, from: Cell(from), to: Cell(to), tick: 2 })
}

fn costs(i: u32, j: u32, least: u32, lemma: u64) -> Node {
    Node::Branch(Split::Costs { i, ticks: 4, j, least, lemma })
}

/// The statement of a lemma that two agents cost at least 9, if agent 0 costs at least 2.
fn statement(agents: [u32; 2], list_number: Option<u64>) -> Statement {
    Statement { agents: list(agents), constraints: list([of(0, least(2))]), list_number, bound: Amount::of(9) }
}

/// The agents 0 and 1.
fn scope() -> ScopeAgents {
    ScopeAgents::of(Global, ENDS.len(), list([0, 1])).expect("memory")
}

/// A tree at whose root agent 0 costs at least so many ticks.
fn under_least(ticks: u32) -> CaseProgress {
    CaseProgress::new(Global, &[of(0, least(ticks))]).expect("memory")
}

/// Judges a node, and moves on.
fn judge(progress: &mut CaseProgress, tree: &TreeProblem, node: Node) -> Result<(), CaseFault> {
    match node {
        Node::Branch(split) => progress.split(tree, &split),
        Node::Leaf => {
            progress.leaf().expect("memory");
            Ok(())
        }
        Node::Clash { i, j } => progress.clash(tree.problem, i, j),
    }
}

#[test]
fn each_child_of_a_split_has_its_constraints() {
    let tree =
        TreeProblem { problem: &problem_of("... ... ...", &ENDS), known: &[statement([1, 0], None)], agents: &scope() };
    let root = [of(0, least(3)), of(2, most(7))];
    let cost = [of(1, most(3)), of(2, clear(6, 3))];
    let costs_more = [of(1, least(4))];
    let vertex_sides = [of(0, not_at(4, 2)), of(1, not_at(4, 2))];
    let costs_left = [of(1, least(5)), of(0, most(4)), of(1, clear(8, 4)), of(2, clear(8, 4))];
    let swap_sides = [of(0, not_move(0, 1, 2)), of(1, not_move(1, 0, 2))];
    let costs_right = [of(0, least(5))];
    let asked = [&root[..], &cost, &costs_more, &vertex_sides, &costs_left, &swap_sides, &costs_right].concat();
    // The nodes in pre-order, each with what stands there besides the constraints of the root.
    let nodes = [
        (Node::Branch(Split::Cost { i: 1, ticks: 3 }), vec![]),
        (vertex(0, 1, 4), cost.to_vec()),
        (Node::Leaf, [&cost[..], &vertex_sides[..1]].concat()),
        (Node::Clash { i: 1, j: 2 }, [&cost[..], &vertex_sides[1..]].concat()),
        (costs(0, 1, 5, 0), costs_more.to_vec()),
        (swap(0, 1), [&costs_more[..], &costs_left].concat()),
        (Node::Leaf, [&costs_more[..], &costs_left, &swap_sides[..1]].concat()),
        (Node::Leaf, [&costs_more[..], &costs_left, &swap_sides[1..]].concat()),
        (Node::Leaf, [&costs_more[..], &costs_right].concat()),
    ];
    let mut progress = CaseProgress::new(Global, &root).expect("memory");
    for (node, wanted) in nodes {
        let mut met = asked.clone();
        met.retain(|own| progress.standing().meets(own.agent, &own.constraint));
        assert_eq!(met, [&root[..], &wanted].concat(), "{node:?}");
        assert!(!progress.is_over, "{node:?}");
        assert_eq!(judge(&mut progress, &tree, node), Ok(()), "{node:?}");
    }
    assert!(progress.is_over);
}

#[test]
fn nodes_that_break_a_rule_are_refused() {
    let tree = TreeProblem {
        problem: &problem_of("... .@. ...", &ENDS),
        known: &[statement([1, 0], None), statement([0, 1], Some(0)), statement([0, 2], None)],
        agents: &scope(),
    };
    let bad = Err(CaseFault::Split(SplitFault::BadSplit));
    let not_allowed = Err(CaseFault::Split(SplitFault::LemmaNotAllowed));
    let false_clash = Err(CaseFault::FalseClash);
    // For each node what is said of it where agent 0 costs at least 2, and where it costs at least 1.
    for (node, under_2, under_1) in [
        (vertex(0, 1, 3), Ok(()), Ok(())),
        (vertex(0, 0, 3), bad, bad),
        (vertex(0, 1, 4), bad, bad),
        (vertex(0, 1, 9), bad, bad),
        (swap(0, 1), Ok(()), Ok(())),
        (swap(0, 2), bad, bad),
        (swap(3, 4), bad, bad),
        (costs(0, 1, 5, 0), Ok(()), not_allowed),
        (costs(1, 0, 5, 0), Ok(()), not_allowed),
        (costs(0, 1, 4, 0), Ok(()), not_allowed),
        (costs(0, 1, 6, 0), not_allowed, not_allowed),
        (costs(0, 1, 5, 1), not_allowed, not_allowed),
        (costs(0, 2, 5, 2), not_allowed, not_allowed),
        (costs(0, 2, 5, 0), not_allowed, not_allowed),
        (costs(0, 1, 5, 3), not_allowed, not_allowed),
        (costs(1, 1, 5, 0), bad, bad),
        (Node::Clash { i: 1, j: 2 }, Ok(()), Ok(())),
        (Node::Clash { i: 0, j: 2 }, false_clash, false_clash),
        (Node::Clash { i: 1, j: 1 }, false_clash, false_clash),
    ] {
        assert_eq!(judge(&mut under_least(2), &tree, node), under_2, "{node:?}, at least 2");
        assert_eq!(judge(&mut under_least(1), &tree, node), under_1, "{node:?}, at least 1");
    }
}

//! Small problems with the answers and the trees that are known.
use super::answers::{Search, answer_of, common_text, tree_of};
use crate::crates::mapf_model::{AsNode, Block, Item, Label, NodeKind};
use crate::made::problem_of;

/// All searches give this answer within so many splits.
#[track_caller]
fn assert_answer(rows: &str, ends: &[(u32, u32)], limit: u32, answer: &str) {
    assert_eq!(common_text(&problem_of(rows, ends), limit), answer);
}

#[test]
fn one_agent_goes_its_way() {
    assert_answer(".", &[(0, 0)], 0, "found: 0 / leaf");
    assert_answer("...", &[(0, 2)], 0, "found: 0 1 2 / leaf");
}

#[test]
fn one_agent_waits_for_another() {
    let found = "found: 3 3 4 5: 1 4 7 / vertex 0 1 4 1 / leaf 0: 3@0=3 / leaf 1: 1@0=3";
    for (limit, answer) in [(10, found), (1, found), (0, "limit 0 bound 4 / leaf")] {
        assert_answer("... ... ...", &[(3, 5), (1, 7)], limit, answer);
    }
}

/// Agent 1 has to leave its goal for agent 0, and to return.
const PASSING: (&str, [(u32, u32); 2]) = ("... @.@", [(0, 2), (1, 1)]);

#[test]
fn an_agent_passes_another() {
    let (rows, ends) = PASSING;
    let answer = "found: 0 1 2: 1 4 1 / vertex 0 1 1 1 / vertex 0 1 1 2 0: 0@0=3 \
        / vertex 0 1 1 3 0: 0@0=4 0@1=3 / leaf 0: 0@0=5 0@1=4 0@2=3 \
        / leaf 1: 1@0=4 0@1=3 1@1=3 2@1=3 4@1=3 0@2=2 1@2=2 2@2=2 4@2=2 \
        / leaf 1: 1@0=3 0@1=2 1@1=2 2@1=2 4@1=2 \
        / swap 0 1 0 1 0 1: 1@0=2 / leaf 0: 0@0=3 / swap 0 1 1 2 1 1: 1@0=2 / leaf 0: 0@0=3 1@1=2 \
        / leaf 1: 1@0=2";
    assert_answer(rows, &ends, 5, answer);
    assert!(common_text(&problem_of(rows, &ends), 4).starts_with("limit 4 bound 4 / vertex 0 1 1 1 / "));
}

/// The label of an agent's start at a node: that of its block's entry at tick 0, else its distance, and where it has no
/// block there the label that holds above.
fn start_label(blocks: &[Block], agent: u32, distance: u64, above: u64) -> u64 {
    let Some(block) = blocks.iter().find(|block| block.agent == agent) else {
        return above;
    };
    match block.entries.first() {
        Some(entry) if entry.tick == 0 => match entry.label {
            Label::Ticks(ticks) => ticks.into(),
            Label::Never => distance,
        },
        _ => distance,
    }
}

/// The sums of costs of the leaves, for the two agents above, whose distances are 2 and 0.
fn leaf_sums(tree: &[Item]) -> Vec<u64> {
    let mut pending = vec![(2, 0)];
    let mut sums = Vec::new();
    for item in tree {
        let above = pending.pop().expect("a node above");
        let (blocks, labels) = (item.blocks(), above);
        let labels = (start_label(blocks, 0, 2, labels.0), start_label(blocks, 1, 0, labels.1));
        if matches!(item.kind(), NodeKind::Split(_)) {
            pending.extend([labels, labels]);
        } else {
            sums.push(labels.0 + labels.1);
        }
    }
    sums
}

// Each node is an end before it is split, so that the sum of each is seen with some limit. The bound is the sum of the
// node that is taken next: the least of the ends'.
#[test]
fn each_node_has_its_sum() {
    let problem = problem_of(PASSING.0, &PASSING.1);
    for (limit, head, sums) in [
        (0, "limit 0 bound 2 /", vec![2]),
        (1, "limit 1 bound 3 /", vec![3, 4]),
        (2, "limit 2 bound 4 /", vec![4, 6, 4]),
        (3, "limit 3 bound 4 /", vec![4, 6, 5, 4]),
        (4, "limit 4 bound 4 /", vec![5, 8, 6, 5, 4]),
        (5, "found:", vec![5, 8, 6, 5, 5, 4]),
    ] {
        assert!(common_text(&problem, limit).starts_with(head), "{limit}");
        assert_eq!(leaf_sums(tree_of(&answer_of(Search::Unnamed, &problem, limit))), sums, "{limit}");
    }
}

#[test]
fn it_stops_where_two_agents_block_each_other() {
    let answer = "limit 3 bound 4 / swap 0 1 0 1 0 / vertex 0 1 0 1 0: 0@0=2 / leaf 0: 0@0=inf \
        / leaf 1: 1@0=2 / vertex 0 1 1 1 1: 1@0=2 / leaf 0: 0@0=2 / leaf 1: 1@0=inf";
    assert_answer("..", &[(0, 1), (1, 0)], 3, answer);
}

#[test]
fn it_shows_that_no_plan_is_valid() {
    let one_start = "impossible / vertex 0 1 0 0 / leaf 0: 0@0=inf / leaf 1: 0@0=inf";
    assert_answer("...", &[(0, 1), (0, 2)], 1, one_start);
    assert_answer("...", &[(0, 1), (0, 2)], 0, "limit 0 bound 3 / leaf");
    // One goal, two pairs of agents with one goal each, and a wall.
    assert_answer("...", &[(0, 1), (2, 1)], 0, "impossible / clash 0 1");
    assert_answer("....", &[(0, 2), (1, 3), (2, 3), (3, 2)], 0, "impossible / clash 0 3");
    assert_answer(".@.", &[(0, 2)], 0, "impossible / leaf");
}

#[test]
fn it_names_a_shared_goal_before_an_unreachable_one() {
    assert_answer("..@.", &[(0, 3), (0, 1), (1, 1)], 0, "impossible / clash 1 2");
}

// Of an agent's cheapest paths the one of least cell numbers is taken, also where it conflicts and another one doesn't.
#[test]
fn it_takes_the_least_of_the_cheapest_paths() {
    assert_answer(".. ..", &[(0, 3), (2, 2)], 0, "found: 0 1 3: 2 / leaf");
    assert_answer(".. ..", &[(0, 3), (1, 1)], 0, "limit 0 bound 2 / leaf");
    let answer = "found: 0 2 3: 1 / vertex 0 1 1 1 / leaf / leaf 1: 1@0=2";
    assert_answer(".. ..", &[(0, 3), (1, 1)], 1, answer);
}

#[test]
fn four_agents_rotate() {
    assert_answer(".. ..", &[(0, 1), (1, 3), (3, 2), (2, 0)], 0, "found: 0 1: 1 3: 3 2: 2 0 / leaf");
}

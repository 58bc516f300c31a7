//! Worked problems, with the plan texts and certificates that are expected of them.
use crate::crates::mapf_certificate::{PlanAnswer, read_plan};
use crate::crates::mapf_model::{Plan, Problem};
use crate::crates::mapf_text::{read_map, read_scen};
use crate::rattle_std::alloc::Global;
use std::ops::RangeInclusive;

/// A problem's texts and its number of agents.
#[derive(Clone, Copy, Debug)]
pub struct Given {
    pub map: &'static str,
    pub scen: &'static str,
    pub k: u32,
}

impl Given {
    /// The problem that the texts spell.
    pub fn problem(&self) -> Problem {
        let grid = read_map(Global, self.map.as_bytes()).expect("a map");
        read_scen(Global, self.scen.as_bytes(), grid, self.k).expect("a scenario")
    }

    /// The plan of a plan text for the problem's map.
    pub fn plan(&self, text: &str) -> Plan {
        match read_plan(Global, text.as_bytes(), self.problem().grid()).expect("a plan text").answer {
            PlanAnswer::Found(plan) => plan,
            other => panic!("no plan, but {other:?}"),
        }
    }
}

/// The text with its lines from the first to the last of these replaced, counted from 1.
pub fn with_lines(text: &str, replaced: RangeInclusive<usize>, lines: &str) -> String {
    let (first, last) = replaced.into_inner();
    let old: Vec<&str> = text.split_inclusive('\n').collect();
    [&old[..first - 1].concat(), lines, &old[last..].concat()].concat()
}

/// The line in which a text that is cut short misses something, counted from 1.
pub fn line_cut(text: &[u8]) -> u64 {
    1 + text.iter().filter(|&&byte| byte == b'\n').count() as u64
}

/// The plan text in the other version, unless its answer is a limit: in all else the versions are alike.
pub fn plan_in_other_version(text: &str) -> Option<String> {
    if text.contains("\nlimit") {
        return None;
    }
    let one = text.strip_prefix("mapf-plan 2\n").map(|rest| format!("mapf-plan 1\n{rest}"));
    one.or_else(|| text.strip_prefix("mapf-plan 1\n").map(|rest| format!("mapf-plan 2\n{rest}")))
}

/// The text of the events in which these agents ask, one after another.
pub fn event_text(agents: &[u32]) -> String {
    let lines: String = agents.iter().map(|agent| format!("{agent}\n")).collect();
    format!("mapf-events 1\n{lines}end\n")
}

/// One agent that is at its goal.
pub const AT_REST: Given =
    Given { map: "type octile\nheight 1\nwidth 1\nmap\n.\n", scen: "version 1\n0\ta.map\t1\t1\t0\t0\t0\t0\t0\n", k: 1 };

pub const AT_REST_PLAN: &str = "mapf-plan 2\nagents 1\ncost 0\npath 0 0 0,0\nend\n";

pub const AT_REST_CERT: &str = "mapf-cert 2\nagents 1\nclaim cost 0\nleaf 0\nend\n";

/// One agent in a corridor; lines that end with CR LF, and a last line without an end.
pub const CORRIDOR: Given = Given {
    map: "type octile\r\nheight 1\r\nwidth 3\r\nmap\r\n...",
    scen: "version 1.0\r\n0 a.map 3 1 0 0 2 0 2",
    k: 1,
};

pub const CORRIDOR_PLAN: &str = "mapf-plan 2\nagents 1\ncost 2\npath 0 2 0,0 1,0 2,0\nend\n";

pub const CORRIDOR_CERT: &str = "mapf-cert 2\nagents 1\nclaim cost 2\nleaf 0\nend\n";

/// Two agents that cross on an open square of nine cells.
pub const CROSSING_MAP: &str = "type octile\nheight 3\nwidth 3\nmap\n...\n...\n...\n";

pub const CROSSING_SCEN: &str = "version 1\n0\topen3.map\t3\t3\t0\t1\t2\t1\t2\n0\topen3.map\t3\t3\t1\t0\t1\t2\t2\n";

pub const CROSSING: Given = Given { map: CROSSING_MAP, scen: CROSSING_SCEN, k: 2 };

pub const CROSSING_PLAN: &str = "mapf-plan 2\nagents 2\ncost 5\npath 0 3 0,1 0,1 1,1 2,1\npath 1 2 1,0 1,1 1,2\nend\n";

pub const CROSSING_CERT: &str = "\
mapf-cert 2\nagents 2\nclaim cost 5\nvertex 0 1 1,1 1 0\nleaf 1\nagent 0 1\nat 0,1 0 3\n\
leaf 1\nagent 1 1\nat 1,0 0 3\nend\n";

/// Agents of the crossing that ask to go on, and the replies to them.
pub const CROSSING_EVENTS: &str = "mapf-events 1\n0\n1\n0\n1\n0\n0\n0\nend\n";

pub const CROSSING_TOLD: &str = "hold 0 by 1\ngo 1 1,1\nhold 0 by 1\ngo 1 1,2\ngo 0 1,1\ngo 0 2,1\ndone 0\n";

/// What is written where no split is allowed: the sum of the distances is the bound.
pub const CROSSING_STOPPED_PLAN: &str = "mapf-plan 2\nagents 2\nlimit 0 bound 4\nend\n";

pub const CROSSING_STOPPED_CERT: &str = "mapf-cert 2\nagents 2\nclaim bound 4\nleaf 0\nend\n";

/// A plan of the crossing in which both agents are in the middle at tick 1.
pub const MEETING: &str = "mapf-plan 2\nagents 2\ncost 4\npath 0 2 0,1 1,1 2,1\npath 1 2 1,0 1,1 1,2\nend\n";

/// A valid plan of the crossing that isn't optimal.
pub const DEARER: &str = "mapf-plan 2\nagents 2\ncost 6\npath 0 4 0,1 0,1 0,1 1,1 2,1\npath 1 2 1,0 1,1 1,2\nend\n";

/// An agent at its goal is in the way of another, and steps aside into a niche.
pub const NICHE: Given = Given {
    map: "type octile\nheight 2\nwidth 3\nmap\n...\n@.@\n",
    scen: "version 1\n0\tniche.map\t3\t2\t0\t0\t2\t0\t2\n0\tniche.map\t3\t2\t1\t0\t1\t0\t0\n",
    k: 2,
};

pub const NICHE_PLAN: &str = "mapf-plan 2\nagents 2\ncost 4\npath 0 2 0,0 1,0 2,0\npath 1 2 1,0 1,1 1,0\nend\n";

pub const NICHE_CERT: &str = "\
mapf-cert 2\nagents 2\nclaim cost 4\nvertex 0 1 1,0 1 0\nvertex 0 1 1,0 2 1\nagent 0 1\nat 0,0 0 3\n\
vertex 0 1 1,0 3 1\nagent 0 2\nat 0,0 0 4\nat 0,0 1 3\n\
leaf 1\nagent 0 3\nat 0,0 0 5\nat 0,0 1 4\nat 0,0 2 3\n\
leaf 1\nagent 1 9\nat 1,0 0 4\nat 0,0 1 3\nat 1,0 1 3\nat 2,0 1 3\n\
at 1,1 1 3\nat 0,0 2 2\nat 1,0 2 2\nat 2,0 2 2\nat 1,1 2 2\n\
leaf 1\nagent 1 5\nat 1,0 0 3\nat 0,0 1 2\nat 1,0 1 2\nat 2,0 1 2\nat 1,1 1 2\n\
swap 0 1 0,0 1,0 0 1\nagent 1 1\nat 1,0 0 2\nleaf 1\nagent 0 1\nat 0,0 0 3\n\
swap 0 1 1,0 2,0 1 1\nagent 1 1\nat 1,0 0 2\nleaf 1\nagent 0 2\nat 0,0 0 3\nat 1,0 1 2\n\
leaf 1\nagent 1 1\nat 1,0 0 2\nend\n";

/// The same with a split too few.
pub const NICHE_STOPPED_PLAN: &str = "mapf-plan 2\nagents 2\nlimit 4 bound 4\nend\n";

pub const NICHE_STOPPED_CERT: &str = "\
mapf-cert 2\nagents 2\nclaim bound 4\nvertex 0 1 1,0 1 0\nvertex 0 1 1,0 2 1\nagent 0 1\nat 0,0 0 3\n\
vertex 0 1 1,0 3 1\nagent 0 2\nat 0,0 0 4\nat 0,0 1 3\n\
leaf 1\nagent 0 3\nat 0,0 0 5\nat 0,0 1 4\nat 0,0 2 3\n\
leaf 1\nagent 1 9\nat 1,0 0 4\nat 0,0 1 3\nat 1,0 1 3\nat 2,0 1 3\n\
at 1,1 1 3\nat 0,0 2 2\nat 1,0 2 2\nat 2,0 2 2\nat 1,1 2 2\n\
leaf 1\nagent 1 5\nat 1,0 0 3\nat 0,0 1 2\nat 1,0 1 2\nat 2,0 1 2\nat 1,1 1 2\n\
swap 0 1 0,0 1,0 0 1\nagent 1 1\nat 1,0 0 2\nleaf 1\nagent 0 1\nat 0,0 0 3\n\
leaf 1\nagent 1 1\nat 1,0 0 2\nend\n";

/// Two agents that must exchange their places on two cells.
pub const EXCHANGE: Given = Given {
    map: "type octile\nheight 1\nwidth 2\nmap\n..\n",
    scen: "version 1\n0\ta.map\t2\t1\t0\t0\t1\t0\t1\n0\ta.map\t2\t1\t1\t0\t0\t0\t1\n",
    k: 2,
};

/// No plan is valid, and no number of splits shows it.
pub const EXCHANGE_STOPPED_PLAN: &str = "mapf-plan 2\nagents 2\nlimit 3 bound 4\nend\n";

pub const EXCHANGE_STOPPED_CERT: &str = "\
mapf-cert 2\nagents 2\nclaim bound 4\nswap 0 1 0,0 1,0 0 0\n\
vertex 0 1 0,0 1 1\nagent 0 1\nat 0,0 0 2\nleaf 1\nagent 0 1\nat 0,0 0 inf\n\
leaf 1\nagent 1 1\nat 1,0 0 2\n\
vertex 0 1 1,0 1 1\nagent 1 1\nat 1,0 0 2\nleaf 1\nagent 0 1\nat 0,0 0 2\n\
leaf 1\nagent 1 1\nat 1,0 0 inf\nend\n";

/// A plan in which they exchange them.
pub const SWAPPING: &str = "mapf-plan 2\nagents 2\ncost 2\npath 0 1 0,0 1,0\npath 1 1 1,0 0,0\nend\n";

/// Two agents with one start.
pub const SHARED_START: Given = Given {
    map: "type octile\nheight 1\nwidth 3\nmap\n...\n",
    scen: "version 1\n0\ta.map\t3\t1\t0\t0\t1\t0\t1\n0\ta.map\t3\t1\t0\t0\t2\t0\t2\n",
    k: 2,
};

pub const SHARED_START_PLAN: &str = "mapf-plan 2\nagents 2\nimpossible\nend\n";

pub const SHARED_START_CERT: &str = "\
mapf-cert 2\nagents 2\nclaim impossible\nvertex 0 1 0,0 0 0\nleaf 1\nagent 0 1\nat 0,0 0 inf\n\
leaf 1\nagent 1 1\nat 0,0 0 inf\nend\n";

pub const SHARED_START_STOPPED_PLAN: &str = "mapf-plan 2\nagents 2\nlimit 0 bound 3\nend\n";

pub const SHARED_START_STOPPED_CERT: &str = "mapf-cert 2\nagents 2\nclaim bound 3\nleaf 0\nend\n";

/// Two agents with one goal.
pub const SHARED_GOAL: Given = Given {
    map: "type octile\nheight 1\nwidth 3\nmap\n...\n",
    scen: "version 1\n0\ta.map\t3\t1\t0\t0\t1\t0\t1\n0\ta.map\t3\t1\t2\t0\t1\t0\t1\n",
    k: 2,
};

pub const SHARED_GOAL_PLAN: &str = "mapf-plan 2\nagents 2\nimpossible\nend\n";

pub const SHARED_GOAL_CERT: &str = "mapf-cert 2\nagents 2\nclaim impossible\nclash 0 1\nend\n";

/// A wall between start and goal.
pub const WALL: Given = Given {
    map: "type octile\nheight 1\nwidth 3\nmap\n.@.\n",
    scen: "version 1\n0\ta.map\t3\t1\t0\t0\t2\t0\t2\n",
    k: 1,
};

pub const WALL_PLAN: &str = "mapf-plan 2\nagents 1\nimpossible\nend\n";

pub const WALL_CERT: &str = "mapf-cert 2\nagents 1\nclaim impossible\nleaf 0\nend\n";

/// Four agents that rotate on an open square.
pub const ROTATION: Given = Given {
    map: "type octile\nheight 2\nwidth 2\nmap\n..\n..\n",
    scen: "version 1\n0\ta.map\t2\t2\t0\t0\t1\t0\t1\n0\ta.map\t2\t2\t1\t0\t1\t1\t1\n\
0\ta.map\t2\t2\t1\t1\t0\t1\t1\n0\ta.map\t2\t2\t0\t1\t0\t0\t1\n",
    k: 4,
};

pub const ROTATION_PLAN: &str =
    "mapf-plan 2\nagents 4\ncost 4\npath 0 1 0,0 1,0\npath 1 1 1,0 1,1\npath 2 1 1,1 0,1\npath 3 1 0,1 0,0\nend\n";

pub const ROTATION_CERT: &str = "mapf-cert 2\nagents 4\nclaim cost 4\nleaf 0\nend\n";

/// Two agents that are at their goals, side by side.
pub const RESTING: Given = Given {
    map: "type octile\nheight 1\nwidth 2\nmap\n..\n",
    scen: "version 1\n0 rest.map 2 1 0 0 0 0 0\n0 rest.map 2 1 1 0 1 0 0\n",
    k: 2,
};

pub const RESTING_PLAN: &str = "mapf-plan 2\nagents 2\ncost 0\npath 0 0 0,0\npath 1 0 1,0\nend\n";

// Certificates of version 1, in which leaves alone have blocks.

pub const AT_REST_ONE: &str = "mapf-cert 1\nagents 1\nclaim cost 0\nleaf 0\nend\n";

pub const CORRIDOR_ONE: &str = "mapf-cert 1\nagents 1\nclaim cost 2\nleaf 0\nend\n";

pub const CROSSING_ONE: &str = "\
mapf-cert 1\nagents 2\nclaim cost 5\nvertex 0 1 1,1 1\nleaf 1\nagent 0 1\nat 0,1 0 3\n\
leaf 1\nagent 1 1\nat 1,0 0 3\nend\n";

pub const NICHE_ONE: &str = "\
mapf-cert 1\nagents 2\nclaim cost 4\nvertex 0 1 1,0 1\nvertex 0 1 1,0 2\nvertex 0 1 1,0 3\n\
leaf 1\nagent 0 3\nat 0,0 0 5\nat 0,0 1 4\nat 0,0 2 3\n\
leaf 2\nagent 0 2\nat 0,0 0 4\nat 0,0 1 3\nagent 1 9\nat 1,0 0 4\nat 0,0 1 3\nat 1,0 1 3\nat 2,0 1 3\n\
at 1,1 1 3\nat 0,0 2 2\nat 1,0 2 2\nat 2,0 2 2\nat 1,1 2 2\n\
leaf 2\nagent 0 1\nat 0,0 0 3\nagent 1 5\nat 1,0 0 3\nat 0,0 1 2\nat 1,0 1 2\nat 2,0 1 2\nat 1,1 1 2\n\
swap 0 1 0,0 1,0 0\nleaf 2\nagent 0 1\nat 0,0 0 3\nagent 1 1\nat 1,0 0 2\nswap 0 1 1,0 2,0 1\n\
leaf 2\nagent 0 2\nat 0,0 0 3\nat 1,0 1 2\nagent 1 1\nat 1,0 0 2\n\
leaf 1\nagent 1 1\nat 1,0 0 2\nend\n";

/// The same tree in version 2, without blocks on its splits.
pub const NICHE_CONVERTED: &str = "\
mapf-cert 2\nagents 2\nclaim cost 4\nvertex 0 1 1,0 1 0\nvertex 0 1 1,0 2 0\nvertex 0 1 1,0 3 0\n\
leaf 1\nagent 0 3\nat 0,0 0 5\nat 0,0 1 4\nat 0,0 2 3\n\
leaf 2\nagent 0 2\nat 0,0 0 4\nat 0,0 1 3\nagent 1 9\nat 1,0 0 4\nat 0,0 1 3\nat 1,0 1 3\nat 2,0 1 3\n\
at 1,1 1 3\nat 0,0 2 2\nat 1,0 2 2\nat 2,0 2 2\nat 1,1 2 2\n\
leaf 2\nagent 0 1\nat 0,0 0 3\nagent 1 5\nat 1,0 0 3\nat 0,0 1 2\nat 1,0 1 2\nat 2,0 1 2\nat 1,1 1 2\n\
swap 0 1 0,0 1,0 0 0\nleaf 2\nagent 0 1\nat 0,0 0 3\nagent 1 1\nat 1,0 0 2\nswap 0 1 1,0 2,0 1 0\n\
leaf 2\nagent 0 2\nat 0,0 0 3\nat 1,0 1 2\nagent 1 1\nat 1,0 0 2\n\
leaf 1\nagent 1 1\nat 1,0 0 2\nend\n";

pub const SHARED_START_ONE: &str = "\
mapf-cert 1\nagents 2\nclaim impossible\nvertex 0 1 0,0 0\nleaf 1\nagent 0 1\nat 0,0 0 inf\n\
leaf 1\nagent 1 1\nat 0,0 0 inf\nend\n";

pub const SHARED_GOAL_ONE: &str = "mapf-cert 1\nagents 2\nclaim impossible\nclash 0 1\nend\n";

pub const WALL_ONE: &str = "mapf-cert 1\nagents 1\nclaim impossible\nleaf 0\nend\n";

pub const ROTATION_ONE: &str = "mapf-cert 1\nagents 4\nclaim cost 4\nleaf 0\nend\n";

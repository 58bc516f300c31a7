//! Problems: of arrays, of rows of text, or of the texts of a map and a scenario.
use crate::crates::mapf_app::{Input, Planned, read_planned};
use crate::crates::mapf_model::limits::{MOST_AGENTS, MOST_TEXT_BYTES};
use crate::crates::mapf_model::{self, BytesSource, Grid};
use crate::crates::mapf_text::{read_map, read_scen};
use crate::error::{Error, is_side};
use crate::plan::Cell;
use crate::rattle_std::alloc::Global;
use crate::text::{Text, collected};

/// A grid, and a start and a goal for each agent. Agents are counted from 0.
///
/// Two problems are equal if their grids, starts and goals are.
#[derive(Clone, Debug)]
pub struct Problem {
    map: Vec<u8>,
    scenario: Vec<u8>,
    width: u32,
    height: u32,
    free: Vec<bool>,
    starts: Vec<Cell>,
    goals: Vec<Cell>,
}

impl Problem {
    /// Makes a problem of a grid: `free[y][x]` is true where an agent may stand. Agent i goes from the cell `starts[i]`
    /// to `goals[i]`.
    ///
    /// ```
    /// let free = vec![vec![true; 8]; 4];
    /// let problem = mapf::Problem::new(&free, &[(0, 0), (7, 3)], &[(7, 3), (0, 0)])?;
    /// assert_eq!((problem.agents(), problem.width(), problem.height()), (2, 8, 4));
    /// # Ok::<(), mapf::Error>(())
    /// ```
    ///
    /// # Errors
    ///
    /// There have to be 1 to 200 agents ([`Error::AgentCount`]), each with a start and a goal
    /// ([`Error::StartsAndGoals`]), 1 to 2,048 rows and as many columns ([`Error::GridSize`]), and as many cells in each
    /// row as in the first ([`Error::RowLength`]). Starts and goals have to be free cells ([`Error::NotFree`]). Agents
    /// may have one start or one goal together, but then no plan is valid.
    pub fn new<R: AsRef<[bool]>>(free: &[R], starts: &[Cell], goals: &[Cell]) -> Result<Problem, Error> {
        let mut map = MapText::of(free.first().map_or(0, |row| row.as_ref().len()), free.len())?;
        for row in free {
            map.begin_row(row.as_ref().len())?;
            for &is_free in row.as_ref() {
                map.text.push_bytes(if is_free { b"." } else { b"@" })?;
            }
            map.end_row()?;
        }
        map.problem(starts, goals)
    }

    /// Makes a problem of the rows of a grid, in the characters of MovingAI's maps: an agent may stand on `.`, `G` and `S`,
    /// and not on `@`, `O`, `T` and `W`. Otherwise this is [`Problem::new`].
    ///
    /// ```
    /// let problem = mapf::Problem::from_rows(&["..@", "..."], &[(0, 0)], &[(2, 1)])?;
    /// assert!(!problem.is_free((2, 0)));
    /// # Ok::<(), mapf::Error>(())
    /// ```
    ///
    /// # Errors
    ///
    /// Those of [`Problem::new`], and [`Error::Terrain`] where another character stands in a row.
    pub fn from_rows<R: AsRef<[u8]>>(rows: &[R], starts: &[Cell], goals: &[Cell]) -> Result<Problem, Error> {
        let mut map = MapText::of(rows.first().map_or(0, |row| row.as_ref().len()), rows.len())?;
        for row in rows {
            let row = row.as_ref();
            map.begin_row(row.len())?;
            // The reader of maps would take these for an end of the line.
            if let Some(column) = row.iter().position(|sign| matches!(sign, b'\n' | b'\r')) {
                return Err(Error::Terrain { column: column as u32, row: map.row });
            }
            map.text.push_bytes(row)?;
            map.end_row()?;
        }
        map.problem(starts, goals)
    }

    /// Reads the problem of the first agents of a MovingAI scenario, 1 to 200, on its map. Section 1 of docs/FORMATS.md
    /// specifies both texts.
    ///
    /// # Errors
    ///
    /// [`Error::AgentCount`], [`Error::Map`], [`Error::Scenario`] or [`Error::TooLong`].
    pub fn from_movingai(
        map: impl Into<Vec<u8>>,
        scenario: impl Into<Vec<u8>>,
        agents: usize,
    ) -> Result<Problem, Error> {
        let (map, scenario) = (map.into(), scenario.into());
        let read = read(&map, &scenario, count_of(agents)?)?;
        let grid = read.grid();
        Ok(Problem {
            width: grid.width(),
            height: grid.height(),
            free: free_cells(grid)?,
            starts: collected(read.agents(), |agent| Ok(grid.xy(agent.start)))?,
            goals: collected(read.agents(), |agent| Ok(grid.xy(agent.goal)))?,
            map,
            scenario,
        })
    }

    /// How many agents there are, 1 to 200.
    pub fn agents(&self) -> u32 {
        self.starts.len() as u32
    }

    /// The start of each agent.
    pub fn starts(&self) -> &[Cell] {
        &self.starts
    }

    /// The goal of each agent.
    pub fn goals(&self) -> &[Cell] {
        &self.goals
    }

    /// How many columns the grid has, 1 to 2,048.
    pub fn width(&self) -> u32 {
        self.width
    }

    /// How many rows the grid has, 1 to 2,048.
    pub fn height(&self) -> u32 {
        self.height
    }

    /// Whether an agent may stand in a cell. Outside of the grid none may.
    pub fn is_free(&self, (x, y): Cell) -> bool {
        x < self.width && y < self.height && self.free.get((y * self.width + x) as usize) == Some(&true)
    }

    /// The text of the map, for the program and for other checkers.
    pub fn map_text(&self) -> &[u8] {
        &self.map
    }

    /// The text of the scenario, for the program and for other checkers.
    pub fn scenario_text(&self) -> &[u8] {
        &self.scenario
    }

    /// The problem as the readers of its texts give it.
    pub(crate) fn read(&self) -> Result<mapf_model::Problem, Error> {
        read(&self.map, &self.scenario, self.agents())
    }

    /// The valid plan of a plan text for the problem.
    pub(crate) fn planned(&self, plan_text: &[u8]) -> Result<Planned, Error> {
        let (mut map, mut scenario) = self.sources();
        let mut plan = BytesSource::of(plan_text);
        Ok(read_planned(Global, &mut map, &mut scenario, self.agents(), &mut plan)?)
    }

    /// The two texts, to be read by a run.
    pub(crate) fn sources(&self) -> (BytesSource<'_>, BytesSource<'_>) {
        (BytesSource::of(&self.map), BytesSource::of(&self.scenario))
    }
}

impl PartialEq for Problem {
    fn eq(&self, other: &Problem) -> bool {
        (self.width, &self.free, &self.starts, &self.goals) == (other.width, &other.free, &other.starts, &other.goals)
    }
}

impl Eq for Problem {}

/// The text of a map that is being made.
struct MapText {
    text: Text,
    width: usize,
    height: usize,
    /// The number of the row that comes next.
    row: u32,
}

impl MapText {
    /// The text of a map of this size, without its rows.
    fn of(width: usize, height: usize) -> Result<MapText, Error> {
        if !is_side(width) || !is_side(height) {
            return Err(Error::GridSize { width, height });
        }
        let mut text = Text::new();
        text.push(format_args!("type octile\nheight {height}\nwidth {width}\nmap\n"))?;
        Ok(MapText { text, width, height, row: 0 })
    }

    /// Begins a row of so many cells.
    fn begin_row(&self, length: usize) -> Result<(), Error> {
        if length != self.width {
            return Err(Error::RowLength { row: self.row, length, width: self.width });
        }
        Ok(())
    }

    fn end_row(&mut self) -> Result<(), Error> {
        self.row += 1;
        self.text.push_bytes(b"\n")
    }

    /// The problem of the map and of these agents.
    fn problem(self, starts: &[Cell], goals: &[Cell]) -> Result<Problem, Error> {
        if starts.len() != goals.len() {
            return Err(Error::StartsAndGoals { starts: starts.len(), goals: goals.len() });
        }
        count_of(starts.len())?;
        let MapText { text, width, height, .. } = self;
        let mut scenario = Text::new();
        scenario.push(format_args!("version 1\n"))?;
        for ((x, y), (u, v)) in starts.iter().zip(goals) {
            scenario.push(format_args!("0 grid.map {width} {height} {x} {y} {u} {v} 0\n"))?;
        }
        Problem::from_movingai(text.into_bytes(), scenario.into_bytes(), starts.len()).map_err(of_arrays)
    }
}

/// The error of arrays from which texts with this error were made.
fn of_arrays(error: Error) -> Error {
    match error {
        Error::Map(code) => code.terrain().map_or(error, |(column, row)| Error::Terrain { column, row }),
        Error::Scenario(code) => code.agent().map_or(error, |agent| Error::NotFree { agent }),
        error => error,
    }
}

fn read(map: &[u8], scenario: &[u8], agents: u32) -> Result<mapf_model::Problem, Error> {
    limit(map, Input::Map)?;
    let grid = read_map(Global, map)?;
    limit(scenario, Input::Scen)?;
    Ok(read_scen(Global, scenario, grid, agents)?)
}

/// Refuses a text that is longer than one which a run reads.
fn limit(text: &[u8], input: Input) -> Result<(), Error> {
    if text.len() as u64 > MOST_TEXT_BYTES {
        return Err(input.into());
    }
    Ok(())
}

/// For each cell whether it is free, row by row.
fn free_cells(grid: &Grid) -> Result<Vec<bool>, Error> {
    let mut free = Vec::new();
    let cells = grid.width() as usize * grid.height() as usize;
    free.try_reserve_exact(cells).map_err(|_| Error::Memory)?;
    for y in 0..grid.height() {
        free.extend_from_slice(grid.row(y));
    }
    Ok(free)
}

fn count_of(agents: usize) -> Result<u32, Error> {
    match u32::try_from(agents) {
        Ok(count @ 1..=MOST_AGENTS) => Ok(count),
        _ => Err(Error::AgentCount { agents }),
    }
}

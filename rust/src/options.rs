//! What a search is asked for.
use crate::crates::mapf_app;
use crate::crates::mapf_model::limits::MOST_SPLITS;
use crate::error::Error;

/// By which search a problem is solved. There may be others in later versions.
#[derive(Clone, Copy, Debug, Default, PartialEq, Eq, Hash)]
#[non_exhaustive]
pub enum Search {
    /// Plain conflict-based search. That its answers are true is proved of the search itself.
    Cbs,
    /// Conflict-based search with lower bounds on what pairs and groups of agents cost together. It mostly needs far
    /// fewer splits than [`Search::Cbs`], and gives a plan beside a bound where it reaches its limit. Its answer is given
    /// only if the proved check accepts it.
    #[default]
    Cbsh,
}

/// What a search is asked for. There may be more options in later versions.
///
/// ```
/// use mapf::{Options, Search};
///
/// let options = Options::default().search(Search::Cbs).splits(100_000);
/// assert_eq!(options.splits, 100_000);
/// ```
#[derive(Clone, Debug, PartialEq, Eq)]
#[non_exhaustive]
pub struct Options {
    /// The search; [`Search::Cbsh`] by default.
    pub search: Search,
    /// How many splits (expanded nodes of the tree) the search may make, 0 to 100,000; 10,000 by default.
    /// [`Search::Cbsh`] may make 300 all the same. Nothing else limits the time and the memory of a search.
    pub splits: u32,
    /// How often [`Search::Cbsh`] tries to improve the plan with which it begins, 0 to 1,000,000 times: 50 times for
    /// each agent by default. [`Search::Cbs`] begins without a plan, and ignores this.
    pub improvements: Option<u32>,
}

const SPLITS: u32 = 10_000;
const IMPROVEMENTS_FOR_EACH: u32 = 50;
const MOST_IMPROVEMENTS: u32 = 1_000_000;

impl Default for Options {
    fn default() -> Options {
        Options { search: Search::default(), splits: SPLITS, improvements: None }
    }
}

impl Options {
    /// The same options with this search.
    #[must_use]
    pub fn search(self, search: Search) -> Options {
        Options { search, ..self }
    }

    /// The same options with this limit on the splits, 0 to 100,000.
    #[must_use]
    pub fn splits(self, splits: u32) -> Options {
        Options { splits, ..self }
    }

    /// The same options with this number of improvements, 0 to 1,000,000.
    #[must_use]
    pub fn improvements(self, improvements: u32) -> Options {
        Options { improvements: Some(improvements), ..self }
    }

    /// The number of improvements for so many agents. It is an error if an option is out of its range.
    pub(crate) fn improvements_for(&self, agents: u32) -> Result<u32, Error> {
        if self.splits > MOST_SPLITS {
            return Err(Error::Splits { splits: self.splits });
        }
        let improvements = self.improvements.unwrap_or(IMPROVEMENTS_FOR_EACH * agents);
        if improvements > MOST_IMPROVEMENTS {
            return Err(Error::Improvements { improvements });
        }
        Ok(match self.search {
            Search::Cbs => 0,
            Search::Cbsh => improvements,
        })
    }
}

impl From<Search> for mapf_app::Search {
    fn from(search: Search) -> mapf_app::Search {
        match search {
            Search::Cbs => mapf_app::Search::Cbs,
            Search::Cbsh => mapf_app::Search::Cbsh,
        }
    }
}

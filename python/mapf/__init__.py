"""Optimal multi-agent path finding (MAPF) on grids, with certificates that anyone can check.

>>> import mapf
>>> free = [[True, True, True],
...         [True, True, True],
...         [True, True, True]]
>>> answer = mapf.solve(free, starts=[(0, 1), (1, 0)], goals=[(2, 1), (1, 2)])
>>> answer
Answer(kind='optimal', cost=5, bound=5)
>>> mapf.check(free, [(0, 1), (1, 0)], [(2, 1), (1, 2)], answer.paths, answer.certificate).kind
'optimal'

`free[y][x]` is true where an agent may stand. A cell is (x, y), with x its column and y its row, both counted from 0. A
path has a cell for each tick from 0 to the agent's last arrival at its goal. The cost of an agent is that tick, and the
cost of a plan the sum of the agents' costs.

`solve`, `check` and `validate` take such arrays, and `solve_texts`, `check_texts` and `validate_texts` the texts of
maps, scenarios and plans.

The calls are those of the library of mapf for C, which is in the installed package. `mapf.tools` has what the commands
`mapf-verify`, `mapf-draw` and so on are made of, for other programs.
"""

from typing import TYPE_CHECKING

from .errors import MapfError
from .problems import read_map, read_scen
from .solver import Answer, check, check_texts, solve, solve_texts, validate, validate_texts
from .tools.plans import Cell, Grid

__all__ = ["Answer", "Cell", "Grid", "MapfError", "check", "check_texts", "read_map", "read_scen", "solve",
           "solve_texts", "validate", "validate_texts"]

__version__: str

if not TYPE_CHECKING:
    def __getattr__(name: str) -> str:
        """`__version__`, which is looked for when somebody asks: that of the package, if it is installed."""
        if name != "__version__":
            raise AttributeError(f"module {__name__!r} has no attribute {name!r}")
        from importlib import metadata  # it takes long, and hardly anybody needs it

        try:
            return metadata.version("mapf")
        except metadata.PackageNotFoundError:
            return "unknown"

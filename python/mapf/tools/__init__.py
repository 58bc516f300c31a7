"""Plans of many agents on grids (MAPF), and certificates of mapf, for other programs: what `from mapf.tools import
..` gives. docs/TOOLS.md shows an example.

A cell is (x, y), with x its column and y its row, both from 0. A path is the list of an agent's cells, one for each
tick from 0 on, and a plan the list of the agents' paths.
"""

from .api import (Certificate, Verdict, draw_film, draw_page, draw_picture, faults_of_plan, read_certificate, read_plan,
                  read_scenario, recheck_certificate)
from .plans import Agent, Cell, Fault, Grid, cost_of, sum_of_costs
from .process import ToolError
from .texts import plan_text, read_map

__all__ = ["Agent", "Cell", "Certificate", "Fault", "Grid", "ToolError", "Verdict", "cost_of", "draw_film",
           "draw_page", "draw_picture", "faults_of_plan", "plan_text", "read_certificate", "read_map", "read_plan",
           "read_scenario", "recheck_certificate", "sum_of_costs"]

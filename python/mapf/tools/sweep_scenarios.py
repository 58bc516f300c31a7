"""The scenarios of a benchmark, each with its map, as they lie in the folders of a sweep."""

from dataclasses import dataclass
from pathlib import Path

from .process import ToolError
from .sweep_rows import natural
from .texts import read_bytes


@dataclass(frozen=True)
class Scenario:
    """A scenario file, with its name below SCENS, its map's name, that map's file if it is there, and its agents."""

    path: Path
    name: str
    map: str
    grid: Path | None
    agents: int


def scenarios_of(maps: Path, scens: Path) -> list[Scenario]:
    """The scenarios in and below a folder, in the order of their maps' names and of their own."""
    for folder in (maps, scens):
        if not folder.is_dir():
            raise ToolError(f"{folder} isn't a folder: give the folders of the .map and of the .scen files")
    paths = sorted(scens.rglob("*.scen"))
    if not paths:
        raise ToolError(f"{scens} holds no .scen file: give the folder of the scenarios, as scen-even")
    grids = {path.name: path for path in sorted(maps.rglob("*.map"), reverse=True)}
    if not grids:
        raise ToolError(f"{maps} holds no .map file: give the folder of the maps")
    found = [scenario_of(path, scens, grids) for path in paths]
    return sorted(found, key=lambda scenario: (natural(scenario.map), natural(scenario.name)))


def scenario_of(path: Path, scens: Path, grids: dict[str, Path]) -> Scenario:
    """The scenario of a file. Its first row names its map, whose file is found by its name."""
    text = read_bytes(path).decode(errors="surrogateescape")
    lines = [line.split() for line in text.split("\n") if line.split()]
    file = lines[1][1].rpartition("/")[2] if len(lines) > 1 and len(lines[1]) > 1 else ""
    name = path.relative_to(scens).as_posix().removesuffix(".scen")
    return Scenario(path.resolve(), name, file.removesuffix(".map"), grids.get(file), max(0, len(lines) - 1))

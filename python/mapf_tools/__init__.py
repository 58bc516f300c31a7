"""The name that `mapf.tools` had before. `import mapf_tools` gives that package, and `mapf_tools.verify` its module
`mapf.tools.verify`.
"""

import importlib
import sys
from collections.abc import Sequence
from importlib.abc import Loader, MetaPathFinder
from importlib.machinery import ModuleSpec
from types import ModuleType

from mapf import tools
from mapf.tools import *


class Renamed(MetaPathFinder, Loader):
    """Gives for each module of `mapf_tools` the one of `mapf.tools`."""

    def find_spec(self, fullname: str, path: Sequence[str] | None,
                  target: ModuleType | None = None) -> ModuleSpec | None:
        return ModuleSpec(fullname, self) if fullname.startswith(f"{__name__}.") else None

    def create_module(self, spec: ModuleSpec) -> ModuleType:
        module = importlib.import_module(tools.__name__ + spec.name.removeprefix(__name__))
        spec.loader_state = module.__spec__
        return module

    def exec_module(self, module: ModuleType) -> None:
        """Nothing is to be done but to give the module its own spec back."""
        if module.__spec__ is not None:
            module.__spec__ = module.__spec__.loader_state


sys.meta_path.insert(0, Renamed())
sys.modules[__name__] = tools

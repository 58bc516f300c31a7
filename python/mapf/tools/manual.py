"""Writes the man page of mapf, and its completions for bash, zsh and fish."""

import argparse
import os
import time
from pathlib import Path
from typing import NoReturn

from .completions import bash, fish, zsh
from .help_texts import manual_of
from .man_page import man_page
from .process import ToolError, called, program, run_tool, version_of

EPILOG = """They are made from what mapf --help and mapf COMMAND --help print. FOLDER is a folder of shared files, below
which man and the shells look for these:

  man/man1/mapf.1
  bash-completion/completions/mapf
  zsh/site-functions/_mapf
  fish/vendor_completions.d/mapf.fish

In ~/.local/share man finds the page if ~/.local/bin is on the path, bash the completions if bash-completion is
installed, and fish its own. For zsh put this line into ~/.zshrc, before it calls compinit:

  fpath=(~/.local/share/zsh/site-functions $fpath)

The variable MAPF names another program. The page has the date of today, or of SOURCE_DATE_EPOCH.

example:
  tools/manual ~/.local/share

exit status:
  0    the files are written; standard output names each of them
  2    an error, with a message on standard error"""


def main() -> int:
    parser = argparse.ArgumentParser(
        prog=called("manual"), description=__doc__, epilog=EPILOG, formatter_class=argparse.RawDescriptionHelpFormatter)
    parser.add_argument("folder", metavar="FOLDER", type=Path, help="a folder of shared files, as ~/.local/share")
    folder = parser.parse_args().folder
    when = float(os.environ.get("SOURCE_DATE_EPOCH") or time.time())
    for name, text in manual_files(program(), when).items():
        path = folder / name
        try:
            path.parent.mkdir(parents=True, exist_ok=True)
            path.write_text(text, encoding="utf-8")
        except OSError as error:
            raise ToolError(f"{path} can't be written: {error.strerror}") from None
        print(path)
    return 0


def manual_files(path: str, when: float) -> dict[str, str]:
    """What this program's help gives, by the names below a folder of shared files. The page has the date of `when`."""
    manual = manual_of(path, version_of(path))
    return {
        "man/man1/mapf.1": man_page(manual, time.strftime("%Y-%m-%d", time.gmtime(when))),
        "bash-completion/completions/mapf": bash(manual),
        "zsh/site-functions/_mapf": zsh(manual),
        "fish/vendor_completions.d/mapf.fish": fish(manual),
    }


def command() -> NoReturn:
    """Runs the tool with the words of the call."""
    run_tool(main)

"""What bash, fish and zsh offer to go on with, when a script of completions is read."""

import fcntl
import os
import pty
import re
import select
import shlex
import signal
import struct
import subprocess
import tempfile
import termios
import time
from pathlib import Path

# What a shell may take to answer.
SECONDS = 60

# Calls the function of the script as bash does. Outside of a completion `compopt` does nothing, so it is told.
BASH = """
compopt() { COMPREPLY+=("compopt $*"); }
[[ $(complete -p mapf) == 'complete -F _mapf mapf' ]] || echo 'nothing is said of mapf'
COMP_WORDS=(mapf "$@")
COMP_CWORD=$#
_mapf
((${#COMPREPLY[@]} == 0)) || printf '%s\\n' "${COMPREPLY[@]}"
"""


def offered_by_bash(script, words):
    """What bash offers after `mapf` with these words, of which the last is at the cursor."""
    said = subprocess.run(["bash", "-c", f". {shlex.quote(str(script))}\n{BASH}", "bash", *words],
                          stdin=subprocess.DEVNULL, stdout=subprocess.PIPE, stderr=subprocess.STDOUT, text=True,
                          timeout=SECONDS).stdout
    return set(said.splitlines())


def offered_by_fish(script, words):
    """What fish offers, in a folder where `a-file` is the only file."""
    with tempfile.TemporaryDirectory() as name:
        Path(name, "a-file").touch()
        line = " ".join(["mapf", *words])
        code = f"source {shlex.quote(str(script))}; complete -C {shlex.quote(line)}"
        said = subprocess.run(["fish", "--no-config", "-c", code], cwd=name, stdin=subprocess.DEVNULL,
                              stdout=subprocess.PIPE, stderr=subprocess.STDOUT, text=True,
                              env={**os.environ, "HOME": name}, timeout=SECONDS).stdout
    return {line.partition("\t")[0] for line in said.splitlines()}


class ZshSession:
    """A zsh at a terminal, in which keys are typed. It lists only what it offers, without what that means."""

    def __init__(self, script):
        self.folder = tempfile.TemporaryDirectory()
        self.process, self.terminal = pty.fork()
        if self.process == 0:
            os.chdir(self.folder.name)
            os.environ.update(TERM="xterm", HOME=self.folder.name, ZDOTDIR=self.folder.name, PS1="% ")
            os.execvp("zsh", ["zsh", "-f", "-i"])
        fcntl.ioctl(self.terminal, termios.TIOCSWINSZ, struct.pack("HHHH", 50, 200, 0, 0))
        self.type(f"fpath=({shlex.quote(str(script.parent))} $fpath); autoload -Uz compinit; compinit -u -D; "
                  "unsetopt beep list_ambiguous; zstyle ':completion:*' verbose no; print rea''dy\n")
        self.until(rb"\nready\r")

    def __enter__(self):
        return self

    def __exit__(self, *_):
        """Ends the shell, which may be without the signal that a lost terminal sends."""
        os.close(self.terminal)
        os.kill(self.process, signal.SIGKILL)
        os.waitpid(self.process, 0)
        self.folder.cleanup()

    def type(self, keys):
        os.write(self.terminal, keys.encode())

    def until(self, form):
        """What comes in this form next. If nothing does in a time, this is nothing."""
        said = b""
        end = time.monotonic() + SECONDS
        while select.select([self.terminal], [], [], max(end - time.monotonic(), 0))[0]:
            said += os.read(self.terminal, 1 << 16)
            if found := re.search(form, said):
                return found[0].decode(errors="replace")
        return ""

    def offered(self, words):
        """What zsh lists after `mapf` with these words, of which the last is at the cursor. It stands below the line,
        to which the cursor goes up again. Then the line is emptied."""
        self.type(" ".join(["mapf", *words]) + "\t")
        listed = self.until(rb"\x1b\[J[^\x1b]+\x1b\[\d*A")
        self.type("\x15")
        return set(listed.partition("J")[2].rpartition("\x1b")[0].split())

#!/usr/bin/env python3
"""Types into a shell on a terminal of its own, and compares what the shell made of it.

Each line of CASES is what is typed, with `<TAB>` for
that key, a `|`, and the words that the command then gets. The commands are scripts on the path that write their words
into the file `words`.
"""
import argparse
import os
import pty
import select
import signal
import sys
import time
from pathlib import Path

PROMPT = "READY>"
PATIENCE = 60.0  # seconds; shells of a busy machine are slow
STARTS = {
    "bash": ("bash", "--rcfile", "rc", "-i"),
    "zsh": ("zsh", "-d", "-i"),
    "fish": ("fish", "--no-config", "--init-command", "source rc"),
}
SETTINGS = {
    "bash": "PS1='{prompt}'\nfor file in {share}/bash-completion/completions/*; do . \"$file\"; done\n",
    "zsh": "PS1='{prompt}'\nfpath=({share}/zsh/site-functions $fpath)\nautoload -U compinit\ncompinit -D -u\n",
    "fish": "function fish_prompt\n echo -n '{prompt}'\nend\n"
            "set --prepend fish_complete_path {share}/fish/vendor_completions.d\n",
}


class Shell:
    """A shell on a terminal of its own."""

    def __init__(self, name: str, share: Path) -> None:
        text = SETTINGS[name].format(prompt=PROMPT, share=share)
        Path(".zshrc" if name == "zsh" else "rc").write_text(text, encoding="utf-8")
        self.said = ""
        self.process, self.terminal = pty.fork()
        if self.process == 0:
            here = os.getcwd()
            os.execvpe(name, STARTS[name], {**os.environ, "HOME": here, "ZDOTDIR": here, "TERM": "xterm"})

    def read(self) -> None:
        """Reads what the shell shows, if there is something within a moment."""
        if select.select([self.terminal], [], [], 0.05)[0]:
            self.said += os.read(self.terminal, 65536).decode(errors="replace")

    def wait_for_prompt(self) -> None:
        until = time.monotonic() + PATIENCE
        while PROMPT not in self.said and time.monotonic() < until:
            self.read()

    def made_of(self, typed: str) -> str:
        """Enters a line; returns the words that the command got, or what was shown if it got none."""
        self.wait_for_prompt()
        self.said = ""
        words = Path("words")
        words.unlink(missing_ok=True)
        os.write(self.terminal, typed.replace("<TAB>", "\t").encode() + b"\r")
        until = time.monotonic() + PATIENCE
        while not words.exists() and time.monotonic() < until:
            self.read()
        return words.read_text(encoding="utf-8").strip() if words.exists() else f"nothing: {self.said!r}"

    def end(self) -> None:
        os.kill(self.process, signal.SIGKILL)
        os.waitpid(self.process, 0)
        os.close(self.terminal)


def main() -> None:
    parser = argparse.ArgumentParser(description=__doc__, formatter_class=argparse.RawDescriptionHelpFormatter)
    parser.add_argument("shell", choices=STARTS)
    parser.add_argument("share", type=Path, help="the folder of its completions")
    parser.add_argument("cases", type=Path)
    given = parser.parse_args()
    shell = Shell(given.shell, given.share.resolve())
    wrong = []
    for line in given.cases.read_text(encoding="utf-8").splitlines():
        typed, wanted = (part.strip() for part in line.split("|"))
        made = shell.made_of(typed)
        wrong += [] if made == wanted else [f"{typed}: {made}, not {wanted}"]
    shell.end()
    sys.exit("\n".join(wrong) or None)


if __name__ == "__main__":
    main()

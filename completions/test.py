#!/usr/bin/env python3
"""test.py: tries the completions of colljob in a real bash and a real zsh, in a folder with job texts and other files. Each row of
ROWS says what is typed and which words are offered; the status is 1 where a shell offers others. Needs bash and zsh."""
import os
import pathlib
import pty
import re
import select
import shutil
import subprocess
import sys
import tempfile
import time

HERE = pathlib.Path(__file__).resolve().parent
FILES = ["a.job", "b.job", "notes.txt", "two words.job", "folder/c.job"]
COMMANDS = ["run", "plain", "explain", "check", "draw", "help", "prove"]
JOBS = ["a.job", "b.job", "two words.job", "folder"]
ALL = JOBS + ["notes.txt"]
ROWS = [
    ("colljob ", COMMANDS),
    ("colljob pr", ["prove"]),
    ("colljob --v", ["--version"]),
    ("colljob run ", JOBS),
    ("colljob plain ", JOBS),
    ("colljob check --format ", ["text", "json"]),
    ("colljob check --color ", ["auto", "always", "never"]),
    ("colljob explain --color ", ["auto", "always", "never"]),
    ("colljob explain --format ", ["text", "json", "dot"]),
    ("colljob run --workers ", [str(number) for number in range(9)]),
    ("colljob run --out ", ALL),
    ("colljob run --quiet ", JOBS),
    ("colljob draw ", ["run", "waits"]),
    ("colljob draw run ", JOBS),
    ("colljob draw waits --dot ", JOBS),
    ("colljob help ", COMMANDS[:-1]),
]
END = "<<end>>"


def of_bash(line):
    """What bash offers after the line."""
    words = line.split(" ")
    listed = " ".join(f"'{word}'" for word in words)
    script = f"""source {HERE}/colljob.bash
COMP_WORDS=({listed}); COMP_CWORD={len(words) - 1}
_colljob
printf '%s\\n' "${{COMPREPLY[@]}}"
"""
    told = subprocess.run(["bash", "--norc", "-c", script], capture_output=True, text=True, check=True)
    return [word for word in told.stdout.split("\n") if word], told.stderr


# A completion in zsh is a widget: this one lists what would be inserted in place of inserting it.
ZSH = f"""
PS1='ready> '
fpath=({HERE} $fpath)
autoload -Uz compinit && compinit -u -D
zstyle ':completion:*' menu no
unsetopt list_beep
compadd() {{
    local -a offered
    builtin compadd -O offered "$@"
    builtin compadd "$@"
    printf '%s\\n' "${{offered[@]}}" >>offered.txt
}}
offer() {{ : >offered.txt; zle complete-word; print -r -- '{END}' >>offered.txt }}
zle -N offer
bindkey '^T' offer
"""


def read_until(shell, mark, seconds):
    """What the shell writes up to the mark."""
    seen = ""
    limit = time.monotonic() + seconds
    while mark not in seen and time.monotonic() < limit:
        if select.select([shell], [], [], 0.1)[0]:
            try:
                seen += os.read(shell, 65536).decode(errors="replace")
            except OSError:
                break
    return seen


class Zsh:
    """A zsh in a terminal, in that folder."""

    def __init__(self, folder):
        self.folder = folder
        (folder / ".zshrc").write_text(ZSH)
        child, self.shell = pty.fork()
        if child == 0:
            os.chdir(folder)
            os.environ.update(ZDOTDIR=str(folder), TERM="dumb", LC_ALL="C")
            os.execvp("zsh", ["zsh", "-i"])
        read_until(self.shell, "ready> ", 30)

    def offers(self, line):
        """What zsh offers after the line."""
        offered = self.folder / "offered.txt"
        offered.unlink(missing_ok=True)
        os.write(self.shell, line.encode() + b"\x14")
        limit = time.monotonic() + 10
        while time.monotonic() < limit:
            if offered.exists() and END in offered.read_text():
                break
            time.sleep(0.02)
        told = offered.read_text() if offered.exists() else ""
        os.write(self.shell, b"\x15\r")
        read_until(self.shell, "ready> ", 5)
        return [word for word in told.split("\n") if word and word != END]


def without_slash(words):
    return sorted({re.sub(r"/$", "", word.replace("\\ ", " ")) for word in words})


def main():
    missing = [shell for shell in ("bash", "zsh") if shutil.which(shell) is None]
    if missing:
        sys.exit(f"test.py: there is no {missing[0]}")
    failed = 0
    with tempfile.TemporaryDirectory() as name:
        folder = pathlib.Path(name)
        for file in FILES:
            (folder / file).parent.mkdir(exist_ok=True)
            (folder / file).write_text("ranks 1\n")
        os.chdir(folder)
        zsh = Zsh(folder)
        for line, wanted in ROWS:
            in_bash, errors = of_bash(line)
            for shell, found in [("bash", in_bash), ("zsh", zsh.offers(line))]:
                hidden = {"offered.txt", ".zshrc"}
                found = [word for word in without_slash(found) if word not in hidden]
                if found != sorted(wanted) or (shell == "bash" and errors):
                    failed += 1
                    print(f"{shell}: `{line}` offers {found}, and not {sorted(wanted)}; {errors}")
    print(f"{2 * len(ROWS) - failed} of {2 * len(ROWS)} as wanted")
    sys.exit(failed > 0)


main()

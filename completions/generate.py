#!/usr/bin/env python3
"""generate.py [--check]: writes the manual page `docs/colljob.1` and the completions `completions/colljob.bash` and
`completions/_colljob` from what the program prints of its own words, which is stored in `crates/colljob_examples/data/words/` and which
the tests compare with the program. With --check nothing is written, and the status is 1 where a file isn't what would be written."""
import pathlib
import re
import sys

TOP = pathlib.Path(__file__).resolve().parent.parent
WORDS = TOP / "crates/colljob_examples/data/words"
VALUES = re.compile(r" \[possible values: ([^\]]*)\]")
RANGE = re.compile(r"(\d+) to (\d+)")
# The words of the script `colljob` that the program doesn't know.
OF_SCRIPT = [["prove", "Proves and builds the program, which then answers at once"]]


class Option:
    """An option: its names, the name of its value if it takes one, what it does, and the values that it may have."""

    def __init__(self, head, told):
        self.names = re.findall(r"--?[\w-]+", head.split("<")[0])
        value = re.search(r"<(\w+)>", head)
        self.value = value and value.group(1)
        found = VALUES.search(told)
        self.values = found.group(1).split(", ") if found else []
        numbers = RANGE.search(told)
        if self.value and not found and numbers:
            self.values = [str(number) for number in range(int(numbers[1]), int(numbers[2]) + 1)]
        self.told = told


class Page:
    """What `--help` prints, taken apart. `inner` has the pages of its own commands."""

    def __init__(self, name, text):
        self.name = name
        about, _, rest = text.partition("\n\nUsage: ")
        self.about = about
        self.usage, _, rest = rest.partition("\n\n")
        parts = {"Commands": [], "Arguments": [], "Options": []}
        behind = []
        for block in rest.rstrip("\n").split("\n\n"):
            head, _, lines = block.partition(":\n")
            if head in parts and not behind:
                parts[head] = [re.split(r"  +", line.strip(), maxsplit=1) for line in lines.split("\n")]
            else:
                behind.append(block)
        self.commands = parts["Commands"]
        self.arguments = parts["Arguments"]
        self.options = [Option(head, told) for head, told in parts["Options"]]
        self.behind = behind
        self.inner = []


def page_of(name):
    """The page of a command, with those of its own commands."""
    page = Page(name, (WORDS / f"help_{name.replace(' ', '_')}").read_text())
    page.inner = [page_of(f"{name} {word}") for word, _ in page.commands if word != "help"]
    return page


def pages():
    whole = Page("colljob", (WORDS / "help").read_text())
    return whole, [page_of(name) for name, _ in whole.commands if name != "help"]


def flat(commands):
    """The pages, each with those of its own commands after it."""
    return [each for page in commands for each in [page, *page.inner]]


# ---- the manual page


def roff(text):
    return re.sub(r"(?m)^([.'])", r"\\&\1", text.replace("\\", "\\e").replace("-", "\\-"))


def item(head, told):
    return f".TP\n{head}\n{roff(told)}\n"


def option_item(option):
    names = ", ".join(f"\\fB{roff(name)}\\fR" for name in option.names)
    return item(names + (f" \\fI{option.value}\\fR" if option.value else ""), option.told)


def blocks(texts):
    out = ""
    for text in texts:
        lines = text.split("\n")
        is_example = any(line.startswith("  ") for line in lines)
        out += ".PP\n" + (".nf\n" if is_example else "") + roff(text) + "\n" + (".fi\n" if is_example else "")
    return out


def manual(whole, commands, version):
    out = f'.TH COLLJOB 1 "" "{version}" "User Commands"\n.SH NAME\ncolljob \\- {roff(whole.about)}\n.SH SYNOPSIS\n'
    usages = [line.strip() for page in [whole, *flat(commands)] for line in page.usage.split("\n")]
    out += "".join(f".PP\n.B {roff(usage)}\n" for usage in usages)
    out += ".SH OPTIONS\n" + "".join(map(option_item, whole.options))
    out += ".SH COMMANDS\n"
    for page in flat(commands):
        out += f".SS {roff(page.name)}\n{roff(page.about)}.\n"
        out += "".join(item(f"\\fI{head}\\fR", told) for head, told in page.arguments)
        out += "".join(map(option_item, page.options)) + blocks(page.behind)
    return out + ".SH DESCRIPTION\n" + blocks(whole.behind)


# ---- completions


def names_file(head):
    return head.strip("[]<>.") == "FILE"


def bash_value(option):
    names = "|".join(option.names)
    if option.values:
        return f"                {names}) _colljob_words '{' '.join(option.values)}'; return ;;\n"
    return f"                {names}) _colljob_files; return ;;\n"


def bash_case(page):
    values = "".join(bash_value(option) for option in page.options if option.value)
    own = " ".join(each.name.split()[-1] for each in page.inner)
    case = f"        '{page.name}')\n"
    case += f'            case "$before" in\n{values}            esac\n' if values else ""
    case += f"            own='{own}'\n" if own else ""
    case += "            takes_job=1\n" if any(names_file(head) for head, _ in page.arguments) else ""
    names = " ".join(name for option in page.options for name in option.names)
    return case + f"            options='{names}'\n            ;;\n"


def bash(whole, commands):
    names = " ".join(name for name, _ in whole.commands)
    first = " ".join([names] + [name for name, _ in OF_SCRIPT])
    options = " ".join(name for option in whole.options for name in option.names)
    cases = "".join(map(bash_case, flat(commands)))
    cases += f"        help)\n            _colljob_words '{names}'\n            return\n            ;;\n"
    inner = " | ".join(f"'{each.name}'" for page in commands for each in page.inner)
    return f"""# Completions of colljob for bash; completions/generate.py writes this file.

# Adds those of the words that go on as the word does.
_colljob_words() {{
    local found
    mapfile -t found < <(compgen -W "$1" -- "$word")
    COMPREPLY+=("${{found[@]}}")
}}

# Adds the files that go on so.
_colljob_files() {{
    local found
    mapfile -t found < <(compgen -f -- "$word")
    COMPREPLY+=("${{found[@]}}")
}}

# Adds the job texts that go on so, and the folders that may have some.
_colljob_jobs() {{
    local found
    mapfile -t found < <(compgen -d -- "$word"; compgen -f -X '!*.job' -- "$word")
    COMPREPLY+=("${{found[@]}}")
}}

_colljob() {{
    local word=${{COMP_WORDS[COMP_CWORD]}} before=${{COMP_WORDS[COMP_CWORD - 1]}} command=${{COMP_WORDS[1]}} own options takes_job
    COMPREPLY=()
    if [ "$COMP_CWORD" -eq 1 ]; then
        if [[ $word == -* ]]; then
            _colljob_words '{options}'
        else
            _colljob_words '{first}'
        fi
        return
    fi
    if [ "$COMP_CWORD" -gt 2 ]; then
        case "$command ${{COMP_WORDS[2]}}" in
            {inner}) command+=" ${{COMP_WORDS[2]}}" ;;
        esac
    fi
    case "$command" in
{cases}        *) return ;;
    esac
    if [[ $word == -* ]]; then
        _colljob_words "$options"
        return
    fi
    [ "$COMP_CWORD" -eq 2 ] && _colljob_words "$own"
    [ -z "$takes_job" ] || _colljob_jobs
}}
complete -o filenames -F _colljob colljob
"""


def quoted(text):
    return text.replace("'", "'\\''").replace("[", "\\[").replace("]", "\\]").replace(":", "\\:")


def zsh_option(option):
    told = quoted(VALUES.sub("", option.told))
    value = ""
    if option.value:
        value = f":{option.value}:" + (f"({' '.join(option.values)})" if option.values else "_files")
    if len(option.names) == 1:
        return f"'{option.names[0]}[{told}]{value}'"
    both = " ".join(option.names)
    return f"'({both})'{{{','.join(option.names)}}}'[{told}]{value}'"


def zsh_argument(page, head):
    name = head.strip("[]<>.")
    own = " ".join(each.name.split()[-1] for each in page.inner)
    if own:
        return f"'*:{name}:({own})'"
    return f"'::{name}:_files -g \"*.job(-.)\"'"


def zsh(whole, commands):
    listed = "".join(f"                '{name}:{quoted(told)}'\n" for name, told in whole.commands + OF_SCRIPT)
    cases = ""
    for page in flat(commands):
        lines = [zsh_option(option) for option in page.options]
        lines += [zsh_argument(page, head) for head, _ in page.arguments]
        cases += f"                '{page.name}')\n                    _arguments " + " \\\n                        ".join(lines) + "\n                    ;;\n"
    cases += f"                'help')\n                    _arguments '1:COMMAND:({' '.join(name for name, _ in whole.commands)})'\n                    ;;\n"
    own = " \\\n        ".join(zsh_option(option) for option in whole.options)
    inner = " | ".join(f"'{each.name}'" for page in commands for each in page.inner)
    return f"""#compdef colljob
# Completions of colljob for zsh; completions/generate.py writes this file.
_colljob() {{
    local state line command
    local -a commands
    _arguments -C \\
        {own} \\
        '1: :->command' \\
        '*:: :->words'
    case $state in
        command)
            commands=(
{listed}            )
            _describe command commands
            ;;
        words)
            command=$line[1]
            if (( CURRENT > 2 )); then
                case "$command $words[2]" in
                    {inner})
                        command+=" $words[2]"
                        shift words
                        (( CURRENT -= 1 ))
                        ;;
                esac
            fi
            case $command in
{cases}            esac
            ;;
    esac
}}
_colljob "$@"
"""


def main():
    whole, commands = pages()
    version = (WORDS / "version").read_text().strip()
    files = {
        TOP / "docs/colljob.1": manual(whole, commands, version),
        TOP / "completions/colljob.bash": bash(whole, commands),
        TOP / "completions/_colljob": zsh(whole, commands),
    }
    stale = [path for path, text in files.items() if not path.exists() or path.read_text() != text]
    if sys.argv[1:] == ["--check"]:
        for path in stale:
            print(f"{path.relative_to(TOP)} isn't what completions/generate.py writes", file=sys.stderr)
        sys.exit(bool(stale))
    for path in stale:
        path.write_text(files[path])


main()

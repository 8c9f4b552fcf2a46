"""What the words of a command line ask `colljob` for, or what the program says of them, before there is a program.

The subcommands, their options and the values of these are read from the stored help texts, which are the program's own. Where these don't
tell what the program would say, nothing is said here either, and the program is asked.
"""

import os
import re

# The status of wrong words.
BAD_WORDS = 2

# Two words are similar from here on.
SIMILAR = 0.7

OPTION = re.compile(r" +(?:-(?P<short>\w), )?(?:    )?--(?P<long>[\w-]+)(?: <(?P<value>[^>]+)>)?  +(?P<help>.*)")
POSITIONAL = re.compile(r"  (?P<shown>[\[<][A-Z]+[\]>](?:\.\.\.)?)  +")
REQUIRED = re.compile(r"(?<!\[)--([\w-]+)(?= <)")
SUBCOMMAND = re.compile(r"  (?P<name>[a-z]+)  +")
VALUES = re.compile(r"\[possible values: ([^\]]*)\]")
BOUNDS = re.compile(r"\b(\d+) to (\d+)\b")

TRY_HELP = "\n\nFor more information, try '--help'.\n"


# What no option has for a value.
NONE = object()


class Told(Exception):
    """What the program says of the words: a text for standard output with status 0, or one for standard error."""

    def __init__(self, text, status=BAD_WORDS):
        super().__init__(text)
        self.text, self.status = text, status


class Unsure(Exception):
    """Only the program knows."""


class Option:
    """An option of a command."""

    def __init__(self, found):
        self.long, self.short, self.value = found["long"], found["short"], found["value"]
        values, bounds = VALUES.search(found["help"]), BOUNDS.search(found["help"])
        self.values = values[1].split(", ") if values else None
        self.bounds = (int(bounds[1]), int(bounds[2])) if bounds and self.value and not values else None

    def __str__(self):
        return f"--{self.long} <{self.value}>" if self.value else f"--{self.long}"

    def check(self, value):
        """Refuses a value that the option doesn't take."""
        if self.values is not None and value not in self.values:
            raise Told(self.not_among(value))
        if self.bounds is not None:
            fault = self.number_fault(value)
            if fault:
                raise Told(f"error: invalid value '{value}' for '{self}': {fault}" + TRY_HELP)

    def not_among(self, value):
        said = f"error: invalid value '{value}' for '{self}'" if value else f"error: a value is required for '{self}' but none was supplied"
        if self.values:
            said += f"\n  [possible values: {', '.join(self.values)}]"
            similar = most_similar(value, self.values)
            said += f"\n\n  tip: a similar value exists: '{similar}'" if similar else ""
        return said + TRY_HELP

    def number_fault(self, value):
        """Why a value is no number within the bounds."""
        least, most = self.bounds
        if not value:
            return "cannot parse integer from empty string"
        if not re.fullmatch(r"\+?[0-9]+", value):
            return "invalid digit found in string"
        if int(value) >= 1 << 64:
            return "number too large to fit in target type"
        return None if least <= int(value) <= most else f"{int(value)} is not in {least}..={most}"


class Command:
    """A command, as its stored help tells of it."""

    def __init__(self, help_text):
        self.help_text, self.options, self.positionals, self.subcommands = help_text, [], [], []
        section = None
        for line in help_text.splitlines():
            if line in ("Commands:", "Arguments:", "Options:"):
                section = line
            elif not line:
                section = None
            elif section == "Commands:" and SUBCOMMAND.match(line):
                self.subcommands.append(SUBCOMMAND.match(line)["name"])
            elif section == "Arguments:" and POSITIONAL.match(line):
                self.positionals.append(POSITIONAL.match(line)["shown"])
            elif section == "Options:" and OPTION.fullmatch(line):
                self.options.append(Option(OPTION.fullmatch(line)))
        self.usage = re.search(r"^Usage: (.*(?:\n  .*)*)", help_text, re.MULTILINE)[1]
        self.required = [self.by_long(name) for name in REQUIRED.findall(self.usage.splitlines()[0])]

    def by_long(self, name):
        return next((it for it in self.options if it.long == name), None)

    def by_short(self, sign):
        return next((it for it in self.options if it.short == sign), None)

    def similar_option(self, word):
        return most_similar(word, [it.long for it in self.options])

    def fault(self, said, usage=None):
        """What is told of wrong words: with the usage, of the whole command where no other one is given."""
        return Told(f"error: {said}\n\nUsage: {usage or self.usage}" + TRY_HELP)


class Task:
    """What is asked for: the subcommand, its options with their values, and the file, where it takes one."""

    def __init__(self, way):
        self.way, self.options, self.file = way, {}, None


class Walk:
    """The walk over the words behind a subcommand that has options and takes a file, or other words that it needs."""

    def __init__(self, command, path):
        self.command, self.name, self.task = command, " ".join(path), Task(tuple(path))
        # Whether the word that is no option names a file, and that word where it has come.
        self.takes_file, self.word = command.positionals == ["[FILE]"], None
        # The option whose value comes next, and that value where it has come.
        self.waiting, self.value = None, None

    def over(self, words):
        for at, word in enumerate(words):
            if word == "--":
                self.take_rest(words[at + 1:])
                break
            if word.startswith("--"):
                self.take_long(word)
            elif word.startswith("-") and len(word) > 1:
                self.take_short(word)
            elif self.waiting is not None and self.value is None:
                self.value = word
            else:
                self.take_file(word)
        self.settle()
        self.check_needs()
        return self.task

    def check_needs(self):
        """Refuses words that lack others which they need."""
        missing = [str(it) for it in self.command.required if it.long not in self.task.options]
        if not self.takes_file and self.word is None:
            missing.append(self.command.positionals[0])
        if missing:
            if any(self.command.by_long(name) not in self.command.required for name in self.task.options):
                raise Unsure
            raise self.lacks(missing, self.command.usage.splitlines()[0].replace("[OPTIONS] ", ""))
        if self.name == "run" and "format" in self.task.options and "out" not in self.task.options:
            if len(self.task.options) > 1:
                raise Unsure
            raise self.lacks(["--out <OUT>"], f"colljob run --out <OUT> --format <FORMAT> {self.shown_file()}")

    def lacks(self, missing, usage):
        return self.command.fault("the following required arguments were not provided:" + "".join(f"\n  {it}" for it in missing), usage)

    def shown_file(self):
        """How the file stands in a usage line: as one that may be there, or one that is."""
        file = self.command.positionals[0]
        return file if self.word is None else f"<{file.strip('[]')}>"

    def usage_with(self, options):
        """The usage with the options that were used, and further ones."""
        used = [str(self.command.by_long(it)) for it in dict.fromkeys([*self.task.options, *options])]
        return " ".join([f"colljob {self.name}", *used, self.shown_file()]) if used or self.word is not None else None

    def take_rest(self, words):
        """The words behind `--` are no options."""
        if not self.takes_file:
            raise Unsure
        for word in words:
            self.take_file(word)

    def take_long(self, word):
        name, equals, value = word[2:].partition("=")
        option = self.command.by_long(name)
        if option is None:
            raise self.unknown_long(name)
        if option.value is None:
            if equals:
                if not self.takes_file:
                    raise Unsure
                usage = self.usage_with([name])
                raise self.command.fault(f"unexpected value '{value}' for '{option}' found; no more were expected", usage)
            self.settle()
            self.use(option, None)
        elif equals:
            self.settle()
            self.use(option, value)
        else:
            self.settle()
            self.waiting = option

    def take_short(self, word):
        for sign in word[1:]:
            option = self.command.by_short(sign)
            if option is None:
                self.settle_quietly()
                raise self.command.fault(f"unexpected argument '-{sign}' found\n\n  tip: to pass '-{sign}' as a value, use '-- -{sign}'")
            if option.value is not None:
                raise Unsure
            self.settle()
            self.use(option, None)

    def take_file(self, word):
        if self.word is not None:
            if not self.takes_file:
                raise Unsure
            self.settle_quietly()
            raise self.command.fault(f"unexpected argument '{word}' found")
        self.settle()
        self.word = word
        if self.takes_file:
            self.task.file = word

    def settle(self):
        """The option that waits takes its value."""
        option, value = self.waiting, self.value
        self.waiting = self.value = None
        if option is not None:
            if value is None:
                raise Told(option.not_among(""))
            self.use(option, value)

    def settle_quietly(self):
        """The same where another fault is told. An option with a value that it doesn't take counts as used, one that is used again doesn't."""
        option, value = self.waiting, self.value
        try:
            self.settle()
        except Told:
            if value is not None and self.task.options.pop(option.long, NONE) is NONE:
                self.task.options[option.long] = value

    def use(self, option, value):
        if option.long == "help":
            raise Told(self.command.help_text, 0)
        if option.long in self.task.options:
            raise self.command.fault(f"the argument '{option}' cannot be used multiple times")
        if value is not None:
            option.check(value)
        self.task.options[option.long] = value

    def unknown_long(self, name):
        """What is told of a long option that isn't there: with a similar one, or how a word like it is passed."""
        if not self.takes_file:
            raise Unsure
        self.settle_quietly()
        similar = self.command.similar_option(name)
        said = f"unexpected argument '--{name}' found\n\n  tip: "
        said += f"a similar argument exists: '--{similar}'" if similar else f"to pass '--{name}' as a value, use '-- --{name}'"
        return self.command.fault(said, self.usage_with([similar] if similar else []))


class Words:
    """The commands of the program, by the folder of its stored texts."""

    def __init__(self, folder):
        self.folder = folder

    def read(self, name):
        try:
            with open(os.path.join(self.folder, name), encoding="utf-8") as file:
                return file.read()
        except OSError:
            raise Unsure from None

    def command(self, *path):
        return Command(self.read("_".join(["help", *path])))

    def task_of(self, words):
        """The task that words ask for. Raises what the program says of them, or that only it knows."""
        if not words:
            raise Told(self.read("no_words"))
        if any(is_no_text(word) for word in words):
            raise Told("error: a word isn't UTF-8\n")
        root, first, rest = self.command(), words[0], words[1:]
        if first in ("-h", "--help"):
            raise Told(root.help_text, 0)
        if first in ("-V", "--version"):
            raise Told(self.read("version"), 0)
        if first == "help":
            raise self.help_of(root, rest, [])
        if first in root.subcommands:
            return self.task_below([first], rest)
        raise self.wrong_first(root, first, rest)

    def task_below(self, path, words):
        command = self.command(*path)
        if words and command.subcommands:
            if words[0] == "help":
                raise self.help_of(command, words[1:], path)
            if words[0] in command.subcommands:
                return self.task_below([*path, words[0]], words[1:])
        if len(command.positionals) != 1:
            raise Unsure
        return Walk(command, path).over(words)

    def help_of(self, command, words, path):
        """The help that `help` and further words ask for."""
        if not words:
            return Told(command.help_text, 0)
        if words[0] == "help":
            return Unsure()
        if words[0] not in command.subcommands:
            return command.fault(f"unrecognized subcommand '{words[0]}'")
        return self.help_of(self.command(*path, words[0]), words[1:], [*path, words[0]])

    def wrong_first(self, root, word, rest):
        """What is told of a first word that is no subcommand."""
        if word.startswith("--") and len(word) > 2:
            return self.wrong_first_long(root, word[2:].partition("=")[0], rest)
        if word.startswith("-") and len(word) > 1:
            if word == "--" or root.by_short(word[1]):
                return Unsure()
            return root.fault(f"unexpected argument '-{word[1]}' found")
        similar = similar_ones(word, root.subcommands)
        if not similar:
            return root.fault(f"unrecognized subcommand '{word}'")
        tip = "a similar subcommand exists" if len(similar) == 1 else "some similar subcommands exist"
        return root.fault(f"unrecognized subcommand '{word}'\n\n  tip: {tip}: " + ", ".join(f"'{it}'" for it in similar))

    def wrong_first_long(self, root, name, rest):
        """A long option before the subcommand may be one of a subcommand that follows."""
        if root.by_long(name):
            return Unsure()
        said = f"unexpected argument '--{name}' found"
        similar = root.similar_option(name)
        if similar:
            return root.fault(f"{said}\n\n  tip: a similar argument exists: '--{similar}'", f"colljob --{similar} <COMMAND>")
        for word in rest:
            if word in root.subcommands and word != "help":
                similar = self.command(word).similar_option(name)
                if similar:
                    return root.fault(f"{said}\n\n  tip: '{word} --{similar}' exists")
        return root.fault(said)


def is_no_text(word):
    """Whether a word isn't UTF-8."""
    return any("\ud800" <= sign <= "\udfff" for sign in word)


def similar_ones(word, names):
    """The names that are similar to a word, the most similar last."""
    found = []
    for name in names:
        likeness = jaro(word, name)
        if likeness > SIMILAR:
            found.insert(sum(other <= likeness for other, _ in found), (likeness, name))
    return [name for _, name in found]


def most_similar(word, names):
    found = similar_ones(word, names)
    return found[-1] if found else None


def jaro(one, other):
    """Jaro's similarity of two words, from 0 to 1."""
    if one == other:
        return 1.0
    if not one or not other:
        return 0.0
    reach = max(max(len(one), len(other)) // 2 - 1, 0)
    taken, matched = [False] * len(other), []
    for at, sign in enumerate(one):
        for there in range(max(at - reach, 0), min(at + reach + 1, len(other))):
            if not taken[there] and other[there] == sign:
                taken[there] = True
                matched.append(sign)
                break
    if not matched:
        return 0.0
    against = [sign for sign, is_taken in zip(other, taken) if is_taken]
    swapped = sum(sign != there for sign, there in zip(matched, against)) // 2
    count = len(matched)
    return (count / len(one) + count / len(other) + (count - swapped) / count) / 3

"""The text of an LLVM module: without the checks of the front end, and cut into parts that are compiled side by side.

A function of few lines is copied into each part that calls it, so that it is inlined there; any other one stands in one part, and the others
declare it.
"""

import re

# A function of at most that many lines is copied. Three of four functions of the program have fewer; more copies make compiling longer.
FEW_LINES = 25

# A call of the front end's own checks. Where code isn't to be reached it also stops the program, which stays.
CHECK = re.compile(r' *call void @"rattle-llvm-checks::\w+"\(i8 [^)]*\)\n')
NAME = re.compile(r'@("[^"]*"|[\w.$-]+)')
DEFINITION = re.compile(r'define (internal |hidden |dso_local )?.*?@("[^"]*"|[\w.$-]+)\(')


class Function:
    """A function of a module: its first line, the lines up to its end, and the names that they have."""

    def __init__(self, head, body):
        found = DEFINITION.match(head)
        self.name, self.is_internal, self.head, self.body = found[2], found[1] == "internal ", head, body
        self.lines = body.count("\n")
        self.names = set(NAME.findall(body)) | set(NAME.findall(head[found.end():]))

    def show(self):
        """Lets others see the function."""
        self.head, self.is_internal = self.head.replace("define internal ", "define ", 1), False

    def is_small(self):
        return self.is_internal and self.lines <= FEW_LINES

    def defined(self, linkage):
        head = self.head.replace("define internal ", "define ", 1)
        return head.replace("define ", f"define {linkage} ", 1) + self.body if self.is_internal else self.head + self.body

    def declared(self):
        head = self.head.replace("define internal ", "define ", 1).rstrip()[:-1].rstrip()
        return head.replace("define ", "declare hidden " if self.is_internal else "declare ", 1) + "\n"


class Module:
    """A module's text apart: its head, its variables, its functions, and what stands after them."""

    def __init__(self, text):
        self.head, self.variables, self.functions, self.declared, self.tail = [], {}, {}, {}, []
        lines = iter(CHECK.sub("", text.replace(" sanitize_address", "")).splitlines(keepends=True))
        for line in lines:
            if line.startswith("define "):
                self.add_function(line, lines)
            elif line.startswith("@"):
                self.variables[NAME.match(line)[1]] = line
            elif line.startswith("declare "):
                self.declared[NAME.search(line)[1]] = line
            elif line.startswith(("source_filename", "target ")):
                self.head.append(line)
            elif line.startswith(("attributes ", "!", "%")):
                self.tail.append(line)

    def add_function(self, head, lines):
        body = []
        for line in lines:
            body.append(line)
            if line.startswith("}"):
                break
        function = Function(head, "".join(body))
        self.functions[function.name] = function

    def export(self, names):
        """Shows some functions to others, and leaves out what nothing reaches from them."""
        reached, left = set(), list(names)
        while left:
            name = left.pop()
            if name not in reached:
                reached.add(name)
                function = self.functions.get(name)
                left += function.names if function else NAME.findall(self.variables.get(name, ""))[1:]
        self.functions = {name: function for name, function in self.functions.items() if name in reached}
        self.variables = {name: line for name, line in self.variables.items() if name in reached}
        for name in names:
            self.functions[name].show()

    def parts(self, count):
        """The texts of that many modules that are this one when they are linked."""
        large = [it for it in self.functions.values() if not it.is_small()]
        share = sum(it.lines for it in large) / count
        groups, filled = [[] for _ in range(count)], 0
        for function in large:
            groups[min(int(filled / share), count - 1)].append(function)
            filled += function.lines
        return [self.part(group, at == 0) for at, group in enumerate(groups) if group]

    def part(self, group, is_first):
        """A module with these functions, and copies of the small ones that they reach."""
        own = {function.name for function in group}
        texts = [function.defined("hidden") for function in group]
        needed, seen = [name for function in group for name in function.names], set()
        variables, declarations = [], []
        while needed:
            name = needed.pop()
            if name in seen or name in own:
                continue
            seen.add(name)
            function = self.functions.get(name)
            if function is None:
                line = self.variables.get(name)
                if line is not None:
                    variables.append(self.variable(name, line, is_first))
                    needed += NAME.findall(line)[1:]
                elif name in self.declared:
                    declarations.append(self.declared[name])
            elif function.is_small():
                texts.append(function.defined("internal"))
                needed += function.names
            else:
                declarations.append(function.declared())
        if is_first:
            variables += [self.variable(name, line, True) for name, line in self.variables.items() if name not in seen and not is_copied(line)]
        return "".join([*self.head, *variables, *texts, *declarations, *self.tail])

    def variable(self, name, line, is_first):
        """A variable for a part: a constant without an address of its own stands in each, any other one in the first."""
        if is_copied(line):
            return line
        if is_first:
            return line.replace(" private ", " hidden ", 1).replace(" internal ", " hidden ", 1)
        kind = re.match(r'@(?:"[^"]*"|\S+) = (?:private |internal )?((?:thread_local )?(?:global|constant)) ', line)
        return f"@{name} = external hidden {kind[1]} {type_at(line[kind.end():])}\n"


def is_copied(line):
    return " unnamed_addr constant " in line


def type_at(text):
    """The type that a text begins with."""
    depth = 0
    for at, sign in enumerate(text):
        depth += (sign in "[{<(") - (sign in "]}>)")
        if not depth and sign in "]}> ":
            return text[: at + (sign != " ")]
    raise ValueError(text)

"""The sources of the minimal program for `run` and `plain`: those of `coll_job`, without what these two don't need.

Whole modules are left out, and functions of a few others; first_main.txt has what stands in their place. No line of what these two do is
written anew but there, so they say and write the same as the whole program. `make check` compares them; tools/checks/names, which takes no
time, reports a name that is gone.
"""

import os
import re

import sources

# The modules of coll_job that `run` and `plain` stand on.
KEPT = ["host", "keeping", "opening", "progress", "screen"]

# Modules that are kept without some items.
CUT = {
    "tasks": ["run", "run_on", "do_parsed", "help", "show", "BAD_WORDS"],
    "answering": ["write_answer"],
    "carrying_out": ["run_recorded", "draw_run", "draw_recorded"],
    "machine": ["main_of"],
}

# The libraries that no module needs any longer.
LEFT_OUT = ["clap"]

TEMPLATE = "first_main.txt"

# A module of the template begins with a line that names it.
PART = re.compile(r"^//@ (\w+)\n", re.MULTILINE)

ITEM = r"^(?:pub(?:\([a-z]+\))? )?(?:fn|const|struct|static) {name}\b"
USE = re.compile(r"^use ([\w:]+?)(?:::\{([^}]*)\}|::(\w+))?;\n", re.MULTILINE)


class OtherShape(Exception):
    """The sources have another shape than the one that is cut."""


def item_of(text, name):
    """Where an item of a module begins, with what stands above it, and where it ends. It is laid out as `rt fmt` does."""
    found = re.search(ITEM.format(name=name), text, re.MULTILINE)
    if not found:
        return None
    begin = text.rfind("\n\n", 0, found.start()) + 2
    line_end = text.index("\n", found.start()) + 1
    if text[found.start(): line_end].rstrip().endswith((";", "}")):
        return begin, line_end
    end = re.compile(r"^[})]+;?\n", re.MULTILINE).search(text, line_end)
    # The parameters of a function end in such a line, too, before its body.
    while end and not text[end.start():end.end()].startswith("}"):
        end = re.compile(r"^\};?\n", re.MULTILINE).search(text, end.end())
    if not end:
        raise OtherShape(f"the item {name} has no end")
    return begin, end.end()


def is_item_of(text, name):
    return re.search(ITEM.format(name=name), text, re.MULTILINE) is not None


def without(text, names):
    """A module without some of its items; one that isn't there needs no cut."""
    for name in names:
        place = item_of(text, name)
        if place:
            text = text[: place[0]] + text[place[1]:]
    return text


def with_uses(text, modules, crates, gone):
    """A module without imports of what isn't there: of modules, of crates, and of items of cut modules."""
    def kept(found):
        path, names = found[1].split("::"), [it.strip() for it in (found[2] or found[3] or "").split(",") if it.strip()]
        if path[0] == "crate":
            module = path[1] if len(path) > 1 else names[0]
            if module not in modules:
                return ""
            left = [it for it in names if it not in gone.get(module, [])]
            if len(left) < len(names):
                return f"use crate::{module}::{{{', '.join(left)}}};\n" if left else ""
            return found[0]
        return found[0] if path[0] in crates or path[0] in ("std", "core") else ""

    return USE.sub(kept, text)


def cut(scratch, tools, uses):
    """Cuts the copied sources of coll_job in a scratch folder, which become the program's. Gives what each crate stands on, for those that
    the program needs."""
    folder = os.path.join(scratch, "crates", "coll_job", "src")
    texts = {name: read(folder, f"{name}.rt") for name in [*KEPT, *CUT]}
    parts = PART.split(read(tools, TEMPLATE))
    own = dict(zip(parts[1::2], parts[2::2]))
    modules = sorted({*KEPT, *CUT, *own} - {"main"})
    crates = sources.crates_below(uses, [name for name in imported(texts[it] for it in KEPT) if name in uses])
    libraries = [name for name in imported(texts.values()) if name not in uses and name in uses["coll_job"] and name not in LEFT_OUT]
    named = [*crates, *libraries]
    gone = {name: [item for item in items if not is_item_of(own.get(name, ""), item)] for name, items in CUT.items()}
    for file in os.listdir(folder):
        os.remove(os.path.join(folder, file))
    for name in modules:
        text = without(texts[name], CUT.get(name, [])) if name in texts else ""
        write(folder, f"{name}.rt", with_uses(text, modules, named, gone) + own.get(name, ""))
    heads = "".join(f"mod {name};\n" for name in modules)
    write(folder, "main.rt", "#![tactic(auto)]\n\n" + heads + own["main"])
    return {"coll_job": named, **{name: uses[name] for name in crates}}


def imported(texts):
    """The crates and libraries that modules import."""
    return list(dict.fromkeys(path for text in texts for path in re.findall(r"^use (\w+)::", text, re.MULTILINE)))


def read(folder, name):
    try:
        with open(os.path.join(folder, name), encoding="utf-8") as file:
            return file.read()
    except OSError as error:
        raise OtherShape(f"{error.filename}: {error.strerror}") from None


def write(folder, name, text):
    with open(os.path.join(folder, name), "w", encoding="utf-8") as file:
        file.write(text)

"""The Rattle kit of this machine: its parts, its id, and what its libraries stand on."""

import os

ID = "KIT-ID"


class NoKit(Exception):
    """There is no kit on the path."""


class OtherKit(Exception):
    """The kit has another shape than the one that an unproved build knows."""


class Kit:
    """The folder of a kit. Every part is looked for when it is asked for, so that a missing one is named."""

    def __init__(self, folder):
        self.folder = folder

    def part(self, *path):
        found = os.path.join(self.folder, *path)
        if not os.path.exists(found):
            raise OtherKit(f"there is no {'/'.join(path)} in {self.folder}")
        return found

    def id(self):
        with open(self.part(ID), encoding="utf-8") as file:
            return file.read().strip()

    def short_id(self):
        """The id as a part of a file's name: `13f-dac8208d650f15bf` of `rattle-kit-13f logic dac8208d650f15bf`."""
        words = [word for word in self.id().replace("rattle-kit-", "", 1).split() if word != "logic"]
        return "".join(sign if sign.isalnum() or sign in ".-" else "_" for sign in "-".join(words))

    def uses_of(self, library):
        """The libraries of the kit that one of them stands on."""
        with open(self.part("rlibs", f"{library}.rlib", "format"), encoding="utf-8") as file:
            return [line.split()[1] for line in file if line.startswith("dep ")]

    def source_of(self, library):
        return self.part("rattle", library, "src", "lib.rt")


def find():
    """The kit that the command `rt` on the path belongs to."""
    for folder in os.environ.get("PATH", "").split(os.pathsep):
        command = os.path.join(folder or ".", "rt")
        if os.path.isfile(command) and os.access(command, os.X_OK):
            kit = os.path.dirname(os.path.dirname(os.path.realpath(command)))
            return Kit(kit if os.path.exists(os.path.join(kit, ID)) else told_folder(command))
    raise NoKit("there is no command rt on the path: it stands in the folder bin of the Rattle kit that README.md names")


def told_folder(command):
    """The folder of the kit's first page, which a command tells that lies elsewhere."""
    import subprocess

    ran = subprocess.run([command, "doc"], stdin=subprocess.DEVNULL, capture_output=True, text=True)
    return os.path.dirname(ran.stdout.strip())

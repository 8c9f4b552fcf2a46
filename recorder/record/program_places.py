"""Where calls and operations stand in the sources of a program."""

import os
import struct
import subprocess


class Places:
    """Where calls stand in the program, by addr2line."""

    def __init__(self, records):
        addresses = {address for record in records.values() for address in record.places.values()}
        self.names = {address: f"{os.path.basename(address[1])}" for address in addresses if address[0] == "python"}
        self.functions = {}
        # A program's operations are known by the distances of their functions from their modules' begins.
        begins = {address[0]: address[1] - address[2] for address in addresses if address[0] != "python"}
        operations = {it for record in records.values() for it in record.operations.values() if it.module in begins}
        addresses |= {(it.module, begins[it.module] + it.offset, it.offset) for it in operations}
        for module in begins:
            self.ask(module, sorted(address for address in addresses if address[0] == module))

    def ask(self, module, addresses):
        # A program that lies where it was linked is asked by its address, any other by the distance from its begin.
        fixed = is_fixed(module)
        asked = [hex(address[1] if fixed else address[2]) for address in addresses]
        try:
            answer = subprocess.run(["addr2line", "-f", "-C", "-e", module, *asked], capture_output=True, text=True).stdout.splitlines()
        except FileNotFoundError:
            answer = []
        if len(answer) != 2 * len(asked):
            answer = ["??", "??:0"] * len(asked)
        for address, offset, function, line in zip(addresses, asked, answer[::2], answer[1::2]):
            self.functions[address[0], address[2]] = function if function != "??" else None
            line = os.path.basename(line.split(" (")[0])
            if line.startswith("??") or line.endswith(":?"):
                line = f"{os.path.basename(module)} {offset}, in {function}" if function != "??" else f"{os.path.basename(module)} {offset}"
            self.names[address] = line

    def name(self, record, place):
        """The place of a number in a rank's record, or None."""
        return self.names.get(record.places.get(place))

    def function(self, module, offset):
        """The name of the function that begins at a distance from its module's begin, or None."""
        return self.functions.get((module, offset))


def is_fixed(module):
    try:
        with open(module, "rb") as file:
            return struct.unpack("<H", file.read(18)[16:])[0] == 2
    except (OSError, struct.error):
        return False

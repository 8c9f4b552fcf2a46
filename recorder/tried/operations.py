"""A right program: the first rank makes one operation more than the others. For ../tried.py."""
from array import array

from mpi4py import MPI


def add(given, result, kind):
    given, result = memoryview(given).cast("B").cast("i"), memoryview(result).cast("B").cast("i")
    for place, value in enumerate(given):
        result[place] += value


def greatest(given, result, kind):
    given, result = memoryview(given).cast("B").cast("i"), memoryview(result).cast("B").cast("i")
    for place, value in enumerate(given):
        result[place] = max(result[place], value)


world = MPI.COMM_WORLD
extra = MPI.Op.Create(greatest, commute=True) if world.rank == 0 else None
sums = MPI.Op.Create(add, commute=True)
got = array("i", [0, 0])
world.Allreduce([array("i", [1, 2]), MPI.INT], [got, MPI.INT], op=sums)
sums.Free()
if extra:
    extra.Free()
assert list(got) == [world.size, 2 * world.size]

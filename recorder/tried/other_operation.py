"""The last rank takes another operation. For ../tried.py."""

from mpi4py import MPI

rank, size = MPI.COMM_WORLD.Get_rank(), MPI.COMM_WORLD.Get_size()
MPI.COMM_WORLD.barrier()
total = MPI.COMM_WORLD.reduce(rank, op=MPI.SUM)
there = bytearray(8)
MPI.COMM_WORLD.Allreduce([bytearray(8), MPI.INT], [there, MPI.INT], op=MPI.MAX if rank == size - 1 else MPI.SUM)  # A

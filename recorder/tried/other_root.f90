! The last rank takes itself for the root. For ../tried.py.
program other_root
    use mpi_f08
    implicit none
    integer :: rank, size, row(4)
    call MPI_Init()
    call MPI_Comm_rank(MPI_COMM_WORLD, rank)
    call MPI_Comm_size(MPI_COMM_WORLD, size)
    row = rank
    call MPI_Barrier(MPI_COMM_WORLD)
    call MPI_Bcast(row, 4, MPI_INTEGER, merge(rank, 0, rank == size - 1), MPI_COMM_WORLD) ! A
    call MPI_Finalize()
end program

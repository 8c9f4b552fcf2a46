! A communicator under way, and collectives of nothing, which may have one handle for all. For ../tried.py.
program requests
    use mpi_f08
    implicit none
    integer :: rank, row(4)
    type(MPI_Comm) :: later, twin, third
    type(MPI_Request) :: first, second
    call MPI_Init()
    call MPI_Comm_rank(MPI_COMM_WORLD, rank)
    row = rank
    call MPI_Comm_idup(MPI_COMM_WORLD, later, first)
    call MPI_Wait(first, MPI_STATUS_IGNORE)
    call MPI_Bcast(row, 4, MPI_INTEGER, 0, later)
    call MPI_Comm_dup(MPI_COMM_WORLD, twin)
    call MPI_Comm_dup(MPI_COMM_WORLD, third)
    call MPI_Ibcast(row, 0, MPI_INTEGER, 0, MPI_COMM_WORLD, first)
    if (rank == 0) call MPI_Ibcast(row, 0, MPI_INTEGER, 0, twin, second)
    call MPI_Wait(first, MPI_STATUS_IGNORE)
    call MPI_Barrier(third)
    if (rank > 0) call MPI_Ibcast(row, 0, MPI_INTEGER, 0, twin, second)
    call MPI_Wait(second, MPI_STATUS_IGNORE)
    call MPI_Finalize()
end program

! Requests of Fortran completed with rows of statuses and indices, by `use mpi` and by `use mpi_f08`. For ../tried.py.
subroutine by_integers()
    use mpi
    implicit none
    integer :: rank, ierror, next, count, place, requests(4), indices(4), values(4), sums(2), statuses(MPI_STATUS_SIZE, 4)
    integer :: status(MPI_STATUS_SIZE)
    logical :: flag
    call MPI_Comm_rank(MPI_COMM_WORLD, rank, ierror)
    next = 1 - rank
    values = rank
    call MPI_Irecv(values(1), 1, MPI_INTEGER, next, 1, MPI_COMM_WORLD, requests(1), ierror)
    call MPI_Isend(rank, 1, MPI_INTEGER, next, 1, MPI_COMM_WORLD, requests(2), ierror)
    call MPI_Ibcast(values(2), 1, MPI_INTEGER, 0, MPI_COMM_WORLD, requests(3), ierror)
    call MPI_Iallreduce(MPI_IN_PLACE, sums, 2, MPI_INTEGER, MPI_SUM, MPI_COMM_WORLD, requests(4), ierror)
    call MPI_Waitall(4, requests, statuses, ierror)
    if (statuses(MPI_SOURCE, 1) /= next .or. statuses(MPI_TAG, 1) /= 1) call MPI_Abort(MPI_COMM_WORLD, 1, ierror)
    requests(1) = MPI_REQUEST_NULL
    call MPI_Ibarrier(MPI_COMM_WORLD, requests(2), ierror)
    call MPI_Ibcast(values(2), 1, MPI_INTEGER, 1, MPI_COMM_WORLD, requests(3), ierror)
    requests(4) = MPI_REQUEST_NULL
    place = 0
    do while (place < 2)
        call MPI_Waitsome(4, requests, count, indices, statuses, ierror)
        place = place + count
    end do
    call MPI_Ibarrier(MPI_COMM_WORLD, requests(3), ierror)
    flag = .false.
    do while (.not. flag)
        call MPI_Testany(4, requests, place, flag, status, ierror)
    end do
    if (place /= 3) call MPI_Abort(MPI_COMM_WORLD, 2, ierror)
    call MPI_Barrier(MPI_COMM_WORLD, ierror)
end subroutine

subroutine by_types()
    use mpi_f08
    implicit none
    integer :: rank, next, place, values(4), sums(2)
    type(MPI_Request) :: requests(3)
    type(MPI_Status) :: statuses(3)
    type(MPI_Comm) :: copy
    call MPI_Comm_rank(MPI_COMM_WORLD, rank)
    next = 1 - rank
    call MPI_Comm_dup(MPI_COMM_WORLD, copy)
    call MPI_Irecv(values(1), 1, MPI_INTEGER, next, 2, copy, requests(1))
    call MPI_Isend(rank, 1, MPI_INTEGER, next, 2, copy, requests(2))
    call MPI_Iallreduce(MPI_IN_PLACE, sums, 2, MPI_INTEGER, MPI_SUM, copy, requests(3))
    call MPI_Waitall(3, requests, statuses)
    if (statuses(1)%MPI_SOURCE /= next) call MPI_Abort(MPI_COMM_WORLD, 3)
    call MPI_Ibarrier(copy, requests(2))
    call MPI_Waitany(3, requests, place, MPI_STATUS_IGNORE)
    if (requests(2) /= MPI_REQUEST_NULL) call MPI_Abort(MPI_COMM_WORLD, 4)
    call MPI_Comm_free(copy)
end subroutine

program statuses
    use mpi
    implicit none
    integer :: ierror
    call MPI_Init(ierror)
    call by_integers()
    call by_types()
    call MPI_Finalize(ierror)
end program

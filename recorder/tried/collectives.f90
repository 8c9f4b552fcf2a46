! Calls of many kinds, whose results are checked. For ../tried.py.
program collectives
    use mpi
    implicit none
    integer :: rank, size, half, pair, sums, window, file, error, total, row(8), other(8), requests(2), statuses(MPI_STATUS_SIZE, 2)
    integer, allocatable :: counts(:), places(:)
    character(len=200) :: path
    integer(kind=MPI_OFFSET_KIND) :: at
    integer(kind=MPI_ADDRESS_KIND) :: bytes
    external :: add
    call MPI_Init(error)
    call MPI_Comm_rank(MPI_COMM_WORLD, rank, error)
    call MPI_Comm_size(MPI_COMM_WORLD, size, error)
    counts = [(1, total=1, size)]
    places = [(total, total=0, size - 1)]
    row = rank
    call MPI_Allreduce(MPI_IN_PLACE, row, 2, MPI_INTEGER, MPI_SUM, MPI_COMM_WORLD, error)
    call check(row(2) == size*(size - 1)/2)
    row = rank
    call MPI_Gather(row, 1, MPI_INTEGER, other, 1, MPI_INTEGER, 0, MPI_COMM_WORLD, error)
    if (rank == 0) call check(other(size) == size - 1)
    call MPI_Allgatherv(row, 1, MPI_INTEGER, other, counts, places, MPI_INTEGER, MPI_COMM_WORLD, error)
    call check(other(size) == size - 1)
    call MPI_Type_contiguous(2, MPI_INTEGER, pair, error)
    call MPI_Type_commit(pair, error)
    call MPI_Bcast(row, 1, pair, size - 1, MPI_COMM_WORLD, error)
    call MPI_Type_free(pair, error)
    call check(row(2) == size - 1)
    call MPI_Op_create(add, .true., sums, error)
    row = 1
    call MPI_Iallreduce(row, other, 2, MPI_INTEGER, sums, MPI_COMM_WORLD, requests(1), error)
    call MPI_Ibarrier(MPI_COMM_WORLD, requests(2), error)
    call MPI_Waitall(2, requests, statuses, error)
    call MPI_Op_free(sums, error)
    call check(other(2) == size)
    call MPI_Comm_split(MPI_COMM_WORLD, mod(rank, 2), rank, half, error)
    call MPI_Reduce(1, total, 1, MPI_INTEGER, MPI_SUM, 0, half, error)
    call MPI_Comm_free(half, error)
    call MPI_Send_init(row, 1, MPI_INTEGER, mod(rank + 1, size), 3, MPI_COMM_WORLD, requests(1), error)
    call MPI_Recv_init(other, 1, MPI_INTEGER, mod(rank + size - 1, size), 3, MPI_COMM_WORLD, requests(2), error)
    call MPI_Startall(2, requests, error)
    call MPI_Waitall(2, requests, MPI_STATUSES_IGNORE, error)
    call MPI_Request_free(requests(1), error)
    call MPI_Request_free(requests(2), error)
    bytes = 32
    call MPI_Win_create(row, bytes, 4, MPI_INFO_NULL, MPI_COMM_WORLD, window, error)
    call MPI_Win_fence(0, window, error)
    call MPI_Win_free(window, error)
    call get_environment_variable("TRIED_FILE", path)
    call MPI_File_open(MPI_COMM_WORLD, path, MPI_MODE_CREATE + MPI_MODE_RDWR + MPI_MODE_DELETE_ON_CLOSE, MPI_INFO_NULL, file, error)
    at = 4*rank
    call MPI_File_write_at_all(file, at, row, 1, MPI_INTEGER, MPI_STATUS_IGNORE, error)
    call MPI_File_close(file, error)
    call MPI_Finalize(error)
contains
    subroutine check(is_right)
        logical, intent(in) :: is_right
        if (.not. is_right) call MPI_Abort(MPI_COMM_WORLD, 2, error)
    end subroutine
end program

subroutine add(given, result, count, type)
    implicit none
    integer :: count, type, given(count), result(count)
    result = result + given
end subroutine

! Programs in Fortran with one planted mistake each: wrong NAME runs one of them. tests/fortran/wrong.want has what wzrun says of each.
program wrong
  use mpi
  implicit none
  integer :: ierr, rank, size, request, win, copy
  integer :: status(MPI_STATUS_SIZE), numbers(8) = 0, others(8) = 0
  character(len=20) :: name
  call MPI_Init(ierr)
  call MPI_Comm_rank(MPI_COMM_WORLD, rank, ierr)
  call MPI_Comm_size(MPI_COMM_WORLD, size, ierr)
  call get_command_argument(1, name)
  select case (name)
  case ('root')
    call MPI_Bcast(numbers, 4, MPI_INTEGER, merge(1, 0, rank == 1), MPI_COMM_WORLD, ierr)
  case ('kind')
    if (rank == 0) then
      call MPI_Reduce(numbers, others, 1, MPI_INTEGER, MPI_SUM, 0, MPI_COMM_WORLD, ierr)
    else
      call MPI_Allreduce(numbers, others, 1, MPI_INTEGER, MPI_SUM, MPI_COMM_WORLD, ierr)
    end if
  case ('count')
    call MPI_Allreduce(numbers, others, merge(3, 4, rank == 2), MPI_REAL, MPI_MAX, MPI_COMM_WORLD, ierr)
  case ('type')
    if (rank == 0) call MPI_Send(numbers, 1, MPI_DOUBLE_PRECISION, 1, 5, MPI_COMM_WORLD, ierr)
    if (rank == 1) call MPI_Recv(others, 2, MPI_INTEGER, 0, 5, MPI_COMM_WORLD, status, ierr)
  case ('truncated')
    if (rank == 0) call MPI_Send(numbers, 4, MPI_INTEGER, 1, 5, MPI_COMM_WORLD, ierr)
    if (rank == 1) call MPI_Recv(others, 3, MPI_INTEGER, 0, 5, MPI_COMM_WORLD, MPI_STATUS_IGNORE, ierr)
  case ('tag')
    if (rank == 0) call MPI_Send(numbers, 1, MPI_INTEGER, 1, 5, MPI_COMM_WORLD, ierr)
    if (rank == 1) call MPI_Recv(others, 1, MPI_INTEGER, 0, 6, MPI_COMM_WORLD, status, ierr)
  case ('crossed')
    if (rank < 2) call MPI_Recv(others, 1, MPI_INTEGER, 1 - rank, 0, MPI_COMM_WORLD, status, ierr)
    if (rank < 2) call MPI_Send(numbers, 1, MPI_INTEGER, 1 - rank, 0, MPI_COMM_WORLD, ierr)
  case ('lacking')
    if (rank /= 1) call MPI_Barrier(MPI_COMM_WORLD, ierr)
  case ('rank')
    if (rank == 0) call MPI_Send(numbers, 1, MPI_INTEGER, size, 0, MPI_COMM_WORLD, ierr)
  case ('freed')
    call MPI_Comm_dup(MPI_COMM_WORLD, copy, ierr)
    request = copy
    call MPI_Comm_free(copy, ierr)
    if (rank == 0) call MPI_Barrier(request, ierr)
  case ('stale')
    if (rank == 0) then
      call MPI_Irecv(others, 1, MPI_INTEGER, MPI_PROC_NULL, 0, MPI_COMM_WORLD, request, ierr)
      copy = request
      call MPI_Wait(request, status, ierr)
      call MPI_Wait(copy, status, ierr)
    end if
  case ('not_for_type')
    if (rank == 0) call MPI_Allreduce(numbers, others, 1, MPI_REAL, MPI_BAND, MPI_COMM_SELF, ierr)
  case ('same_buffer')
    if (rank == 0) call MPI_Allreduce(numbers, numbers, 1, MPI_INTEGER, MPI_SUM, MPI_COMM_SELF, ierr)
  case ('changed')
    if (rank == 0) then
      call MPI_Isend(numbers, 1, MPI_INTEGER, 1, 0, MPI_COMM_WORLD, request, ierr)
      numbers(1) = 5
      call MPI_Wait(request, status, ierr)
    else if (rank == 1) then
      call MPI_Recv(others, 1, MPI_INTEGER, 0, 0, MPI_COMM_WORLD, status, ierr)
    end if
  case ('put_put')
    call MPI_Win_create(numbers, 32_MPI_ADDRESS_KIND, 4, MPI_INFO_NULL, MPI_COMM_WORLD, win, ierr)
    call MPI_Win_fence(0, win, ierr)
    if (rank == 1) call MPI_Put(others, 2, MPI_INTEGER, 0, 0_MPI_ADDRESS_KIND, 2, MPI_INTEGER, win, ierr)
    call MPI_Barrier(MPI_COMM_WORLD, ierr)
    if (rank == 2) call MPI_Put(others, 1, MPI_INTEGER, 0, 1_MPI_ADDRESS_KIND, 1, MPI_INTEGER, win, ierr)
  case ('aborts')
    if (rank == 1) call MPI_Abort(MPI_COMM_WORLD, 7, ierr)
    call MPI_Barrier(MPI_COMM_WORLD, ierr)
  case ('stops')
    if (rank == 1) stop 3
  case ('never_completed')
    if (rank == 0) call MPI_Irecv(others, 1, MPI_INTEGER, 1, 0, MPI_COMM_WORLD, request, ierr)
  end select
  call MPI_Finalize(ierr)
end program

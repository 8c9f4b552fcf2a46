! Programs with the module mpi and without a mistake: modern NAME runs one of them, which says nothing and ends with 0.
module mine
  implicit none
  integer :: kept = 0
end module mine

program modern
  use mpi
  use mine
  implicit none
  integer :: ierr, rank, size
  character(len=20) :: name
  call MPI_Init(ierr)
  call MPI_Comm_rank(MPI_COMM_WORLD, rank, ierr)
  call MPI_Comm_size(MPI_COMM_WORLD, size, ierr)
  call get_command_argument(1, name)
  select case (name)
  case ('variables'); call variables
  case ('windows'); call windows
  case ('files'); call files
  case ('attributes'); call attributes
  case ('requests'); call requests
  case ('strings'); call strings
  end select
  call MPI_Finalize(ierr)
contains

  subroutine holds(what, where)
    logical, intent(in) :: what
    integer, intent(in) :: where
    if (what) return
    print *, 'modern.f90: not so: check ', where
    stop 1
  end subroutine

  ! Module variables, saved ones and random numbers are each rank's own.
  subroutine variables
    integer, save :: times = 0
    real :: one, two
    integer, allocatable :: seed(:)
    integer :: many
    kept = rank
    times = times + 1
    call random_seed(size=many)
    allocate(seed(many), source=5)
    call random_seed(put=seed)
    call random_number(one)
    call MPI_Bcast(one, 1, MPI_REAL, 0, MPI_COMM_WORLD, ierr)
    call random_seed(put=seed)
    call random_number(two)
    call MPI_Barrier(MPI_COMM_WORLD, ierr)
    call holds(kept == rank .and. times == 1, 1)
    call holds(one == two, 2)
  end subroutine

  subroutine windows
    use, intrinsic :: iso_c_binding
    integer :: win, unit, got
    integer(kind=MPI_ADDRESS_KIND) :: bytes, value
    type(c_ptr) :: base
    integer, pointer :: memory(:)
    logical :: flag
    bytes = 8
    call MPI_Win_allocate(bytes, 4, MPI_INFO_NULL, MPI_COMM_WORLD, base, win, ierr)
    call c_f_pointer(base, memory, [2])
    call MPI_Win_get_attr(win, MPI_WIN_SIZE, value, flag, ierr)
    call holds(flag .and. value == 8, 10)
    call MPI_Win_get_attr(win, MPI_WIN_DISP_UNIT, value, flag, ierr)
    call holds(flag .and. value == 4, 11)
    call MPI_Win_fence(0, win, ierr)
    call MPI_Put(rank, 1, MPI_INTEGER, mod(rank + 1, size), 1_MPI_ADDRESS_KIND, 1, MPI_INTEGER, win, ierr)
    call MPI_Win_fence(0, win, ierr)
    call holds(memory(2) == mod(rank + size - 1, size), 12)
    call MPI_Win_lock(MPI_LOCK_SHARED, 0, 0, win, ierr)
    call MPI_Fetch_and_op(1, got, MPI_INTEGER, 0, 0_MPI_ADDRESS_KIND, MPI_SUM, win, ierr)
    call MPI_Win_unlock(0, win, ierr)
    call holds(got >= 0 .and. got < size, 13)
    call MPI_Win_free(win, ierr)
    call holds(win == MPI_WIN_NULL, 14)
    unit = 0
  end subroutine

  subroutine files
    integer :: file, status(MPI_STATUS_SIZE), count, got(3)
    integer(kind=MPI_OFFSET_KIND) :: at, bytes
    character(len=200) :: folder
    call get_environment_variable('TMPDIR', folder)
    call MPI_File_open(MPI_COMM_WORLD, trim(folder)//'/modern-file', MPI_MODE_CREATE + MPI_MODE_RDWR + MPI_MODE_DELETE_ON_CLOSE, &
                       MPI_INFO_NULL, file, ierr)
    call holds(ierr == MPI_SUCCESS, 20)
    at = 12 * rank
    call MPI_File_write_at_all(file, at, [rank, rank, rank], 3, MPI_INTEGER, status, ierr)
    call MPI_Get_count(status, MPI_INTEGER, count, ierr)
    call holds(count == 3, 21)
    call MPI_File_get_size(file, bytes, ierr)
    call holds(bytes >= at + 12, 22)
    call MPI_File_set_view(file, at, MPI_INTEGER, MPI_INTEGER, 'native', MPI_INFO_NULL, ierr)
    call MPI_File_read_all(file, got, 3, MPI_INTEGER, MPI_STATUS_IGNORE, ierr)
    call holds(all(got == rank), 23)
    call MPI_File_close(file, ierr)
  end subroutine

  subroutine attributes
    integer :: key, copy
    integer(kind=MPI_ADDRESS_KIND) :: value, extra
    logical :: flag
    extra = 5
    call MPI_Comm_create_keyval(copy_more, MPI_COMM_NULL_DELETE_FN, key, extra, ierr)
    value = 1000000000000_MPI_ADDRESS_KIND
    call MPI_Comm_set_attr(MPI_COMM_WORLD, key, value, ierr)
    call MPI_Comm_dup(MPI_COMM_WORLD, copy, ierr)
    call MPI_Comm_get_attr(copy, key, value, flag, ierr)
    call holds(flag .and. value == 1000000000005_MPI_ADDRESS_KIND, 30)
    call MPI_Comm_free(copy, ierr)
    call MPI_Comm_get_attr(MPI_COMM_WORLD, MPI_TAG_UB, value, flag, ierr)
    call holds(flag .and. value >= 32767, 31)
  end subroutine

  subroutine copy_more(comm, key, extra, value, copied, flag, ierror)
    integer :: comm, key, ierror
    integer(kind=MPI_ADDRESS_KIND) :: extra, value, copied
    logical :: flag
    copied = value + extra
    flag = .true.
    ierror = MPI_SUCCESS
  end subroutine

  subroutine requests
    integer :: list(4), done(4), many, i, statuses(MPI_STATUS_SIZE, 4), got(4)
    do i = 1, 4
      call MPI_Irecv(got(i), 1, MPI_INTEGER, MPI_PROC_NULL, i, MPI_COMM_WORLD, list(i), ierr)
    end do
    call MPI_Waitsome(4, list, many, done, statuses, ierr)
    call holds(many >= 1 .and. done(1) >= 1 .and. done(many) <= 4, 40)
    call MPI_Waitall(4, list, MPI_STATUSES_IGNORE, ierr)
    call holds(all(list == MPI_REQUEST_NULL), 41)
  end subroutine

  subroutine strings
    integer :: info, length, code
    character(len=30) :: value
    character(len=MPI_MAX_ERROR_STRING) :: text
    logical :: flag
    call MPI_Info_create(info, ierr)
    call MPI_Info_set(info, 'a key', ' a value ', ierr)
    call MPI_Info_get(info, 'a key  ', 29, value, flag, ierr)
    call holds(flag .and. value == 'a value', 50)
    value = 'as it was'
    call MPI_Info_get(info, 'another', 29, value, flag, ierr)
    call holds(.not. flag .and. value == 'as it was', 51)
    call MPI_Info_free(info, ierr)
    call MPI_Comm_set_name(MPI_COMM_WORLD, 'all of them', ierr)
    call MPI_Comm_get_name(MPI_COMM_WORLD, value, length, ierr)
    call holds(value == 'all of them' .and. length == 11, 52)
    call MPI_Error_string(MPI_ERR_COUNT, text, length, code)
    call holds(text(1:13) == 'MPI_ERR_COUNT', 53)
  end subroutine
end program

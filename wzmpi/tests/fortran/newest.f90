! Programs with the module mpi_f08 and without a mistake: newest NAME runs one of them, which says nothing and ends with 0.
program newest
  use mpi_f08
  implicit none
  integer :: rank, size, handled
  character(len=20) :: name
  call MPI_Init()
  call MPI_Comm_rank(MPI_COMM_WORLD, rank)
  call MPI_Comm_size(MPI_COMM_WORLD, size)
  call get_command_argument(1, name)
  select case (name)
  case ('handles'); call handles
  case ('statuses'); call statuses
  case ('operations'); call operations
  case ('handlers'); call handlers
  case ('sessions'); call sessions
  case ('further'); call further
  end select
  call MPI_Finalize()
contains

  subroutine holds(what, where)
    logical, intent(in) :: what
    integer, intent(in) :: where
    if (what) return
    print *, 'newest.f90: not so: check ', where
    stop 1
  end subroutine

  subroutine handles
    type(MPI_Comm) :: copy, none
    type(MPI_Group) :: group
    integer :: how, code, bytes
    none = MPI_COMM_NULL
    call MPI_Comm_dup(MPI_COMM_WORLD, copy, code)
    call holds(code == MPI_SUCCESS .and. copy /= MPI_COMM_WORLD .and. none == MPI_COMM_NULL, 1)
    call MPI_Comm_compare(MPI_COMM_WORLD, copy, how)
    call holds(how == MPI_CONGRUENT, 2)
    call MPI_Comm_group(copy, group)
    call MPI_Group_size(group, how)
    call holds(how == size, 3)
    call MPI_Group_free(group)
    call MPI_Comm_free(copy)
    call holds(copy == MPI_COMM_NULL, 4)
    call MPI_Sizeof(1.0d0, bytes)
    call holds(bytes == 8, 5)
  end subroutine

  subroutine statuses
    type(MPI_Status) :: status, all(2)
    type(MPI_Request) :: requests(2)
    integer :: f(MPI_STATUS_SIZE), count
    real(8) :: x(3), y(3)
    x = rank
    call MPI_Irecv(y, 3, MPI_DOUBLE_PRECISION, mod(rank + size - 1, size), 9, MPI_COMM_WORLD, requests(1))
    call MPI_Isend(x, 3, MPI_REAL8, mod(rank + 1, size), 9, MPI_COMM_WORLD, requests(2))
    call MPI_Waitall(2, requests, all)
    status = all(1)
    call holds(status%MPI_SOURCE == mod(rank + size - 1, size) .and. status%MPI_TAG == 9, 10)
    call MPI_Get_count(status, MPI_REAL8, count)
    call holds(count == 3 .and. y(3) == status%MPI_SOURCE, 11)
    call MPI_Status_f082f(status, f)
    call holds(f(1) == status%MPI_SOURCE, 12)
  end subroutine

  subroutine handlers
    procedure(MPI_Comm_errhandler_function), pointer :: function
    type(MPI_Errhandler) :: handler
    type(MPI_Comm) :: copy
    integer :: code
    function => note_error
    handled = 0
    call MPI_Comm_dup(MPI_COMM_WORLD, copy)
    call MPI_Comm_create_errhandler(function, handler)
    call MPI_Comm_set_errhandler(copy, handler)
    call MPI_Send(code, 1, MPI_INTEGER, size, 0, copy, code)
    call holds(code == MPI_ERR_RANK .and. handled == MPI_ERR_RANK, 30)
    call MPI_Errhandler_free(handler)
    call MPI_Comm_free(copy)
  end subroutine

  subroutine note_error(comm, code)
    type(MPI_Comm) :: comm
    integer :: code
    if (comm /= MPI_COMM_WORLD) handled = code
  end subroutine

  subroutine operations
    procedure(MPI_User_function) :: added
    type(MPI_Op) :: op
    integer :: i, got
    call MPI_Op_create(added, .true., op)
    i = rank
    call MPI_Allreduce(i, got, 1, MPI_INTEGER, op, MPI_COMM_WORLD)
    call holds(got == size * (size - 1) / 2, 20)
    call MPI_Allreduce(MPI_IN_PLACE, i, 1, MPI_INTEGER, MPI_MAX, MPI_COMM_WORLD)
    call holds(i == size - 1, 21)
    call MPI_Op_free(op)
  end subroutine

  subroutine sessions
    type(MPI_Session) :: session
    type(MPI_Group) :: group
    type(MPI_Comm) :: all
    type(MPI_Info) :: about
    character(len=MPI_MAX_PSET_NAME_LEN) :: set
    character(len=20) :: many
    integer :: sets, length, got
    logical :: found
    call MPI_Session_init(MPI_INFO_NULL, MPI_ERRORS_ARE_FATAL, session)
    call MPI_Session_get_num_psets(session, MPI_INFO_NULL, sets)
    length = len(set)
    call MPI_Session_get_nth_pset(session, MPI_INFO_NULL, 0, length, set)
    call holds(sets == 2 .and. set == 'mpi://WORLD', 30)
    call MPI_Session_get_pset_info(session, set, about)
    call MPI_Info_get(about, 'mpi_size', 20, many, found)
    call MPI_Info_free(about)
    read (many, *) got
    call holds(found .and. got == size, 31)
    call MPI_Group_from_session_pset(session, set, group)
    call MPI_Comm_create_from_group(group, 'newest.f90', MPI_INFO_NULL, MPI_ERRORS_ARE_FATAL, all)
    call MPI_Group_free(group)
    call MPI_Allreduce(1, got, 1, MPI_INTEGER, MPI_SUM, all)
    call holds(got == size, 32)
    call MPI_Comm_free(all)
    call MPI_Session_finalize(session)
    call holds(session == MPI_SESSION_NULL, 33)
  end subroutine

  subroutine further
    type(MPI_Comm) :: made
    integer :: codes(2), code
    call MPI_Comm_set_errhandler(MPI_COMM_SELF, MPI_ERRORS_RETURN)
    call MPI_Comm_spawn('worker', MPI_ARGV_NULL, 2, MPI_INFO_NULL, 0, MPI_COMM_SELF, made, codes, code)
    call holds(code == MPI_ERR_SPAWN .and. made == MPI_COMM_NULL, 40)
  end subroutine
end program

  subroutine added(in, inout, length, datatype)
    use, intrinsic :: iso_c_binding
    use mpi_f08
    implicit none
    type(c_ptr), value :: in, inout
    integer :: length
    type(MPI_Datatype) :: datatype
    integer, pointer :: a(:), b(:)
    if (datatype /= MPI_INTEGER) stop 1
    call c_f_pointer(in, a, [length])
    call c_f_pointer(inout, b, [length])
    b = a + b
  end subroutine

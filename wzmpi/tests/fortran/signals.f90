! Signals, which libgfortran takes too: signals NAME runs one of them.
program signals
    use mpi
    implicit none
    character(len=20) :: name
    integer :: rank, ierror
    integer, pointer :: nowhere(:)

    call get_command_argument(1, name)
    call MPI_Init(ierror)
    call MPI_Comm_rank(MPI_COMM_WORLD, rank, ierror)
    select case (name)
    case ('asked')
        call MPI_Barrier(MPI_COMM_WORLD, ierror)
        if (rank == 0) then
            print '(a)', 'reads'
            flush (6)
            read *
        end if
    case ('crash')
        nullify (nowhere)
        if (rank == 1) nowhere(1) = 5
    end select
    call MPI_Barrier(MPI_COMM_WORLD, ierror)
    if (rank == 0) print '(a)', 'and goes on'
    call MPI_Finalize(ierror)
end program

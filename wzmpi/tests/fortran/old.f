C     Programs in Fortran 77 without a mistake: old NAME runs one of them,
C     which says nothing and ends with 0.
      program old
      implicit none
      include 'mpif.h'
      integer ierr
      character*20 name
      call MPI_INIT(ierr)
      call getarg(1, name)
      if (name .eq. 'messages') call messages
      if (name .eq. 'types') call types
      if (name .eq. 'collectives') call collectives
      if (name .eq. 'attributes') call attributes
      if (name .eq. 'common') call commons
      if (name .eq. 'topology') call topology
      call MPI_FINALIZE(ierr)
      end

      subroutine holds(what, where)
      logical what
      integer where
      if (.not. what) then
         print *, 'old.f: not so: check ', where
         stop 1
      endif
      end

C     Statuses, requests, strings.
      subroutine messages
      implicit none
      include 'mpif.h'
      integer ierr, rank, size, got, count, requests(2), length
      integer status(MPI_STATUS_SIZE), all(MPI_STATUS_SIZE, 2), i
      character*(MPI_MAX_PROCESSOR_NAME) host
      logical flag
      call MPI_COMM_RANK(MPI_COMM_WORLD, rank, ierr)
      call MPI_COMM_SIZE(MPI_COMM_WORLD, size, ierr)
      call MPI_SENDRECV(rank, 1, MPI_INTEGER, mod(rank + 1, size), 3,
     &     got, 1, MPI_INTEGER, mod(rank + size - 1, size), 3,
     &     MPI_COMM_WORLD, status, ierr)
      call holds(got .eq. mod(rank + size - 1, size), 1)
      call holds(status(MPI_SOURCE) .eq. got, 2)
      call holds(status(MPI_TAG) .eq. 3, 3)
      call MPI_GET_COUNT(status, MPI_INTEGER, count, ierr)
      call holds(count .eq. 1, 4)
      call MPI_IRECV(got, 1, MPI_INTEGER, MPI_ANY_SOURCE, 4,
     &     MPI_COMM_WORLD, requests(1), ierr)
      call MPI_ISEND(rank, 1, MPI_INTEGER, mod(rank + 1, size), 4,
     &     MPI_COMM_WORLD, requests(2), ierr)
      call MPI_WAITALL(2, requests, all, ierr)
      call holds(all(MPI_SOURCE, 1) .eq. got, 5)
      call holds(requests(2) .eq. MPI_REQUEST_NULL, 6)
      call MPI_IRECV(got, 1, MPI_INTEGER, MPI_ANY_SOURCE, 5,
     &     MPI_COMM_WORLD, requests(2), ierr)
      call MPI_SEND(rank, 1, MPI_INTEGER, mod(rank + 1, size), 5,
     &     MPI_COMM_WORLD, ierr)
      call MPI_WAITANY(2, requests, i, MPI_STATUS_IGNORE, ierr)
      call holds(i .eq. 2, 7)
      call MPI_GET_PROCESSOR_NAME(host, length, ierr)
      call holds(length .gt. 0, 8)
      call holds(host(length + 1:) .eq. ' ', 9)
      call MPI_INITIALIZED(flag, ierr)
      call holds(flag, 10)
      end

C     Derived types, also by the names of MPI 1.
      subroutine types
      implicit none
      include 'mpif.h'
      integer ierr, column, extent, pair, sizes(2), displs(2), kinds(2)
      integer lengths(2), i, size
      integer a(4, 3), b(4)
      double precision d(2)
      do 10 i = 1, 12
 10      a(mod(i - 1, 4) + 1, (i - 1) / 4 + 1) = i
      call MPI_TYPE_VECTOR(3, 1, 4, MPI_INTEGER, column, ierr)
      call MPI_TYPE_COMMIT(column, ierr)
      call MPI_SENDRECV(a(2, 1), 1, column, 0, 1, b, 3, MPI_INTEGER,
     &     0, 1, MPI_COMM_SELF, MPI_STATUS_IGNORE, ierr)
      call holds(b(1) .eq. 2 .and. b(2) .eq. 6 .and. b(3) .eq. 10, 20)
      call MPI_TYPE_EXTENT(MPI_DOUBLE_PRECISION, extent, ierr)
      call holds(extent .eq. 8, 21)
      lengths(1) = 1
      lengths(2) = 1
      displs(1) = 0
      displs(2) = 8
      kinds(1) = MPI_INTEGER
      kinds(2) = MPI_DOUBLE_PRECISION
      call MPI_TYPE_STRUCT(2, lengths, displs, kinds, pair, ierr)
      call MPI_TYPE_SIZE(pair, size, ierr)
      call holds(size .eq. 12, 22)
      call MPI_TYPE_FREE(pair, ierr)
      call MPI_TYPE_FREE(column, ierr)
      call holds(column .eq. MPI_DATATYPE_NULL, 23)
      end

C     Operations over Fortran's types, also one of the program's own.
      subroutine collectives
      implicit none
      include 'mpif.h'
      integer ierr, rank, size, i, sum, op, pairs(2), got(2)
      real x(2), y(2)
      logical yes, all
      complex z, w
      external larger
      call MPI_COMM_RANK(MPI_COMM_WORLD, rank, ierr)
      call MPI_COMM_SIZE(MPI_COMM_WORLD, size, ierr)
      i = rank + 1
      call MPI_ALLREDUCE(i, sum, 1, MPI_INTEGER, MPI_SUM,
     &     MPI_COMM_WORLD, ierr)
      call holds(sum .eq. size * (size + 1) / 2, 30)
      call MPI_ALLREDUCE(MPI_IN_PLACE, i, 1, MPI_INTEGER, MPI_MAX,
     &     MPI_COMM_WORLD, ierr)
      call holds(i .eq. size, 31)
      yes = rank .eq. 0
      call MPI_ALLREDUCE(yes, all, 1, MPI_LOGICAL, MPI_LOR,
     &     MPI_COMM_WORLD, ierr)
      call holds(all, 32)
      z = cmplx(rank, 1)
      call MPI_ALLREDUCE(z, w, 1, MPI_COMPLEX, MPI_SUM,
     &     MPI_COMM_WORLD, ierr)
      call holds(w .eq. cmplx(size * (size - 1) / 2, size), 33)
      pairs(1) = 5
      pairs(2) = rank
      call MPI_ALLREDUCE(pairs, got, 1, MPI_2INTEGER, MPI_MINLOC,
     &     MPI_COMM_WORLD, ierr)
      call holds(got(1) .eq. 5 .and. got(2) .eq. 0, 34)
      x(1) = rank
      x(2) = rank
      call MPI_ALLREDUCE(x, y, 1, MPI_2REAL, MPI_MAXLOC,
     &     MPI_COMM_WORLD, ierr)
      call holds(y(2) .eq. size - 1, 35)
      call MPI_OP_CREATE(larger, .true., op, ierr)
      call MPI_ALLREDUCE(x, y, 2, MPI_REAL, op, MPI_COMM_WORLD, ierr)
      call holds(y(1) .eq. size - 1, 36)
      call MPI_OP_FREE(op, ierr)
      end

      subroutine larger(one, two, length, kind)
      integer length, kind, i
      real one(length), two(length)
      do 20 i = 1, length
 20      two(i) = max(one(i), two(i))
      end

C     Attributes by MPI 1's calls, and an error handler.
      subroutine attributes
      implicit none
      include 'mpif.h'
      integer ierr, key, value, copy, handler, handled
      logical flag
      common /errors/ handled
      external note_error
      call MPI_ATTR_GET(MPI_COMM_WORLD, MPI_TAG_UB, value, flag, ierr)
      call holds(flag .and. value .ge. 32767, 40)
      call MPI_KEYVAL_CREATE(MPI_DUP_FN, MPI_NULL_DELETE_FN, key, 7,
     &     ierr)
      call MPI_ATTR_PUT(MPI_COMM_WORLD, key, 2003, ierr)
      call MPI_COMM_DUP(MPI_COMM_WORLD, copy, ierr)
      call MPI_ATTR_GET(copy, key, value, flag, ierr)
      call holds(flag .and. value .eq. 2003, 41)
      handled = 0
      call MPI_ERRHANDLER_CREATE(note_error, handler, ierr)
      call MPI_ERRHANDLER_SET(copy, handler, ierr)
      call MPI_SEND(value, -1, MPI_INTEGER, 0, 0, copy, ierr)
      call holds(handled .eq. MPI_ERR_COUNT, 42)
      call holds(ierr .eq. MPI_ERR_COUNT, 43)
      call MPI_ERRHANDLER_FREE(handler, ierr)
      call MPI_COMM_FREE(copy, ierr)
      call holds(copy .eq. MPI_COMM_NULL, 44)
      end

      subroutine note_error(comm, code)
      integer comm, code, handled
      common /errors/ handled
      handled = code
      end

C     Each rank has its own common blocks, saved variables and units.
      subroutine commons
      implicit none
      include 'mpif.h'
      integer ierr, rank, kept, got, i
      common /own/ kept
      call MPI_COMM_RANK(MPI_COMM_WORLD, rank, ierr)
      kept = rank
      open(unit=17, status='scratch')
      do 30 i = 1, 3
         call MPI_BARRIER(MPI_COMM_WORLD, ierr)
 30      write(17, *) rank
      call MPI_BARRIER(MPI_COMM_WORLD, ierr)
      call holds(kept .eq. rank, 50)
      rewind(17)
      do 40 i = 1, 3
         read(17, *) got
 40      call holds(got .eq. rank, 51)
      close(17)
      end

      subroutine topology
      implicit none
      include 'mpif.h'
      integer ierr, grid, dims(2), coords(2), size, source, dest
      logical periods(2), got(2)
      call MPI_COMM_SIZE(MPI_COMM_WORLD, size, ierr)
      dims(1) = size
      dims(2) = 1
      periods(1) = .true.
      periods(2) = .false.
      call MPI_CART_CREATE(MPI_COMM_WORLD, 2, dims, periods, .false.,
     &     grid, ierr)
      call MPI_CART_GET(grid, 2, dims, got, coords, ierr)
      call holds(got(1) .and. .not. got(2), 60)
      call MPI_CART_SHIFT(grid, 1, 1, source, dest, ierr)
      call holds(dest .eq. MPI_PROC_NULL, 61)
      call MPI_COMM_FREE(grid, ierr)
      end

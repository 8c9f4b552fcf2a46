/* MPI's header, and INIT(Allreduce), the name of the call that makes an allreduce persistent: MPI 4's, or the one that Open MPI has before it. A library
   without either has no INIT. */
#ifndef PERSISTENT_H
#define PERSISTENT_H

#include <mpi.h>
#ifdef OPEN_MPI
#include <mpi-ext.h>
#endif

#if MPI_VERSION >= 4
#define INIT(Name) MPI_##Name##_init
#elif defined(OMPI_HAVE_MPI_EXT_PCOLLREQ)
#define INIT(Name) MPIX_##Name##_init
#endif

#endif

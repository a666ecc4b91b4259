/* ivy_mpi.h: strings over MPI, which the program has initialised. It is in the library libivy_mpi.
 *
 * The communicator is duplicated, so no string reaches a receive of the program, and no message of the program a node. All
 * processes of it call this together, as MPI_Comm_dup wants; node i is process i of it. Several memories in one job have one
 * such transport each: open all before the first call, or make progress by a thread, since to duplicate waits for all.
 *
 * Progress by a thread needs MPI_THREAD_MULTIPLE. Where MPI was initialised with less, progress is made in calls, which is said
 * in a line. A call of MPI that blocks, as MPI_Barrier, serves no other node meanwhile: where progress is made in calls, a peer
 * that waits for this node waits until it is over, and takes it for dead after death_ms. */
#ifndef IVY_MPI_H
#define IVY_MPI_H
#include "ivy_runtime.h"
#include <mpi.h>
#ifdef __cplusplus
extern "C" {
#endif

/* Where it cannot be opened all in it is null, and ivy_join fails. */
ivy_transport ivy_mpi_over(MPI_Comm communicator);
/* The same with a status: IVY_DONE or IVY_NO_TRANSPORT. */
uint32_t ivy_open_mpi(ivy_transport *transport, MPI_Comm communicator);

/* As ivy_init, for a program that `mpirun` starts too: where it did, MPI is initialised, unless the program has done so, and
 * strings go over a copy of MPI_COMM_WORLD. */
ivy_process *ivy_init_mpi(int *argc, char ***argv);
uint32_t ivy_init_mpi_as(int *argc, char ***argv, const ivy_config *config, ivy_process **process);

/* As ivy_finalize, and MPI is finalised where ivy_init_mpi initialised it. */
int ivy_finalize_mpi(ivy_process *process);

#ifdef __cplusplus
}
#endif
#endif

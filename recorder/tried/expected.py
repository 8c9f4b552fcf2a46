"""The programs of ../tried.py, and what must be reported of each."""

import collections

LIBRARIES = ("mpich", "openmpi", "default")

# RANKS; what must be reported, with {A} and {B} for the marked lines; the status of where.py; whether it belongs to the short part.
Program = collections.namedtuple("Program", "ranks wants status short")


def wrong(ranks, *wants, short=False):
    return Program(ranks, wants, 1, short)


def right(ranks, *wants, short=False, status=0):
    return Program(ranks, wants or ("no fault: the collective calls ",), status, short)


CYCLE = "a cycle: rank 0 waits for rank 1, rank 1 waits for rank 0"
PROGRAMS = {
    "other_root": wrong(4, "call 1 on MPI_COMM_WORLD: the roots differ", "rank 1: MPI_Bcast(sends 4 MPI_INT, root 1), {A}".replace("sends ", ""), short=True),
    "other_count": wrong(4, "the counts differ", "rank 2: MPI_Allreduce(3 MPI_INT, MPI_SUM), {A}"),
    "other_type": wrong(2, "the types differ", "rank 0: MPI_Allreduce(1 MPI_UNSIGNED_LONG, MPI_SUM), {A}", "rank 1: MPI_Allreduce(1 MPI_DOUBLE, MPI_SUM), {A}", short=True),
    "other_operation": wrong(3, "the operations differ", "rank 0: MPI_Reduce(1 MPI_INT, MPI_SUM, root 0), {A}", "ranks 1, 2: MPI_Reduce(1 MPI_INT, MPI_MAX, root 0), {A}"),
    "other_user_operation": wrong(2, "the operations differ", "{A}"),
    "other_structure": wrong(2, "the types differ", "{A}"),
    "other_call": wrong(2, "the calls differ", "rank 0: MPI_Bcast(1 MPI_INT, root 0), {A}", "rank 1: MPI_Reduce(1 MPI_INT, MPI_SUM, root 0), {B}"),
    "blocking_meets_nonblocking": wrong(2, "a blocking and a nonblocking call never match", "rank 0: MPI_Allreduce(1 MPI_INT, MPI_SUM), {A}", "rank 1: MPI_Iallreduce(1 MPI_INT, MPI_SUM), {B}", short=True),
    "nonblocking_meets_persistent": wrong(2, "a nonblocking and a persistent call never match", "rank 0: MPI_Ibarrier, {A}", "rank 1: MPI_Barrier_init, {B}"),
    "gather_count": wrong(3, "rank 0 sends 3 MPI_INT to rank 0, which receives 2 MPI_INT", "{A}"),
    "scatter_type": wrong(3, "rank 0 sends 4 MPI_INT to rank 1, which receives 4 MPI_FLOAT", "{A}"),
    "gatherv_count": wrong(4, "rank 2 sends 2 MPI_INT to rank 0, which receives 3 MPI_INT", "{A}"),
    "scatterv_count": wrong(4, "rank 0 sends 4 MPI_INT to rank 3, which receives 5 MPI_INT", "{A}"),
    "allgatherv_count": wrong(4, "rank 2 sends 3 MPI_INT to rank 1, which receives 4 MPI_INT", "{A}"),
    "alltoallv_count": wrong(4, "rank 3 sends 1 MPI_INT to rank 0, which receives 2 MPI_INT", "{A}", short=True),
    "alltoallw_type": wrong(4, "rank 0 sends 1 MPI_FLOAT to rank 1, which receives 1 MPI_INT", "{A}"),
    "reduce_scatter_counts": wrong(4, "the counts differ", "rank 1: MPI_Reduce_scatter(2, 0, 1, 1 MPI_INT, MPI_SUM), {A}"),
    "neighbours_meet_barrier": wrong(2, "the calls differ", "rank 0: MPI_Barrier, {A}", "rank 1: MPI_Neighbor_allgather, {B}"),
    "starts_differ": wrong(3, "the numbers of starts differ: rank 0 3, rank 1 2, rank 2 2", "{A}"),
    "shifted_dup": wrong(2, "the calls differ", "rank 0: MPI_Ibarrier, {B}", "rank 1: MPI_Comm_dup, {A}", "not judged: 1 communicators, windows or files that were made after"),
    "skipped_barrier": wrong(3, "call 2 on MPI_COMM_WORLD: rank 1 comes to MPI_Finalize without it", "ranks 0, 2: MPI_Barrier, {A}"),
    "skipped_split": wrong(3, "the calls differ", "rank 0: MPI_Barrier, {B}", "ranks 1, 2: MPI_Comm_split, {A}", short=True),
    "skipped_dup": wrong(2, CYCLE, "rank 0: in MPI_Recv, {A}", "rank 1: in MPI_Comm_dup, {B}", short=True),
    "skipped_idup": wrong(2, "the calls differ", "rank 0: MPI_Barrier, {A}", "rank 1: MPI_Comm_idup, {B}"),
    "skipped_cart": wrong(2, CYCLE, "rank 1: in MPI_Cart_create, {B}"),
    "free_meets_barrier": wrong(2, "the calls differ", "rank 0: MPI_Comm_free, {A}", "rank 1: MPI_Barrier, {B}"),
    "group_lacks_one": wrong(2, CYCLE, "rank 1: in MPI_Comm_create_group, {B}"),
    "crossed_communicators": wrong(2, CYCLE, "rank 0: in MPI_Allreduce, {A}", "rank 1: in MPI_Allreduce, {A}", short=True),
    "crossed_waits": wrong(2, CYCLE, "rank 0: in MPI_Wait, {B}", "for MPI_Ibarrier, {A}"),
    "skipped_write": wrong(2, "the calls differ", "rank 0: MPI_File_close, {B}", "rank 1: MPI_File_write_at_all, {A}"),
    "other_write": wrong(2, "the calls differ", "rank 0: MPI_File_write_at_all, {A}", "rank 1: MPI_File_write_all, {B}"),
    "skipped_open": wrong(2, CYCLE, "rank 0: in MPI_Recv, {A}", "rank 1: in MPI_File_open"),
    "skipped_fence": wrong(2, "the calls differ", "rank 0: MPI_Win_free, {A}", "rank 1: MPI_Win_fence, {B}", short=True),
    "fence_meets_receive": wrong(2, CYCLE, "rank 0: in MPI_Recv, {A}", "rank 1: in MPI_Win_fence, {B}"),
    "skipped_window": wrong(2, "the calls differ", "rank 0: MPI_Allreduce(1 MPI_INT, MPI_SUM), {A}", "rank 1: MPI_Win_create, {B}"),
    "receive_cycle": wrong(2, CYCLE, "rank 0: in MPI_Recv, {A}", "from rank 1, tag 6", short=True),
    "receive_ring": wrong(4, "a cycle: rank 0 waits for rank 1, rank 1 waits for rank 2, rank 2 waits for rank 3, rank 3 waits for rank 0", "{A}"),
    "other_tag": wrong(2, CYCLE, "rank 0: in MPI_Recv, {A}", "from rank 1, tag 6 (rank 1 has sent none such; it has sent 1 with tag 5 that nobody receives)", "rank 1: in MPI_Barrier, {B}"),
    "other_communicator": wrong(2, CYCLE, "rank 0: in MPI_Recv, {A}", "from rank 1, tag 5 (rank 1 has sent none such)"),
    "send_cycle": wrong(2, CYCLE, "rank 0: in MPI_Send, {A}", "to rank 1, tag 4"),
    "receive_meets_barrier": wrong(2, CYCLE, "rank 0: in MPI_Recv, {A}", "rank 1: in MPI_Barrier, {B}", "rank 0 has not called it"),
    "receive_of_finalized": wrong(2, "a wait without end: rank 0 waits for rank 1, which has called MPI_Finalize", "rank 0: in MPI_Recv, {A}", short=True),
    "waitall_of_receives": wrong(2, CYCLE, "rank 0: in MPI_Waitall, {B}", "a receive, {A}, from rank 1, tag 2"),
    "probe_of_nothing": wrong(2, "rank 0: in MPI_Probe, {A}", CYCLE),
    "receive_of_any": wrong(2, CYCLE, "from any rank, tag 1"),
    "wait_meets_receive": wrong(2, CYCLE, "rank 1: in MPI_Wait, {B}"),
    "endless_loop": Program(3, ("rank 1: in no MPI call", "ranks 0, 2", "others wait for rank 1", "rank 1 has not called it"), 3, True),
    "endless_tests": Program(2, ("rank 0: in MPI_Recv, {A}", "no fault found in what is there"), 3, False),
    "calls_abort": Program(3, ("rank 1: called MPI_Abort with 3, {A}", "no fault found in what is there"), 3, False),
    "crashes": Program(3, ("rank 1", "no fault found in what is there"), 3, False),
    "late_fault": wrong(2, "call 4999 on MPI_COMM_WORLD: the operations differ", "{A}"),
    "sixty_four_ranks": wrong(64, "the operations differ", "ranks 0-62: MPI_Reduce(1 MPI_INT, MPI_SUM, root 0), {A}", "rank 63: MPI_Reduce(1 MPI_INT, MPI_MAX, root 0), {A}"),
    "large_count": wrong(2, "the counts differ", "rank 0: MPI_Scan(1048576 MPI_INT, MPI_SUM), {A}", "rank 1: MPI_Scan(1048575 MPI_INT, MPI_SUM), {A}"),
    "twentieth_communicator": wrong(2, "call 1 on the communicator of MPI_Comm_dup", "the operations differ", "{A}"),
    "threads_without_order": Program(2, ("the order that was recorded is one", "stalls aren't judged"), 3, False),
    "right_blocking": right(4, short=True),
    "right_nonblocking": right(4),
    "right_persistent": right(4),
    "right_uneven": right(4, short=True),
    "right_in_place": right(4),
    "right_types": right(4),
    "right_operations": right(4),
    "right_files": right(4),
    "right_windows": right(4),
    "right_messages": right(4),
    "right_communicators": right(4, "no fault found in what is there", "not judged: 4 calls on communicators", status=3, short=True),
    "right_tests": right(4, status=None),
    "right_threads": right(2, "no fault found in what is there; stalls aren't judged", status=3),
    "right_long": right(2),
    "right_large": right(4),
    "right_sixty_four": right(64),
    "right_many_communicators": right(2),
    "right_neighbours": right(4),
    "ended_among_collectives": right(4, "no fault found in what is there", status=3),
    "ended_among_messages": right(4, "no fault found in what is there", status=3),
    "ended_among_pairs": right(4, "no fault found in what is there", status=3, short=True),
    "hangs_in_finalize": Program(2, ("called MPI_Finalize and didn't come out of it:", "in MPI_Finalize", "no fault found in what is there"), 3, True),
    "merge_meets_receive": Program(2, ("rank 0: in MPI_Recv, {A}", "rank 1: in MPI_Intercomm_merge, {B}", "no fault found in what is there"), 3, False),
    "detach_of_unreceived": Program(2, ("rank 0: in MPI_Buffer_detach, {A}", "rank 1: in MPI_Recv, {B}", "from rank 0, tag 5 (rank 0 has sent none such; it has sent 1 with tag 4 that nobody receives)"), 3, False),
    "lock_cycle": Program(2, ("in MPI_Win_", "no fault found in what is there"), 3, False),
    "start_without_post": Program(2, ("rank 0: in MPI_Win_", "rank 1: in MPI_Recv, {A}", "no fault found in what is there"), 3, False),
    "mprobe_of_nothing": wrong(2, "rank 0: in MPI_Mprobe, {A}", CYCLE),
    "receive_of_any_tag": wrong(2, CYCLE, "rank 0: in MPI_Recv, {A}", "from rank 1, any tag", "rank 1: in MPI_Barrier, {B}", short=True),
    "one_receive_more": wrong(3, CYCLE, "rank 0: in MPI_Recv, {A}", "from any rank, tag 1"),
    "cycle_of_kinds": wrong(3, "a cycle: rank 0 waits for rank 1, rank 1 waits for rank 2, rank 2 waits for rank 0", "rank 0: in MPI_Recv, {A}", "rank 2: in MPI_Ssend, {B}"),
    "leaves_without_finalize": Program(3, ("rank 1: in no MPI call that is followed", "no fault found in what is there"), 3, False),
    "never_completed": Program(2, ("warning: rank 0 called MPI_Finalize, and no call was seen to complete MPI_Ibarrier, {A}", "warning: rank 1"), 3, True),
    "dup_meets_split": wrong(2, "the calls differ", "rank 0: MPI_Comm_dup, {A}", "rank 1: MPI_Comm_split, {B}"),
    "other_window_copy": wrong(2, "the calls differ", "rank 0: MPI_Win_free, {A}", "rank 1: MPI_Win_fence, {B}"),
    "other_large_count": wrong(2, "the counts differ"),
    "long_meets_int64": Program(2, ("warning: call 1 on MPI_COMM_WORLD: the types have different names", "no fault beside what is warned of"), 0, False),
    "late_stall": wrong(2, "a library whose collectives wait for all their members stalls", "rank 0: MPI_Bcast(1 MPI_INT, root 0), {A}: call 5002 on MPI_COMM_WORLD waits for rank 1", "rank 1: MPI_Bcast(1 MPI_INT, root 1), {B}"),
    "unsafe_send_after_gather": wrong(2, "whose collectives for all their members, stalls:", "rank 1: MPI_Gather(sends 1 MPI_INT, root 0), "),
    "right_packed": right(2),
    "right_jump": right(2, short=True),
    "right_freed_type": right(2),
    "right_empty_requests": right(2, short=True),
    "right_first_of_two": right(2, "no fault", status=None),
    "right_any": right(4),
    "right_cancelled": right(4),
    "right_tags": right(2),
    "right_copied": right(2),
    "right_later_threads": right(2, "no fault found in what is there", "more threads of ranks 0, 1 called MPI than are followed", status=3),
    "right_spawn": right(1, "no fault", status=None),
    "right_derived": right(4),
    "right_groups": right(4),
    "right_inactive": right(4),
    "right_large_calls": right(4),
    "right_many_starts": right(2),
    "right_neighbours_apart": right(3, "not sure: where these calls too wait", "no fault found in what is there", status=3),
    "ended_in_a_message": right(2, "no fault found in what is there", status=3),
}

PROGRAMS.update({
    "ended_after_cancel": right(2, "no fault found in what is there", status=3),
    "ended_after_refused": right(2, "no fault found in what is there", status=3),
    "ended_in_a_gatherv": right(3, "no fault found in what is there", status=3),
    "ended_in_an_alltoallv": right(3, "rank 1: in no MPI call", "others wait for rank 1", "no fault found in what is there", status=3),
    "ended_before_threads": right(2, "no fault found in what is there; stalls aren't judged: with MPI_THREAD_MULTIPLE", status=3, short=True),
    "right_waiting_threads": right(2, "no fault found in what is there; stalls aren't judged: several threads", status=3),
    "right_jump_below": right(2),
    "right_copied_requests": right(2, "no fault", status=None),
    "right_huge_type": right(2),
    "right_barrier_in_finalize": right(2, "not sure: calls that weren't recorded may explain this: call 1 on MPI_COMM_WORLD: rank 1 comes to MPI_Finalize without it", status=3),
    "right_other_names": right(2, "not sure: calls that weren't recorded may explain this", "stalls aren't judged: rank 1 called MPI by names that begin with PMPI", status=3),
    "unsafe_free": Program(2, ("not sure: where these calls too wait", "rank 0: MPI_Comm_free, {A}: call 1 on the communicator of MPI_Comm_dup", "no fault found in what is there"), 3, True),
    "unsafe_tests": Program(2, ("not sure: where these calls too wait", "rank 0: MPI_Test for MPI_Ibcast, {A}, {B}: call 2 on MPI_COMM_WORLD waits for rank 1", "no fault found in what is there"), 3, False),
    "unsafe_empty_waits": Program(2, ("not sure: where these calls too wait", "rank 0: MPI_Wait for MPI_Iallreduce, {A}, {B}: call 2 on MPI_COMM_WORLD waits for rank 1"), 3, False),
    "unsafe_inits": Program(2, ("not sure: where these calls too wait", "rank 0: MPI_Barrier_init, {A}: call 2 on MPI_COMM_WORLD waits for rank 1"), 3, False),
    "never_completed_start": Program(2, ("warning: rank 0 called MPI_Finalize, and no call was seen to complete a start of MPI_Bcast_init, {A}", "warning: rank 1"), 3, False),
    "refused_root": Program(2, ("warning: the library refused a call of ranks 0, 1: MPI_Bcast(1 MPI_INT, root 99), {A}", "no fault found in what is there"), 3, True),
    "skipped_info": wrong(2, "the calls differ", "rank 0: MPI_Barrier, {B}", "rank 1: MPI_Comm_set_info, {A}"),
    "skipped_window_hints": wrong(2, "the calls differ", "rank 0: MPI_Win_free, {B}", "rank 1: MPI_Win_set_info, {A}"),
    "ended_in_status_tests": right(2, "rank 0: in MPI_Recv, {A}", "no fault found in what is there", status=3),
    "ended_in_a_matched_message": right(2, "no fault found in what is there", status=3),
    "ended_in_accept": right(2, "ranks 0, 1: in MPI_Comm_accept, {A}", "no fault found in what is there", status=3),
    "right_connected": right(2, "not judged: ", "no fault found in what is there", status=3),
    "right_lost_record": right(3, "no record of rank 1: what these called isn't known", "no fault found in what is there", status=3),
})

MESSAGES = "no fault: the collective calls and the messages agree, and let no run stall, also where sends wait for their receives"
PROGRAMS.update({
    "right_freed_before_wait": right(2),
    "right_freed_messages": right(2, MESSAGES),
    "right_idup": right(3),
    "right_copied_within": right(2, "not judged: 2 calls on communicators", "no fault found in what is there", status=3),
    "right_insignificant": right(3),
    "right_in_place_kinds": right(3),
    "right_types_by_precision": right(2),
    "right_counts_of_four": right(4),
    "right_neighbour_kinds": right(4),
    "right_bridge": right(4, "not judged: 28 calls on communicators", "no fault found in what is there", status=3),
    "right_pairs": right(4),
    "right_session": right(2, "no fault", status=None),
    "right_own_request": right(2),
    "right_pair_parts": right(3),
    "right_parts": right(2, "no fault: the collective calls agree"),
    "right_threads_apart": right(2, "not judged: 3 communicators, windows or files that were made of one on which several threads of a rank call", "no fault found in what is there; stalls aren't judged: several threads", status=3),
    "ended_before_callback": right(2, "rank 0: in MPI_Recv", "called MPI_Finalize and didn't come out of it", "no fault found in what is there", status=3),
    "freed_while_active": wrong(2, "not startable", "rank 0, {A}: free 0"),
    "neighbour_forms": wrong(2, "a blocking and a nonblocking call never match", "rank 0: MPI_Neighbor_allgather, {A}", "rank 1: MPI_Ineighbor_allgather, {B}"),
    "idup_meets_receive": wrong(2, CYCLE, "rank 0: in MPI_Wait", "for MPI_Comm_idup, {A}", "rank 1: in MPI_Recv, {B}"),
    "counts_of_four": wrong(2, "rank 1 sends 2 MPI_INT to rank 0, which receives 1 MPI_INT"),
    "in_place_count": wrong(3, "rank 0 sends 2 MPI_INT to rank 1, which receives 1 MPI_INT", "rank 0: MPI_Allgather(in place, receives 2 MPI_INT), {A}", "rank 1: MPI_Allgather(sends 1 MPI_INT, receives 1 MPI_INT), {B}"),
    "threads_other_root": wrong(2, "call 1 on the communicator of MPI_Comm_dup", "the roots differ", "rank 0: MPI_Bcast(1 MPI_INT, root 0), lawful.c:"),
})

STALLS = "warning: a library whose sends wait for their receives, as for longer rows, and whose collectives for all their members, stalls:"
AGREE = "no fault: the collective calls and the messages agree, and let no run stall, also where sends wait for their receives"
PROGRAMS.update({
    "message_types": wrong(2, "fault: message 1 of rank 0 to rank 1 with tag 1: what is sent and what is received differ", "rank 0: sends 2 MPI_INT, {A}", "rank 1: receives 1 MPI_DOUBLE, {B}", short=True),
    "message_type_of_start": wrong(2, "fault: message 5 of rank 0 to rank 1 with tag 7", "rank 0: sends 1 MPI_FLOAT, ", "rank 1: receives 4 MPI_INT, {B}"),
    "message_types_of_any": wrong(2, "fault: message 1 of rank 0 to rank 1 with tag 1", "rank 0: sends 2 MPI_INT, {A}", "rank 1: receives 1 MPI_DOUBLE, {B}"),
    "lost_message": Program(2, ("warning: rank 0 sent 2 messages with tag 4 to rank 1 that nobody received, {A}", "no fault found in what is there"), 3, True),
    "receive_never_completed": Program(2, ("warning: rank 0 called MPI_Finalize, and no call was seen to complete a receive from rank 1, tag 3, {A}", "warning: rank 1 sent a message with tag 2 to rank 0 that nobody received, {B}", "rank 0 awaited one with tag 3 from rank 1 that never came"), 3, False),
    "sends_never_completed": Program(2, ("warning: rank 0 called MPI_Finalize, and no call was seen to complete a send to rank 1, tag 3, {A}, and 1 more", "no fault found in what is there"), 3, False),
    "unsafe_sends": wrong(2, STALLS, "rank 0: a send to rank 1, tag 1, {A}: waits for rank 1", "rank 1: a send to rank 0, tag 1, {A}: waits for rank 0", short=True),
    "unsafe_waits_for_sends": wrong(2, STALLS, "rank 0: a wait, {B}, for a send to rank 1, tag 1, {A}: waits for rank 1"),
    "unsafe_send_before_barrier": wrong(2, STALLS, "rank 0: a send to rank 1, tag 1, {A}: waits for rank 1", "rank 1: MPI_Barrier, {B}: call 1 on MPI_COMM_WORLD waits for rank 0"),
    "unsafe_ring": wrong(3, STALLS, "rank 0: a send to rank 1, tag 1, {A}: waits for rank 1", "rank 2: a send to rank 0, tag 1, {A}: waits for rank 0"),
    "right_message_kinds": right(2, "messages that ranks 0, 1 may receive from any rank or with any tag aren't judged for that", short=True),
    "right_halo": right(4, AGREE),
})

# The files of the programs, each with the first of its own.
SOURCES = {"programs.c": "other_root", "unusual.c": "hangs_in_finalize", "doubtful.c": "ended_after_cancel", "lawful.c": "right_freed_before_wait", "messages.c": "message_types"}

# MPICH waits in the first, and opens no port here.
OPEN_MPI_ONLY = {"unsafe_empty_waits", "ended_in_accept", "right_connected"}

# Programs in other languages: the file, and with which libraries it is tried. mpi4py is Debian's, which has Open MPI below it.
OTHERS = {
    "fortran_other_root": ("other_root.f90", LIBRARIES),
    "right_fortran_requests": ("requests.f90", LIBRARIES),
    "right_fortran_collectives": ("collectives.f90", LIBRARIES),
    "right_fortran_statuses": ("statuses.f90", LIBRARIES),
    "python_other_operation": ("other_operation.py", ["openmpi"]),
    "right_python_operations": ("operations.py", ["openmpi"]),
}
PROGRAMS["fortran_other_root"] = wrong(3, "call 2 on MPI_COMM_WORLD: the roots differ", "rank 2: MPI_Bcast(4 MPI_INTEGER, root 2), {A}")
PROGRAMS["right_fortran_requests"] = right(2, "no fault", status=None)
PROGRAMS["right_fortran_collectives"] = right(4)
PROGRAMS["right_fortran_statuses"] = right(2, MESSAGES)
PROGRAMS["right_python_operations"] = right(3)
PROGRAMS["python_other_operation"] = wrong(3, "the operations differ", "rank 2: MPI_Allreduce(2 MPI_INT, MPI_MAX), {A}")

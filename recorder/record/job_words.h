/* Kinds, operations and types in job texts; `tools/words` makes this file. */

/* X(constant, word, MPI's call without MPI_, and after MPI_I, whether it has a root, whether it has an operation, its buffers in MPI's
   call, ROOT or NO_ROOT, the elements that a member gives, and gets). Whoever reads the rows defines NO_BUFFER, BUFFER, MOVED, COMBINED,
   COUNTED, ROOT, NO_ROOT, count, members, is_root, is_first, which is member 0, and total, the sum of all members' counts. */
#define EACH_KIND(X) \
    X(BARRIER, "barrier", Barrier, barrier, false, false, NO_BUFFER, NO_ROOT, 0, 0) \
    X(BCAST, "bcast", Bcast, bcast, true, false, BUFFER, ROOT, is_root ? count : 0, count) \
    X(GATHER, "gather", Gather, gather, true, false, MOVED, ROOT, count, is_root ? members * count : 0) \
    X(SCATTER, "scatter", Scatter, scatter, true, false, MOVED, ROOT, is_root ? members * count : 0, count) \
    X(ALLGATHER, "allgather", Allgather, allgather, false, false, MOVED, NO_ROOT, count, members * count) \
    X(ALLTOALL, "alltoall", Alltoall, alltoall, false, false, MOVED, NO_ROOT, members * count, members * count) \
    X(REDUCE, "reduce", Reduce, reduce, true, true, COMBINED, ROOT, count, is_root ? count : 0) \
    X(ALLREDUCE, "allreduce", Allreduce, allreduce, false, true, COMBINED, NO_ROOT, count, count) \
    X(REDUCE_SCATTER_BLOCK, "rsblock", Reduce_scatter_block, reduce_scatter_block, false, true, COMBINED, NO_ROOT, members * count, count) \
    X(SCAN, "scan", Scan, scan, false, true, COMBINED, NO_ROOT, count, count) \
    X(EXSCAN, "exscan", Exscan, exscan, false, true, COMBINED, NO_ROOT, count, is_first ? 0 : count) \
    X(ALLGATHERV, "allgatherv", Allgatherv, allgatherv, false, false, COUNTED, NO_ROOT, count, total)

/* X(word, MPI's name), of those that MPI has */
#define EACH_MPI_OPERATION(X) \
    X("max", MPI_MAX) \
    X("min", MPI_MIN) \
    X("sum", MPI_SUM) \
    X("prod", MPI_PROD) \
    X("land", MPI_LAND) \
    X("lor", MPI_LOR) \
    X("lxor", MPI_LXOR) \
    X("band", MPI_BAND) \
    X("bor", MPI_BOR) \
    X("bxor", MPI_BXOR) \
    X("maxloc", MPI_MAXLOC) \
    X("minloc", MPI_MINLOC)

/* X(word, EACH_ of its elements, the statement that makes `a` the result of a and b), of the others */
#define EACH_OWN_OPERATION(X) \
    X(lastnz, EACH_SIGNED_OR_UNSIGNED, if (b) a = b)

/* X(word, constant, EACH_ of its elements, the statement that makes `a` the result of a and b) */
#define EACH_OPERATION(X) \
    X(max, MAX, EACH_SIGNED_OR_UNSIGNED, if (a < b) a = b) \
    X(min, MIN, EACH_SIGNED_OR_UNSIGNED, if (b < a) a = b) \
    X(sum, SUM, EACH_SIGNED_OR_UNSIGNED, a = (uint64_t)a + (uint64_t)b) \
    X(prod, PROD, EACH_SIGNED_OR_UNSIGNED, a = (uint64_t)a * (uint64_t)b) \
    X(land, LAND, EACH_SIGNED_OR_UNSIGNED, a = a && b) \
    X(lor, LOR, EACH_SIGNED_OR_UNSIGNED, a = a || b) \
    X(lxor, LXOR, EACH_SIGNED_OR_UNSIGNED, a = !a != !b) \
    X(band, BAND, EACH_SIGNED_OR_UNSIGNED_OR_BITS, a &= b) \
    X(bor, BOR, EACH_SIGNED_OR_UNSIGNED_OR_BITS, a |= b) \
    X(bxor, BXOR, EACH_SIGNED_OR_UNSIGNED_OR_BITS, a ^= b) \
    X(lastnz, LASTNZ, EACH_SIGNED_OR_UNSIGNED, if (b) a = b) \
    X(maxloc, MAXLOC, EACH_PAIR, if (a.value < b.value || (a.value == b.value && b.index < a.index)) a = b) \
    X(minloc, MINLOC, EACH_PAIR, if (b.value < a.value || (a.value == b.value && b.index < a.index)) a = b)

/* X(word, MPI's name, bytes of an element, whether it has a sign) */
#define EACH_TYPE(X) \
    X("i8", MPI_INT8_T, 1, true) \
    X("i16", MPI_INT16_T, 2, true) \
    X("i32", MPI_INT32_T, 4, true) \
    X("i64", MPI_INT64_T, 8, true) \
    X("u8", MPI_UINT8_T, 1, false) \
    X("u16", MPI_UINT16_T, 2, false) \
    X("u32", MPI_UINT32_T, 4, false) \
    X("u64", MPI_UINT64_T, 8, false) \
    X("byte", MPI_BYTE, 1, false) \
    X("2int", MPI_2INT, 8, true)

/* X(word, constant, MPI's name, the type in C, what else is given), of elements: signed */
#define EACH_SIGNED(X, ...) \
    X(i8, INT8, MPI_INT8_T, int8_t, __VA_ARGS__) \
    X(i16, INT16, MPI_INT16_T, int16_t, __VA_ARGS__) \
    X(i32, INT32, MPI_INT32_T, int32_t, __VA_ARGS__) \
    X(i64, INT64, MPI_INT64_T, int64_t, __VA_ARGS__)

/* X(word, constant, MPI's name, the type in C, what else is given), of elements: unsigned */
#define EACH_UNSIGNED(X, ...) \
    X(u8, UINT8, MPI_UINT8_T, uint8_t, __VA_ARGS__) \
    X(u16, UINT16, MPI_UINT16_T, uint16_t, __VA_ARGS__) \
    X(u32, UINT32, MPI_UINT32_T, uint32_t, __VA_ARGS__) \
    X(u64, UINT64, MPI_UINT64_T, uint64_t, __VA_ARGS__)

/* X(word, constant, MPI's name, the type in C, what else is given), of elements: bits */
#define EACH_BITS(X, ...) \
    X(byte, BYTE, MPI_BYTE, uint8_t, __VA_ARGS__)

/* X(word, constant, MPI's name, the type in C, what else is given), of elements: pair */
#define EACH_PAIR(X, ...) \
    X(2int, 2INT, MPI_2INT, struct pair, __VA_ARGS__)

/* The same of several. */
#define EACH_SIGNED_OR_UNSIGNED(X, ...) \
    EACH_SIGNED(X, __VA_ARGS__) \
    EACH_UNSIGNED(X, __VA_ARGS__)

/* The same of several. */
#define EACH_SIGNED_OR_UNSIGNED_OR_BITS(X, ...) \
    EACH_SIGNED(X, __VA_ARGS__) \
    EACH_UNSIGNED(X, __VA_ARGS__) \
    EACH_BITS(X, __VA_ARGS__)

/* An element of 2int. */
#define PAIR struct pair { int32_t value, index; }

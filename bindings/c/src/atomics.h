/* The words that threads read and write without the lock. All loads and stores have one order (sequential consistency).
   And what the code declares to checkers of threads: Helgrind with WZ_HELGRIND, ThreadSanitizer where it compiles this. */
#ifndef WZ_ATOMICS_H
#define WZ_ATOMICS_H

#include <stdatomic.h>
#include <stddef.h>
#ifdef WZ_HELGRIND
#include <valgrind/helgrind.h>
#endif

#ifdef WZ_HELGRIND
/* Helgrind knows no atomics, so the code declares each of them. */
static inline void declare_word(atomic_int *word) { VALGRIND_HG_DISABLE_CHECKING(word, sizeof *word); }
static inline void declare_store(atomic_int *word) { ANNOTATE_HAPPENS_BEFORE(word); }
static inline void declare_load(atomic_int *word) { ANNOTATE_HAPPENS_AFTER(word); }
#else
static inline void declare_word(atomic_int *word) { (void)word; }
static inline void declare_store(atomic_int *word) { (void)word; }
static inline void declare_load(atomic_int *word) { (void)word; }
#endif

static inline int load(atomic_int *word) {
    int value = atomic_load(word);
    declare_load(word);
    return value;
}

static inline void store(atomic_int *word, int value) {
    declare_store(word);
    atomic_store(word, value);
}

static inline int swap(atomic_int *word, int value) {
    declare_store(word);
    int old = atomic_exchange(word, value);
    declare_load(word);
    return old;
}

static inline void add(atomic_int *word, int more) {
    declare_store(word);
    atomic_fetch_add(word, more);
}

#if defined(__SANITIZE_THREAD__)
#define WZ_TSAN
#elif defined(__has_feature)
#if __has_feature(thread_sanitizer)
#define WZ_TSAN
#endif
#endif

/* A call of the library outside the lock. Atomics of the library alone order what such calls do to its memory: ranks
   count the owners of a block, and publish results to each other. Both checkers see the accesses, and no such order.
   ThreadSanitizer therefore compares no access of the call, and learns which row of the caller's it wrote; Helgrind
   doesn't check the memory that such calls use (helgrind_blocks.c). */
#if defined(WZ_TSAN)
void AnnotateIgnoreWritesBegin(const char *file, int line); /* and reads */
void AnnotateIgnoreWritesEnd(const char *file, int line);
void __tsan_write_range(void *row, size_t bytes);
static inline void begin_unlocked_call(void) { AnnotateIgnoreWritesBegin(__FILE__, __LINE__); }
static inline void end_unlocked_call(void) { AnnotateIgnoreWritesEnd(__FILE__, __LINE__); }
static inline void declare_written(void *row, size_t bytes) { __tsan_write_range(row, bytes); }
#else
static inline void begin_unlocked_call(void) {}
static inline void end_unlocked_call(void) {}
static inline void declare_written(void *row, size_t bytes) { (void)row, (void)bytes; }
#endif

/* Lets the processor's other hardware thread run, where it has one. */
static inline void pause_processor(void) {
#if defined(__x86_64__) || defined(__i386__)
    __builtin_ia32_pause();
#elif defined(__aarch64__)
    __asm__ __volatile__("yield");
#endif
}

#endif

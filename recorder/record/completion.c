/* Starts, completions and ends of requests. */
#include "entries.h"
#include "log.h"

#include <stdio.h>
#include <stdlib.h>
#include <string.h>

static unsigned long namings; /* how many calls have named requests */

static bool is_collective(const struct request *it) { return it && it->number != NO_REQUEST; }

/* Starts */

static void write_start(const MPI_Request *handle) {
    struct request *it = request_of(handle, ++namings);
    if (!it)
        return;
    it->active = true;
    if (!is_collective(it)) {
        it->awaited.index = now_count(it->awaited);
        message_started(it);
        return;
    }
    begin_command();
    log_text("start ");
    log_signed(it->number);
    write_gift(&it->gift);
}

INTERPOSED(MPI_Start, (MPI_Request * request), (request)) {
    log_lock();
    write_start(request);
    log_unlock();
    return next_MPI_Start(request);
}

INTERPOSED(MPI_Startall, (int count, MPI_Request *requests), (count, requests)) {
    log_lock();
    for (int place = 0; place < count; place++)
        write_start(&requests[place]);
    log_unlock();
    return next_MPI_Startall(count, requests);
}

INTERPOSED(MPI_Request_free, (MPI_Request * request), (request)) {
    log_lock();
    struct request *it = request_of(request, ++namings);
    if (is_collective(it)) {
        begin_command();
        write_numbered("free", it->number);
    }
    if (it)
        request_gone(it);
    log_unlock();
    return next_MPI_Request_free(request);
}

/* What a completion call names */

/* The requests that are followed, each at its place in the call, the others null. */
struct named {
    int count;
    struct request **requests;
    struct request *one;
};

/* Says of each active request that the call waits for it. */
static void await_requests(const struct named *named, const MPI_Request *handles) {
    for (int place = 0; place < named->count; place++) {
        struct request *it = named->requests[place];
        if (it && it->active)
            now_awaits(it->awaited);
        else if (!it && handles[place] != MPI_REQUEST_NULL) {
            now_awaits((struct awaited){.kind = AWAITED_OTHER});
            now_elsewhere();
        }
    }
}

/* A call of one request needs no memory. */
static void name_requests(struct named *named, int count, const MPI_Request *handles) {
    named->count = count > 0 ? count : 0;
    named->requests = count == 1 ? &named->one : calloc((size_t)named->count + 1, sizeof(struct request *));
    if (!named->requests) {
        fprintf(stderr, "record: no memory\n");
        abort();
    }
    namings++;
    for (int place = 0; place < named->count; place++)
        named->requests[place] = request_of(&handles[place], namings);
    await_requests(named, handles);
}

/* One line before the call, with the numbers of all collectives that it names. */
static void write_wait(struct named *named, const char *word, int count, const MPI_Request *handles) {
    log_lock();
    name_requests(named, count, handles);
    bool begun = false;
    for (int place = 0; place < named->count; place++)
        if (is_collective(named->requests[place])) {
            if (!begun) {
                begin_command();
                log_text(word);
            }
            begun = true;
            log_text(" ");
            log_signed(named->requests[place]->number);
        }
    if (begun)
        log_text("\n");
    if (!strcmp(word, "wait") || !strcmp(word, "waitall"))
        messages_awaited(named->count, named->requests);
    log_unlock();
}

/* A `test` for each, but in a row of tests only the first of each: a program may ask a million times. */
static void write_tests(struct named *named, int count, const MPI_Request *handles) {
    log_lock();
    name_requests(named, count, handles);
    bool begun = false;
    for (int place = 0; place < named->count; place++) {
        struct request *it = named->requests[place];
        if (!is_collective(it))
            continue;
        if (it->asked == row + 1) {
            unwritten++;
            it->unwritten++;
            continue;
        }
        if (!begun) {
            log_thread();
            log_place(here);
        }
        begun = true;
        it->asked = row + 1;
        it->unwritten = 0;
        write_numbered("test", it->number);
    }
    log_unlock();
}

/* What a completion call did */

/* That a test completed a request, and of a persistent one a wait: only `wait` and `waitall` make it startable in a text. The row of tests goes
   on, so what is counted stays. */
static void write_completed(struct request *it, bool tested) {
    log_thread();
    log_place(here);
    if (tested && it->unwritten > 0) {
        unwritten--;
        write_numbered("test", it->number);
    }
    if (tested)
        write_numbered("tested", it->number);
    if (!it->persistent)
        return;
    log_text("# the call above completed this persistent request\n");
    write_numbered("wait", it->number);
}

static void complete(struct request *it, bool written, bool tested) {
    if (written && is_collective(it))
        write_completed(it, tested);
    else if (written && it)
        message_completed(it);
    if (it && it->persistent)
        it->active = false;
}

/* A request whose handle is gone is complete. A library may say only now what a communicator under way is. */
static void settle(struct named *named, const MPI_Request *handles) {
    for (int place = 0; place < named->count; place++) {
        struct request *it = named->requests[place];
        if (!it || it->persistent || handles[place] != MPI_REQUEST_NULL)
            continue;
        if (it->made && it->key) {
            log_place(here);
            communicator_made(it->comm == MPI_COMM_NULL ? *it->made : it->comm, it->key, "MPI_Comm_idup");
        }
        request_gone(it);
    }
    if (named->requests != &named->one)
        free(named->requests);
}

/* Whether a call says what it has completed. */
static bool says(int result) {
    int class = MPI_SUCCESS;
    if (result != MPI_SUCCESS)
        PMPI_Error_class(result, &class);
    return class == MPI_SUCCESS || class == MPI_ERR_IN_STATUS;
}

/* Ends a call that has completed the requests at these places. */
static void completed(struct named *named, const MPI_Request *handles, int count, const int *places, bool tested) {
    log_lock();
    for (int done = 0; done < count; done++)
        complete(named->requests[places[done]], true, tested);
    settle(named, handles);
    log_unlock();
}

/* The same of a call that has completed all of its requests or none. */
static void completed_all(struct named *named, const MPI_Request *handles, bool tested, bool done) {
    log_lock();
    for (int place = 0; done && place < named->count; place++)
        complete(named->requests[place], tested, tested);
    settle(named, handles);
    log_unlock();
}

/* The calls */

INTERPOSED(MPI_Wait, (MPI_Request * request, MPI_Status *status), (request, status)) {
    struct named named;
    write_wait(&named, "wait", 1, request);
    int result = next_MPI_Wait(request, status);
    completed_all(&named, request, false, result == MPI_SUCCESS);
    return result;
}

INTERPOSED(MPI_Waitall, (int count, MPI_Request *requests, MPI_Status *statuses), (count, requests, statuses)) {
    struct named named;
    write_wait(&named, "waitall", count, requests);
    int result = next_MPI_Waitall(count, requests, statuses);
    completed_all(&named, requests, false, result == MPI_SUCCESS);
    return result;
}

INTERPOSED(MPI_Waitany, (int count, MPI_Request *requests, int *place, MPI_Status *status), (count, requests, place, status)) {
    struct named named;
    now_any();
    write_wait(&named, "waitany", count, requests);
    int result = next_MPI_Waitany(count, requests, place, status);
    completed(&named, requests, says(result) && *place != MPI_UNDEFINED && *place >= 0 && *place < count, place, false);
    return result;
}

INTERPOSED(MPI_Waitsome, (int count, MPI_Request *requests, int *done, int *places, MPI_Status *statuses),
           (count, requests, done, places, statuses)) {
    struct named named;
    now_any();
    write_wait(&named, "waitsome", count, requests);
    int result = next_MPI_Waitsome(count, requests, done, places, statuses);
    completed(&named, requests, !says(result) || *done == MPI_UNDEFINED ? 0 : *done, places, false);
    return result;
}

INTERPOSED(MPI_Test, (MPI_Request * request, int *flag, MPI_Status *status), (request, flag, status)) {
    struct named named;
    write_tests(&named, 1, request);
    int result = next_MPI_Test(request, flag, status);
    completed_all(&named, request, true, says(result) && *flag);
    return result;
}

INTERPOSED(MPI_Testall, (int count, MPI_Request *requests, int *flag, MPI_Status *statuses), (count, requests, flag, statuses)) {
    struct named named;
    write_tests(&named, count, requests);
    int result = next_MPI_Testall(count, requests, flag, statuses);
    completed_all(&named, requests, true, says(result) && *flag);
    return result;
}

INTERPOSED(MPI_Testany, (int count, MPI_Request *requests, int *place, int *flag, MPI_Status *status),
           (count, requests, place, flag, status)) {
    struct named named;
    write_tests(&named, count, requests);
    int result = next_MPI_Testany(count, requests, place, flag, status);
    completed(&named, requests, says(result) && *flag && *place != MPI_UNDEFINED, place, true);
    return result;
}

INTERPOSED(MPI_Testsome, (int count, MPI_Request *requests, int *done, int *places, MPI_Status *statuses),
           (count, requests, done, places, statuses)) {
    struct named named;
    write_tests(&named, count, requests);
    int result = next_MPI_Testsome(count, requests, done, places, statuses);
    completed(&named, requests, !says(result) || *done == MPI_UNDEFINED ? 0 : *done, places, true);
    return result;
}

/* Refusals and collectives in sentences. */
#include "combiner.h"

#include <stdarg.h>
#include <stdio.h>

void write_text(struct text *text, const char *format, ...) {
    size_t room = text->length < text->size ? text->size - text->length : 0;
    va_list values;
    va_start(values, format);
    int written = vsnprintf(room > 0 ? text->at + text->length : NULL, room, format, values);
    va_end(values);
    if (written > 0) text->length += (size_t)written;
}

/* The counts up to the last that isn't 0. */
static void write_counts(struct text *text, const uint32_t *counts) {
    int last = 63;
    while (last > 0 && counts[last] == 0) last--;
    write_text(text, ", counts");
    for (int i = 0; i <= last; i++) write_text(text, " %lu", (unsigned long)counts[i]);
}

/* A collective with what its kind has: its counts too, where they are known. */
static void write_collective(struct text *text, const wz_call *call, bool persistent, const uint32_t *counts) {
    write_text(text, "%s%s", persistent ? "persistent " : "", wz_kind_word(call->kind));
    if (call->kind == WZ_BARRIER) return;
    if (wz_has_operation(call->kind) || call->op != WZ_NO_OPERATION)
        write_text(text, ", %s", wz_operation_word(call->op));
    write_text(text, ", %s", wz_type_word(call->type));
    if (wz_has_root(call->kind) || call->root != 0) write_text(text, ", root %u", call->root);
    if (call->kind != WZ_ALLGATHERV)
        write_text(text, ", count %lu", (unsigned long)call->count);
    else if (counts != NULL)
        write_counts(text, counts);
}

int wz_describe(const wz_posted *posted, char *at, size_t size) {
    struct text text = { at, size, 0 };
    write_collective(&text, &posted->call, posted->persistent, posted->counts);
    return (int)text.length;
}

void write_stall(struct text *text, const wz_reason *reason) {
    if (reason->want == 0) {
        write_text(text, "rank %u waits", reason->rank);
        return;
    }
    write_text(text, "rank %u waits at place %lu of communicator %lu (", reason->rank, (unsigned long)reason->place,
               (unsigned long)reason->comm);
    write_collective(text, &reason->call, reason->persistent, NULL);
    write_text(text, ") for rank %u", reason->first);
    if (reason->want > 1) write_text(text, " and %lu more", (unsigned long)reason->want - 1);
}

int wz_explain(const wz_reason *reason, char *at, size_t size) {
    static const char *const rules[] = { "", "the root isn't a member, or isn't 0 for a collective without a root",
                                         "the operation is missing, isn't for that type, or is one too many",
                                         "a count is above 65,536, or one is given that has no meaning",
                                         "some member gives or gets more than 16,777,216 bytes" };
    static const char *const fields[] = { "", "number of ranks", "communicators", "slots", "places", "wear", "starts" };
    struct text text = { at, size, 0 };
    if (reason->code == WZ_BAD_COMM) {
        write_text(&text, "there is no communicator %lu", (unsigned long)reason->comm);
    } else if (reason->code == WZ_NOT_MEMBER) {
        write_text(&text, "rank %u isn't in the communicator's group", reason->rank);
    } else if (reason->code == WZ_BAD_SIGNATURE && reason->cause >= WZ_RULE_ROOT && reason->cause <= WZ_RULE_SIZE) {
        write_text(&text, "%s", rules[reason->cause]);
    } else if (reason->code == WZ_BAD_LENGTH) {
        write_text(&text, "%lu bytes are due, not %lu", (unsigned long)reason->want, (unsigned long)reason->got);
    } else if (reason->code == WZ_MISMATCH) {
        write_text(&text, "at place %lu rank %u has another collective: ", (unsigned long)reason->place, reason->first);
        write_collective(&text, &reason->call, reason->persistent, NULL);
    } else if (reason->code == WZ_BAD_CONFIG && reason->cause >= WZ_FIELD_RANKS && reason->cause <= WZ_FIELD_STARTS) {
        write_text(&text, "what is given as %s is out of its range", fields[reason->cause]);
    } else if (reason->code == WZ_STALLED && reason->want > 0) {
        write_text(&text, "no wait can end: ");
        write_stall(&text, reason);
    } else {
        write_text(&text, "%s", reason->code == 0 ? "no call was refused" : wz_message(reason->code));
    }
    return (int)text.length;
}

static void write_operation(struct text *text, const wz_call *call) {
    const char *kind = wz_kind_word(call->kind), *op = wz_operation_word(call->op), *type = wz_type_word(call->type);
    if (!wz_has_operation(call->kind))
        write_text(text, "%s has no operation, and %s is given", kind, op);
    else if (call->op == WZ_NO_OPERATION)
        write_text(text, "%s has an operation, and none is given", kind);
    else
        write_text(text, "the operation %s isn't for the type %s", op, type);
}

/* Two allgathervs that differ in a count alone: the first such member. */
static bool write_member(struct text *text, const wz_reason *reason, const wz_posted *mine, const wz_posted *theirs) {
    int member = 0;
    if (mine->call.kind != WZ_ALLGATHERV || theirs->call.kind != WZ_ALLGATHERV || mine->call.type != theirs->call.type)
        return false;
    if (mine->persistent != theirs->persistent) return false;
    while (member < 64 && mine->counts[member] == theirs->counts[member]) member++;
    if (member == 64) return false;
    write_text(text, "at place %lu the allgatherv of rank %u has the count %lu for member %d, and this one %lu",
               (unsigned long)reason->place, reason->first, (unsigned long)theirs->counts[member], member,
               (unsigned long)mine->counts[member]);
    return true;
}

int wz_explain_call(const wz_reason *reason, const wz_posted *mine, const wz_posted *theirs, char *at, size_t size) {
    struct text text = { at, size, 0 };
    if (reason->code == WZ_BAD_SIGNATURE && reason->cause == WZ_RULE_OPERATION) {
        write_operation(&text, &mine->call);
    } else if (reason->code == WZ_MISMATCH) {
        if (theirs != NULL && write_member(&text, reason, mine, theirs)) return (int)text.length;
        write_text(&text, "at place %lu rank %u has ", (unsigned long)reason->place, reason->first);
        write_collective(&text, &reason->call, reason->persistent, theirs != NULL ? theirs->counts : NULL);
        write_text(&text, ", and this is ");
        write_collective(&text, &mine->call, mine->persistent, mine->counts);
    } else {
        return wz_explain(reason, at, size);
    }
    return (int)text.length;
}

int wz_explain_post(wz_engine *engine, uint32_t comm, const wz_posted *mine, char *at, size_t size) {
    wz_posted theirs;
    bool has_place =
        engine->reason.code == WZ_MISMATCH && wz_posted_at(engine, comm, engine->reason.place, &theirs) == WZ_DONE;
    return wz_explain_call(&engine->reason, mine, has_place ? &theirs : NULL, at, size);
}

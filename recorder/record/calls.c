#include "calls.h"

#include "job_words.h"
#include "log.h"
#include "types.h"

#include <stdint.h>
#include <string.h>

long count_at(struct counts counts, int member) {
    return counts.width == sizeof(int) ? ((const int *)counts.first)[member] : (long)((const MPI_Count *)counts.first)[member];
}

/* A type's line stands above the line that has its number. */
static void write_types(const struct side *side, int members) {
    if (!side->stands)
        return;
    for (int member = 0; side->types && member < members; member++)
        type_of(side->types[member]);
    if (!side->types)
        type_of(side->type);
}

static void write_type(MPI_Datatype handle) {
    const struct type *type = type_of(handle);
    log_signed(type ? type->number : -1);
    log_text("*");
}

static void write_side(const char *letter, const struct side *side, int members) {
    if (!side->stands)
        return;
    log_text(letter);
    if (!side->types)
        write_type(side->type);
    if (!side->counts.first)
        log_signed(side->count);
    for (int member = 0; side->counts.first && member < members; member++) {
        if (member)
            log_text(side->types ? ";" : ",");
        if (side->types)
            write_type(side->types[member]);
        log_signed(count_at(side->counts, member));
    }
    if (side->counts.first)
        log_text(side->types ? ";" : ",");
}

struct gift write_call(const struct call *call) {
    const char form[] = {' ', call->form, ' ', 0};
    int members = call->context->size, op = call->op == MPI_OP_NULL ? -1 : operation_of(call->op);
    const struct type *type = type_of(call->type);
    write_types(&call->sent, members);
    write_types(&call->got, members);
    log_text("call ");
    log_signed(call->context->number);
    log_text(form);
    log_text(call->name);
    if (call->root != NO_ROOT) {
        log_text(" r");
        log_signed(call->root);
    }
    if (op >= 0) {
        log_text(" o");
        log_signed(op);
    }
    write_side(" s", &call->sent, members);
    write_side(" g", &call->got, members);
    call->context->calls++;
    bool stands = type && type->exact && call->given && call->given != MPI_IN_PLACE && call->count >= 0 && call->count <= MOST_VALUES;
    return (struct gift){stands ? type->word : NULL, call->given, call->count, call->blocks};
}

#define SIGNED(name, constant, mpi, ctype, ...)                                                                                             \
    if (!strcmp(word, #name))                                                                                                                \
        log_signed(((const ctype *)given)[place]);                                                                                          \
    else
#define UNSIGNED(name, constant, mpi, ctype, ...)                                                                                           \
    if (!strcmp(word, #name))                                                                                                                \
        log_unsigned(((const ctype *)given)[place]);                                                                                        \
    else

static void write_value(const char *word, const void *given, long place) {
    EACH_SIGNED(SIGNED, )
    EACH_UNSIGNED(UNSIGNED, )
    if (!strcmp(word, "2int")) {
        log_signed(((const int *)given)[2 * place]);
        log_text(",");
        log_signed(((const int *)given)[2 * place + 1]);
    } else
        log_unsigned(((const uint8_t *)given)[place]);
}

static void write_values(const char *word, const void *given, long count) {
    for (long place = 0; place < count; place++) {
        log_text(" ");
        write_value(word, given, place);
    }
}

void write_gift(const struct gift *gift) {
    if (gift->blocks > 0 && gift->word) {
        log_text(" :");
        write_values(gift->word, gift->given, gift->count * gift->blocks);
    } else if (gift->blocks > 0) {
        log_text(" ~ ");
        log_signed(gift->blocks);
    }
    log_text("\n");
}

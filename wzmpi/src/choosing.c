/* The calls that choose what they complete: tests, and waits for any or some. */
#include "completion.h"
#include "record.h"
#include "schedule.h"
#include "test_loops.h"

/* A call that chooses. */
struct choice {
    const char *call, *word; /* word: of the wait that stands for it in the text */
    struct list *list;
    struct choosing *line; /* in the text, of a wait */
    long step;
    struct plan plan;
};

/* How many requests of a list are active, and those of them that are done, or are chosen. */
struct found {
    int active, many, *done, few[32];
};

static bool is_over(const struct request *request) { return request == NULL || !request->active; }

static struct choice begin_choice(struct list *list, const char *word, const char *call) {
    return (struct choice){ .call = call, .word = word, .list = list, .plan = next_planned(call), .step = keep_begun(call) };
}

static void make_room(struct found *found, int many) { found->done = many <= 32 ? found->few : must(malloc(sizeof *found->done * (size_t)many)); }

static void give_up_found(struct found *found) {
    if (found->done != found->few) free(found->done);
}

static void find_done(struct found *found, const struct list *list) {
    found->active = found->many = 0;
    for (int i = 0; i < list->many; i++) {
        if (is_over(list->at[i])) continue;
        found->active++;
        if (is_done(list->at[i])) found->done[found->many++] = i;
    }
}

static void begin_found(struct found *found, const struct list *list) {
    make_room(found, list->many);
    find_done(found, list);
}

/* Those that the plan names, once they are done. */
static void find_planned(const struct choice *choice, struct found *found) {
    wait_for_planned(&choice->plan, choice->list->at, choice->list->many, choice->call);
    found->many = choice->plan.many; /* each is one of the list, and another one */
    memcpy(found->done, choice->plan.indices, sizeof *found->done * (size_t)found->many);
}

/* Notes what the call completes, before it does. */
static void note_choice(struct choice *choice, const struct found *found) {
    const struct list *list = choice->list;
    if (choice->line == NULL) choice->line = record_choosing(choice->word, list->at, list->handles, list->many, choice->call, false);
    keep_completed(choice->step, found->done, found->many);
    record_chosen(choice->line, found->done, found->many, choice->step);
}

static void note_nothing(const struct choice *choice) { keep_completed(choice->step, NULL, 0); }

/* ---- tests */

/* Under --seed a test now and then says that nothing is done yet, as it may. */
static bool holds_back(void) { return draw_number(4) == 1; }

/* Whether a test says that something is done, if at least this number has to be. */
static bool says_yes(const struct choice *choice, struct found *found, int least, bool may_hold_back) {
    switch (choice->plan.what) {
    case NOTHING: return false;
    case SOME: find_planned(choice, found); return true;
    case WAITS: misfit(&choice->plan, choice->call, "it doesn't wait");
    case SOURCE: misfit(&choice->plan, choice->call, "it receives nothing");
    default: return found->many >= least && !(may_hold_back && holds_back());
    }
}

int MPI_Test(MPI_Request *handle, int *flag, MPI_Status *status) {
    struct list list;
    int code = read_single(&list, handle, "MPI_Test");
    *flag = code == MPI_SUCCESS && is_over(list.at[0]);
    if (code != MPI_SUCCESS || *flag) {
        empty_status(status);
        return code;
    }
    struct choice choice = begin_choice(&list, "wait", "MPI_Test");
    struct found found;
    begin_found(&found, &list);
    *flag = says_yes(&choice, &found, 1, true);
    if (*flag) {
        note_choice(&choice, &found);
        code = complete_one(&list, 0, status, "MPI_Test");
    } else {
        note_nothing(&choice);
        test_in_vain("MPI_Test", list.at, 1);
    }
    give_up_found(&found);
    return code;
}

int MPI_Request_get_status(MPI_Request handle, int *flag, MPI_Status *status) {
    const char *call = "MPI_Request_get_status";
    struct list list;
    int code = read_single(&list, &handle, call);
    struct request *request = list.at[0];
    *flag = code == MPI_SUCCESS && is_over(request);
    if (code == MPI_SUCCESS && !*flag) {
        struct choice choice = begin_choice(&list, NULL, call);
        struct found found;
    begin_found(&found, &list);
        *flag = says_yes(&choice, &found, 1, false);
        keep_completed(choice.step, found.done, *flag ? 1 : 0);
        if (!*flag) test_in_vain(call, list.at, 1);
        give_up_found(&found);
    }
    if (!*flag || is_over(request)) empty_status(status);
    else show_status(request, status);
    return code;
}

int MPI_Testall(int many, MPI_Request handles[], int *flag, MPI_Status statuses[]) {
    struct list list;
    int code = read_list(&list, many, handles, "MPI_Testall");
    *flag = code == MPI_SUCCESS;
    if (code != MPI_SUCCESS) return code;
    struct choice choice = begin_choice(&list, "waitall", "MPI_Testall");
    struct found found;
    begin_found(&found, &list);
    *flag = found.active == 0 || says_yes(&choice, &found, found.active, false);
    if (*flag) {
        note_choice(&choice, &found);
        code = complete_all(&list, statuses, "MPI_Testall");
    } else {
        int lacking = 0;
        while (lacking + 1 < many && (is_over(list.at[lacking]) || is_done(list.at[lacking]))) lacking++;
        note_nothing(&choice);
        test_in_vain("MPI_Testall", &list.at[lacking], 1);
    }
    give_up_found(&found);
    give_up_list(&list);
    return code;
}

/* ---- one or some of several */

/* Waits until one of the list is done, or what the plan names. */
static void wait_for_some(struct choice *choice, struct found *found) {
    struct list *list = choice->list;
    hold_up();
    choice->line = record_choosing(choice->word, list->at, list->handles, list->many, choice->call, true);
    enum planned what = choice->plan.what;
    begin_found(found, list);
    if (what == SOME) find_planned(choice, found);
    if (what == SOURCE) misfit(&choice->plan, choice->call, "it receives nothing");
    if (what == NOTHING && found->active > 0) misfit(&choice->plan, choice->call, "some of its list are active");
    while (found->active > 0 && found->many == 0) {
        wait_for(choice->call, list->at, list->many, true);
        find_done(found, list);
    }
    if (what == WAITS) misfit(&choice->plan, choice->call, found->active > 0 ? "one of its list is done" : "none of its list is active");
}

/* One of the requests that are done; under --seed any. */
static void choose_one(const struct choice *choice, struct found *found) {
    if (choice->plan.what == SOME && found->many > 1) misfit(&choice->plan, choice->call, "it completes one request");
    found->done[0] = found->done[draw_number((uint32_t)found->many)];
    found->many = 1;
}

/* All that are done; under --seed some, though one at least. */
static void choose_some(const struct choice *choice, struct found *found) {
    if (choice->plan.what == SOME) return;
    int surely = (int)draw_number((uint32_t)found->many), kept = 0;
    for (int i = 0; i < found->many; i++)
        if (i == surely || draw_number(2) != 1) found->done[kept++] = found->done[i];
    found->many = kept;
}

static int take_one(struct choice *choice, struct found *found, int *index, MPI_Status *status) {
    choose_one(choice, found);
    note_choice(choice, found);
    *index = found->done[0];
    return complete_one(choice->list, *index, status, choice->call);
}

static int take_some(struct choice *choice, struct found *found, int *taken, int indices[], MPI_Status statuses[]) {
    int code = MPI_SUCCESS;
    choose_some(choice, found);
    note_choice(choice, found);
    *taken = found->many;
    for (int i = 0; i < found->many; i++) {
        indices[i] = found->done[i];
        MPI_Status *status = status_at(statuses, i);
        note_error(&code, complete_one(choice->list, found->done[i], status, choice->call), status);
    }
    return code;
}

int MPI_Waitany(int many, MPI_Request handles[], int *index, MPI_Status *status) {
    struct list list;
    int code = read_list(&list, many, handles, "MPI_Waitany");
    if (code != MPI_SUCCESS) return code;
    struct choice choice = begin_choice(&list, "waitany", "MPI_Waitany");
    struct found found;
    wait_for_some(&choice, &found);
    *index = MPI_UNDEFINED;
    if (found.active > 0) code = take_one(&choice, &found, index, status);
    else {
        note_choice(&choice, &found);
        empty_status(status);
    }
    give_up_found(&found);
    give_up_list(&list);
    return code;
}

int MPI_Waitsome(int many, MPI_Request handles[], int *taken, int indices[], MPI_Status statuses[]) {
    struct list list;
    int code = read_list(&list, many, handles, "MPI_Waitsome");
    if (code != MPI_SUCCESS) return code;
    struct choice choice = begin_choice(&list, "waitsome", "MPI_Waitsome");
    struct found found;
    wait_for_some(&choice, &found);
    *taken = MPI_UNDEFINED;
    if (found.active > 0) code = take_some(&choice, &found, taken, indices, statuses);
    else note_choice(&choice, &found);
    give_up_found(&found);
    give_up_list(&list);
    return code;
}

int MPI_Testany(int many, MPI_Request handles[], int *index, int *flag, MPI_Status *status) {
    struct list list;
    int code = read_list(&list, many, handles, "MPI_Testany");
    if (code != MPI_SUCCESS) return code;
    struct choice choice = begin_choice(&list, "waitany", "MPI_Testany");
    struct found found;
    begin_found(&found, &list);
    *index = MPI_UNDEFINED;
    *flag = says_yes(&choice, &found, 1, true);
    if (*flag) code = take_one(&choice, &found, index, status);
    else note_nothing(&choice);
    if (!*flag && found.active > 0) test_in_vain("MPI_Testany", list.at, many);
    if (found.active == 0) {
        *flag = true;
        empty_status(status);
    }
    give_up_found(&found);
    give_up_list(&list);
    return code;
}

int MPI_Testsome(int many, MPI_Request handles[], int *taken, int indices[], MPI_Status statuses[]) {
    struct list list;
    int code = read_list(&list, many, handles, "MPI_Testsome");
    if (code != MPI_SUCCESS) return code;
    struct choice choice = begin_choice(&list, "waitsome", "MPI_Testsome");
    struct found found;
    begin_found(&found, &list);
    *taken = found.active == 0 ? MPI_UNDEFINED : 0;
    if (says_yes(&choice, &found, 1, true)) code = take_some(&choice, &found, taken, indices, statuses);
    else note_nothing(&choice);
    if (*taken == 0) test_in_vain("MPI_Testsome", list.at, many);
    give_up_found(&found);
    give_up_list(&list);
    return code;
}

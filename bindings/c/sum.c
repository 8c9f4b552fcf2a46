/* Four ranks, each a thread, that sum their numbers: the program of docs/C.md. */
#include <stdio.h>

#include "worzsunab_threads.h"

static wz_shared ranks;

/* What one rank does. */
static int32_t sum_up(uint8_t me) {
    int32_t mine = me + 1, sum = 0;
    wz_request request;
    int32_t code = wz_iallreduce(&ranks, me, 0, &mine, &sum, 1, WZ_INT32, WZ_SUM, &request);
    if (code != WZ_DONE) return code;
    /* The sum is under way: here the rank computes something else. */
    code = wz_wait(&ranks, me, &request);
    if (code == WZ_DONE && me == 0) printf("%d\n", (int)sum);
    return code;
}

static void *rank(void *number) {
    uint8_t me = (uint8_t)(size_t)number;
    char text[400];
    if (sum_up(me) != WZ_DONE && wz_shared_explain(&ranks, me, text, sizeof text) > 0) fprintf(stderr, "rank %d: %s\n", me, text);
    wz_shared_leave(&ranks, me); /* on every way out: else the others would wait for this rank for ever */
    return NULL;
}

int main(void) {
    pthread_t threads[4];
    if (wz_shared_open_world(&ranks, 4) != WZ_DONE) return 1;
    for (size_t i = 0; i < 4; i++) pthread_create(&threads[i], NULL, rank, (void *)i);
    for (size_t i = 0; i < 4; i++) pthread_join(threads[i], NULL);
    return wz_shared_close(&ranks);
}

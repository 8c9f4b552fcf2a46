/* Colours of what is told, as colljob has them: where standard error is a terminal that isn't dumb and NO_COLOR isn't set, or as --color says. */
#include "diagnostics.h"

#include <unistd.h>

static bool is_set(const char *variable) {
    const char *value = getenv(variable);
    return value != NULL && value[0] != '\0';
}

static bool has_colours(void) {
    static int known; /* 1: it hasn't, 2: it has */
    const char *terminal = getenv("TERM");
    bool dumb = terminal == NULL || strcmp(terminal, "dumb") == 0 || terminal[0] == '\0';
    if (known == 0) known = isatty(2) && !dumb && !is_set("NO_COLOR") ? 2 : 1;
    return the_run.colours == ALWAYS || (the_run.colours == AUTOMATIC && known == 2);
}

const char *fault_head(void) { return has_colours() ? "\033[1;31mwzrun\033[0m" : "wzrun"; }

const char *warning_head(void) { return has_colours() ? "\033[1;33mwzrun: warning\033[0m" : "wzrun: warning"; }

#include <stdio.h>
#include <stdlib.h>
#include <string.h>

struct entry { char *name; char *value; };

/* Split "name = value" into a new entry; NULL if it has no '=' or memory is refused. */
struct entry *entry_of(const char *line) {
    struct entry *e = calloc(1, sizeof *e);
    const char *sign;
    int goto_failed = 0;
    goto_failed = !e;
    if (!goto_failed) {
        sign = strchr(line, '=');
        goto_failed = !sign;
        if (!goto_failed) {
            e->name = strndup(line, sign - line);
            e->value = strdup(sign + 1);
            if (e->name && e->value) {
                return e;
            }
        }
    }
    goto_failed = 0;
    if (e) { free(e->name); free(e->value); }
    free(e);
    return NULL;
}

#include <stdio.h>
#include <stdlib.h>
#include <string.h>

struct entry { char *name; char *value; };

/* Split "name = value" into a new entry; NULL if it has no '=' or memory is refused. */
struct entry *entry_of(const char *line) {
    struct entry *e = calloc(1, sizeof *e);
    if (!e) goto failed;
    const char *sign = strchr(line, '=');
    if (!sign) goto failed;
    e->name = strndup(line, sign - line);
    e->value = strdup(sign + 1);
    if (e->name && e->value) return e;
failed:
    if (e) { free(e->name); free(e->value); }
    free(e);
    return NULL;
}

/* A parser of settings: NAME = VALUE ; with quoted values and comments, over a pointer into the text. */
#include <ctype.h>
#include <stdio.h>
#include <string.h>

struct setting {
    char name[16];
    char value[32];
};

/* Reads one setting at *at, moves *at behind it. Returns 1, 0 at the end of the text, -1 at an error. */
static int read_setting(const char **at, struct setting *out, int *line) {
    const char *p = *at;
    size_t used = 0;
    int goto_skip = 0;
    int goto_end = 0;
    int goto_bad = 0;
    memset(out, 0, sizeof *out);
    do {
        goto_skip = 0;
        while (isspace((unsigned char)*p))
            if (*p++ == '\n') ++*line;
        if (*p == '#') {
            while (*p && *p != '\n') p++;
            /* there may be more comments */
            goto_skip = 1;
        }
    } while (goto_skip);
    *at = p;
    if (!*p) {
        return 0;
    }
    while (!goto_bad && isalnum((unsigned char)*p)) {
        goto_bad = used + 1 == sizeof out->name;
        if (!goto_bad) {
            out->name[used++] = *p++;
        }
    }
    if (!goto_bad) {
        goto_bad = !used;
        if (!goto_bad) {
            p += strspn(p, " \t");
            goto_bad = *p++ != '=';
            if (!goto_bad) {
                p += strspn(p, " \t");
                used = 0;
                if (*p == '"') {
                    p++;
                    while (!goto_bad && *p != '"') {
                        goto_bad = !*p || used + 1 == sizeof out->value;
                        if (!goto_bad) {
                            out->value[used++] = *p;
                            p++;
                        }
                    }
                    if (!goto_bad) {
                        p++;
                        goto_end = 1;
                    }
                }
                if (goto_end || !goto_bad) {
                    if (!goto_end) {
                        while (*p && *p != ';' && used + 1 < sizeof out->value) out->value[used++] = *p++;
                    }
                    goto_end = 0;
                    p += strspn(p, " \t");
                    goto_bad = *p != ';';
                    if (!goto_bad) {
                        *at = p + 1;
                        return 1;
                    }
                }
            }
        }
    }
    goto_bad = 0;
    *at = p;
    return -1;
}

int main(void) {
    const char *text = "# settings\ncolour = red;\n name=\"a; b\" ;\n# more\n\nlast = 3; wrong ? 4;";
    struct setting it;
    int line = 1, got;
    while ((got = read_setting(&text, &it, &line)) > 0) printf("%d: %s is [%s]\n", line, it.name, it.value);
    printf("%s in line %d at '%.5s'\n", got ? "error" : "end", line, text);
    return got ? 1 : 0;
}

/* A parser of settings: NAME = VALUE ; with quoted values and comments, over a pointer into the text. */
#include <ctype.h>
#include <stdio.h>
#include <string.h>

struct setting {
    char name[16];
    char value[32];
};

/* Reads one setting at *at, moves *at behind it. Returns 1, 0 at the end of the text, -1 at an error. */
static int read_setting(const char **at, struct setting *out, int *line) {
    const char *p = *at;
    size_t used = 0;
    memset(out, 0, sizeof *out);
skip:
    while (isspace((unsigned char)*p))
        if (*p++ == '\n') ++*line;
    if (*p == '#') {
        while (*p && *p != '\n') p++;
        goto skip;  /* there may be more comments */
    }
    *at = p;
    if (!*p) return 0;
    while (isalnum((unsigned char)*p)) {
        if (used + 1 == sizeof out->name) goto bad;
        out->name[used++] = *p++;
    }
    if (!used) goto bad;
    p += strspn(p, " \t");
    if (*p++ != '=') goto bad;
    p += strspn(p, " \t");
    used = 0;
    if (*p == '"') {
        for (p++; *p != '"'; p++) {
            if (!*p || used + 1 == sizeof out->value) goto bad;
            out->value[used++] = *p;
        }
        p++;
        goto end;
    }
    while (*p && *p != ';' && used + 1 < sizeof out->value) out->value[used++] = *p++;
end:
    p += strspn(p, " \t");
    if (*p != ';') goto bad;
    *at = p + 1;
    return 1;
bad:
    *at = p;
    return -1;
}

int main(void) {
    const char *text = "# settings\ncolour = red;\n name=\"a; b\" ;\n# more\n\nlast = 3; wrong ? 4;";
    struct setting it;
    int line = 1, got;
    while ((got = read_setting(&text, &it, &line)) > 0) printf("%d: %s is [%s]\n", line, it.name, it.value);
    printf("%s in line %d at '%.5s'\n", got ? "error" : "end", line, text);
    return got ? 1 : 0;
}

/* Checks a header; one text for builds that are strict, that trace, and that do neither. */
#include <stdio.h>

struct header {
    const unsigned char *bytes;
    int size;
    const char *why;
};

int check(struct header *head)
{
    int leave;
    int at = 0;
    int goto_bad = 0;

    goto_bad = head->size < 2;
    if (!goto_bad) {
        leave = 0;
#ifdef STRICT
        if (head->size > 64)
            leave = 1;
        if (!leave) {
            while (at < head->size) {
                if (head->bytes[at++] == 0)
                    { leave = 1; break; }
            }
        }
#endif
        goto_bad = leave != 0;
        if (!goto_bad) {
            head->why = NULL;
            if (head->bytes[0] == '#')
                at++;
            return at;
        }
    }
    goto_bad = 0;
    head->why = "not a header";
    return 0;
}

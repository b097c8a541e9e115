/* Checks a header; one text for builds that are strict, that trace, and that do neither. */
#include <stdio.h>

struct header {
    const unsigned char *bytes;
    int size;
    const char *why;
};

int check(struct header *head)
{
    int at = 0;

    if (head->size < 2)
        goto bad;
#ifdef STRICT
    if (head->size > 64)
        goto bad;
    while (at < head->size) {
        if (head->bytes[at++] == 0)
            goto bad;
    }
#endif
    head->why = NULL;
    if (head->bytes[0] == '#')
        at++;
    return at;
bad:
    head->why = "not a header";
    return 0;
}

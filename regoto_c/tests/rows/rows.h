/* What the functions of all rows use. */
#include <stdio.h>
#include <stdlib.h>
#include <string.h>

static int exit_code;

/* writes a number, and answers it */
static int t(int k) {
    printf(" %d", k);
    return k;
}

int at;
int line[80];

/* Reads "[digits, digits]" and says by one exit for each error what is wrong. */
int read_pair(int pair[]) {
    int value;
    int which = 0;
    if (line[at++] != '[') goto no_bracket;
    for (;;) {
        value = 0;
        if (line[at] < '0' || line[at] > '9') goto no_digit;
        while (line[at] >= '0' && line[at] <= '9') {
            value = 10 * value + line[at++] - '0';
            if (value > 9999) goto too_large;
        }
        pair[which++] = value;
        if (which == 2) break;
        if (line[at++] != ',') goto no_comma;
        while (line[at] == ' ') at++;
    }
    if (line[at++] == ']') return 0;
no_bracket:
    printf("%d: bracket expected\n", at);
    return 1;
no_digit:
    printf("%d: digit expected\n", at);
    return 2;
no_comma:
    printf("%d: comma expected\n", at);
    return 3;
too_large:
    printf("%d: number too large\n", at);
    return 4;
}

int at;
int line[80];
/* Reads "[digits, digits]" and says by one exit for each error what is wrong. */
int read_pair(int pair[]) {
    int value;
    int which;
    int goto_break_1 = 0;
    int goto_no_bracket = 0;
    int goto_no_digit = 0;
    int goto_no_comma = 0;
    int goto_too_large = 0;
    which = 0;
    goto_no_bracket = line[at++] != '[';
    if (!goto_no_bracket) {
        while (!goto_no_comma && (!goto_break_1 && (!goto_too_large && (!goto_no_digit && 1)))) {
            value = 0;
            goto_no_digit = line[at] < '0' || line[at] > '9';
            if (!goto_no_digit) {
                while (!goto_too_large && (line[at] >= '0' && line[at] <= '9')) {
                    value = 10 * value + line[at++] - '0';
                    goto_too_large = value > 9999;
                }
                if (!goto_too_large) {
                    pair[which++] = value;
                    goto_break_1 = which == 2;
                    if (!goto_break_1) {
                        goto_no_comma = line[at++] != ',';
                        if (!goto_no_comma) {
                            while (line[at] == ' ') {
                                at++;
                            }
                        }
                    }
                }
            }
        }
        if (!goto_no_comma && (goto_break_1 || !goto_too_large)) {
            if (goto_break_1 || !goto_no_digit) {
                goto_break_1 = 0;
                if (line[at++] == ']') {
                    return 0;
                }
            }
        }
    }
    if (goto_no_comma || !goto_too_large) {
        if (!goto_no_comma) {
            if (!goto_no_digit) {
                goto_no_bracket = 0;
                printf("%d: bracket expected\n", at);
                return 1;
            }
            goto_no_digit = 0;
            printf("%d: digit expected\n", at);
            return 2;
        }
        goto_no_comma = 0;
        printf("%d: comma expected\n", at);
        return 3;
    }
    goto_too_large = 0;
    printf("%d: number too large\n", at);
    return 4;
}

/* A switch whose default stands in an if, beside a case in its else. */
int grade(int points) {
    int bonus;
    int switch_1;
    int goto_case_1_1 = 0;
    int goto_case_1_2 = 0;
    int goto_case_1_3 = 0;
    int goto_default_1 = 0;
    int goto_case_1_4 = 0;
    bonus = 0;
    switch_1 = points / 10;
    goto_case_1_1 = switch_1 == 10;
    if (!goto_case_1_1) {
        goto_case_1_2 = switch_1 == 9;
        if (!goto_case_1_2) {
            goto_case_1_3 = switch_1 == 8;
            if (!goto_case_1_3) {
                goto_case_1_4 = switch_1 == 7;
                if (!goto_case_1_4) {
                    goto_default_1 = 1;
                }
            }
        }
    }
    if (!goto_default_1 && !goto_case_1_4) {
        if (!goto_case_1_3) {
            if (!goto_case_1_2) {
                goto_case_1_1 = 0;
                bonus = 1;
            }
            goto_case_1_2 = 0;
            return 5 + bonus;
        }
        goto_case_1_3 = 0;
        return 4;
    }
    if (goto_default_1 || !goto_case_1_4 && points < 0) {
        goto_default_1 = 0;
        putchar('?');
    } else {
        goto_case_1_4 = 0;
        putchar('!');
    }
    return points < 50 ? 1 : 3;
}

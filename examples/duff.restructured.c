int port;
/* Duff's device: the cases of the switch stand in a loop. */
void send(int count, const char bytes[]) {
    int at;
    int rounds;
    int switch_1;
    int goto_case_1_1 = 0;
    int goto_case_1_2 = 0;
    int goto_case_1_3 = 0;
    int goto_case_1_4 = 0;
    int goto_break_1 = 0;
    at = 0;
    rounds = (count + 3) / 4;
    switch_1 = count % 4;
    goto_case_1_1 = switch_1 == 0;
    if (!goto_case_1_1) {
        goto_case_1_2 = switch_1 == 3;
        if (!goto_case_1_2) {
            goto_case_1_3 = switch_1 == 2;
            if (!goto_case_1_3) {
                goto_case_1_4 = switch_1 == 1;
                if (!goto_case_1_4) {
                    goto_break_1 = 1;
                }
            }
        }
    }
    if (!goto_break_1) {
        if (!goto_case_1_4 && (!goto_case_1_3 && !goto_case_1_2)) {
            goto_case_1_1 = 0;
        }
        do {
            if (!goto_case_1_4) {
                if (!goto_case_1_3) {
                    if (!goto_case_1_2) {
                        port = bytes[at++];
                    }
                    goto_case_1_2 = 0;
                    port = bytes[at++];
                }
                goto_case_1_3 = 0;
                port = bytes[at++];
            }
            goto_case_1_4 = 0;
            port = bytes[at++];
        } while (--rounds > 0);
    }
    goto_break_1 = 0;
}

/* Counts words and lines: each state is a label. */
int main(void) {
    int c;
    int words;
    int lines;
    int goto_between = 0;
    int goto_inside = 0;
    int goto_done = 0;
    words = 0;
    lines = 0;
    do {
        do {
            goto_between = 0;
            c = getchar();
            goto_done = c == -1;
            if (!goto_done) {
                if (c == '\n') {
                    lines++;
                }
                goto_between = c == ' ' || c == '\n';
                if (!goto_between) {
                    words++;
                    do {
                        goto_inside = 0;
                        c = getchar();
                        goto_done = c == -1;
                        if (!goto_done) {
                            if (c == '\n') {
                                lines++;
                            }
                            goto_between = c == ' ' || c == '\n';
                            if (!goto_between) {
                                goto_inside = 1;
                            }
                        }
                    } while (goto_inside);
                }
            }
        } while (goto_between);
    } while (!goto_done && goto_between);
    goto_done = 0;
    printf("%d words, %d lines\n", words, lines);
    return 0;
}

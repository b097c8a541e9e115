/* Counts words and lines: each state is a label. */
int main(void) {
    int c;
    int words = 0;
    int lines = 0;
between:
    c = getchar();
    if (c == -1) goto done;
    if (c == '\n') lines++;
    if (c == ' ' || c == '\n') goto between;
    words++;
inside:
    c = getchar();
    if (c == -1) goto done;
    if (c == '\n') lines++;
    if (c == ' ' || c == '\n') goto between;
    goto inside;
done:
    printf("%d words, %d lines\n", words, lines);
    return 0;
}

/* Copies the input up to its end or to a q: both leave the loop by one jump each, which tidy makes a break. */
int main(void) {
    int c;
    int goto_end = 0;
    while (!goto_end && 1) {
        c = getchar();
        goto_end = c == -1;
        if (!goto_end) {
            goto_end = c == 'q';
            if (!goto_end) {
                putchar(c);
            }
        }
    }
    goto_end = 0;
    return 0;
}

/* One jump into a loop, and one out of it: docs/REWRITING.md shows it after each step. */
int total(int n) {
    int sum;
    int goto_middle = 0;
    int goto_done = 0;
    sum = 0;
    goto_middle = n > 9;
    while (!goto_done && (goto_middle || n > 0)) {
        if (!goto_middle) {
            sum = sum + n;
            goto_done = sum > 99;
        }
        if (!goto_done) {
            goto_middle = 0;
            n--;
        }
    }
    goto_done = 0;
    return sum;
}

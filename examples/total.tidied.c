/* One jump into a loop, and one out of it: docs/REWRITING.md shows it after each step. */
int total(int n) {
    int sum;
    int goto_middle = 0;
    sum = 0;
    goto_middle = n > 9;
    while (goto_middle || n > 0) {
        if (!goto_middle) {
            sum = sum + n;
            if (sum > 99) {
                break;
            }
        }
        goto_middle = 0;
        n--;
    }
    return sum;
}

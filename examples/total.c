/* One jump into a loop, and one out of it: docs/REWRITING.md shows it after each step. */
int total(int n) {
    int sum = 0;
    if (n > 9) goto middle;
    while (n > 0) {
        sum = sum + n;
        if (sum > 99) goto done;
middle:
        n--;
    }
done:
    return sum;
}

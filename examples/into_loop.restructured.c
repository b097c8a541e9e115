/* Writes a list with commas between: the loop is entered in its middle. */
int main(void) {
    int i;
    int goto_first = 0;
    i = 1;
    goto_first = 1;
    while (goto_first || i <= 5) {
        if (!goto_first) {
            putchar(',');
        }
        goto_first = 0;
        putchar('0' + i);
        i++;
    }
    putchar('\n');
    return 0;
}

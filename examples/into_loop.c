/* Writes a list with commas between: the loop is entered in its middle. */
int main(void) {
    int i = 1;
    goto first;
    while (i <= 5) {
        putchar(',');
first:
        putchar('0' + i);
        i++;
    }
    putchar('\n');
    return 0;
}

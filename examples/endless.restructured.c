/* A loop by a jump that never ends: see "Compiling the result" in the README. */
int main(void) {
    int x;
    int goto_again = 0;
    x = 0;
    do {
        goto_again = 0;
        x = x ^ 1;
        goto_again = x < 5;
    } while (goto_again);
    putchar(65);
    return 0;
}

/* A loop by a jump that never ends: see "Compiling the result" in the README. */
int main(void) {
    int x = 0;
again:
    x = x ^ 1;
    if (x < 5) goto again;
    putchar(65);
    return 0;
}

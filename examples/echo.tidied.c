/* Copies the input up to its end or to a q: both leave the loop by one jump each, which tidy makes a break. */
int main(void) {
    int c;
    while (1) {
        c = getchar();
        if (c == -1) {
            break;
        }
        if (c == 'q') {
            break;
        }
        putchar(c);
    }
    return 0;
}

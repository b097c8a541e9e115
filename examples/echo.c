/* Copies the input up to its end or to a q: both leave the loop by one jump each, which tidy makes a break. */
int main(void) {
    int c;
    while (1) {
        c = getchar();
        if (c == -1) goto end;
        if (c == 'q') goto end;
        putchar(c);
    }
end:
    return 0;
}

int connect_to(int host);
int send_to(int line, int byte);
void hang_up(int line);

/* Tries again up to three times, from any of two places. */
int deliver(int host, int byte) {
    int tries = 0;
    int line;
retry:
    if (++tries > 3) return -1;
    line = connect_to(host);
    if (line < 0) goto retry;
    if (send_to(line, byte) < 0) {
        hang_up(line);
        goto retry;
    }
    hang_up(line);
    return tries;
}

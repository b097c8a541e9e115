int connect_to(int host);
int send_to(int line, int byte);
void hang_up(int line);
/* Tries again up to three times, from any of two places. */
int deliver(int host, int byte) {
    int tries;
    int line;
    int goto_retry = 0;
    tries = 0;
    do {
        do {
            goto_retry = 0;
            if (++tries > 3) {
                return -1;
            }
            line = connect_to(host);
            goto_retry = line < 0;
        } while (goto_retry);
        if (send_to(line, byte) < 0) {
            hang_up(line);
            goto_retry = 1;
        }
    } while (goto_retry);
    hang_up(line);
    return tries;
}

int port;

/* Duff's device: the cases of the switch stand in a loop. */
void send(int count, const char bytes[]) {
    int at = 0;
    int rounds = (count + 3) / 4;
    switch (count % 4) {
    case 0:
        do {
            port = bytes[at++];
        case 3:
            port = bytes[at++];
        case 2:
            port = bytes[at++];
        case 1:
            port = bytes[at++];
        } while (--rounds > 0);
    }
}

/* A retry loop that copies structures: a request is sent until it is answered, with a longer wait each time. */
#include <stdio.h>
#include <string.h>

struct request {
    char name[12];
    struct { int seconds, tries; } wait;
    unsigned is_urgent : 1, answered : 1;
};

struct answer {
    int code;
    struct request to;
};

static unsigned noise = 7;

static struct answer transmit(struct request it) {
    struct answer result = {.code = 0, .to = it};
    noise = noise * 1103515245u + 12345u;
    result.code = (noise >> 16) % 4 == 0 ? 200 : 503;
    result.to.answered = result.code == 200;
    return result;
}

static int ask(struct request *it, int most) {
    struct request first = *it;
    struct request copy;
    struct answer got;
    int waits[2];
    int goto_again = 0;
    int goto_give_up = 0;
    int goto_done = 0;
    do {
        goto_again = 0;
        goto_give_up = first.wait.tries >= most;
        if (!goto_give_up) {
            copy = first;
            got = transmit(copy);
            memcpy(waits, (int [2]){copy.wait.seconds, copy.wait.seconds * 2}, sizeof waits);

            copy = got.to;
            copy.wait.tries++;
            first = copy;
            goto_done = copy.answered != 0;
            if (!goto_done) {
                first.wait.seconds = waits[copy.is_urgent ? 0 : 1];
                goto_again = 1;
            }
        }
    } while (goto_again);
    if (!goto_done) {
        goto_give_up = 0;
        printf("%s: no answer after %d tries\n", first.name, first.wait.tries);
        return -1;
    }
    goto_done = 0;
    *it = first;
    printf("%s: answered, %d tries, waited %d\n", it->name, it->wait.tries, it->wait.seconds);
    return it->wait.tries;
}

int main(void) {
    struct request it = {.name = "status", .wait = {.seconds = 1, .tries = 0}, .is_urgent = 0};
    struct request urgent = it;
    urgent.is_urgent = 1;
    strcpy(urgent.name, "alarm");
    return ask(&it, 9) + ask(&urgent, 9) > 0 ? 0 : 1;
}

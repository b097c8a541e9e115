/* Clean-up of resources: a file is copied by way of a buffer, and whatever was opened is closed on every way out. */
#include <stdio.h>
#include <stdlib.h>
#include <string.h>

struct copy {
    FILE *from, *to;
    char *buffer;
    long bytes;
};

static int copy_file(const char *from, const char *to, size_t room, struct copy *job) {
    int result = -1;
    size_t got;
    int goto_break_1 = 0;
    int goto_free_buffer = 0;
    int goto_close_to = 0;
    int goto_close_from = 0;
    int goto_out = 0;

    *job = (struct copy){0};
    job->from = fopen(from, "rb");
    goto_out = job->from == NULL;
    if (!goto_out) {
        job->to = fopen(to, "wb");
        goto_close_from = job->to == NULL;
        if (!goto_close_from) {
            /* nothing fits into no room */
            job->buffer = room ? malloc(room) : NULL;
            goto_close_to = job->buffer == NULL;
            if (!goto_close_to) {
                while (!goto_free_buffer && !goto_break_1 && 1) {
                    got = fread(job->buffer, 1, room, job->from);
                    goto_break_1 = got == 0;
                    if (!goto_break_1) {
                        goto_free_buffer = fwrite(job->buffer, 1, got, job->to) != got;
                        if (!goto_free_buffer) {
                            job->bytes += (long)got;
                        }
                    }
                }
                if (!goto_free_buffer) {
                    goto_break_1 = 0;
                    result = ferror(job->from) ? -2 : 0;
                }
                goto_free_buffer = 0;
                free(job->buffer);
            }
            goto_close_to = 0;
            if (fclose(job->to) != 0) result = -3;
        }
        goto_close_from = 0;
        fclose(job->from);
    }
    goto_out = 0;
    return result;
}

int main(int argc, char **argv) {
    struct copy job;
    const char *self = argc > 1 ? argv[1] : __FILE__;
    int missing = copy_file("/no/such/file", "/dev/null", 16, &job);
    int no_room = copy_file("/dev/null", "/dev/null", 0, &job);
    int whole = copy_file(self, "/dev/null", 64, &job);

    printf("%d %d %d, more than 500 bytes: %s\n", missing, no_room, whole, job.bytes > 500 ? "yes" : "no");
    return strlen(self) == 0;
}

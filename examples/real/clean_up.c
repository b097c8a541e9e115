/* Clean-up of resources: a file is copied by way of a buffer, and whatever was opened is closed on every way out. */
#include <stdio.h>
#include <stdlib.h>
#include <string.h>

struct copy {
    FILE *from, *to;
    char *buffer;
    long bytes;
};

static int copy_file(const char *from, const char *to, size_t room, struct copy *job) {
    int result = -1;

    *job = (struct copy){0};
    job->from = fopen(from, "rb");
    if (job->from == NULL) goto out;
    job->to = fopen(to, "wb");
    if (job->to == NULL) goto close_from;

    /* nothing fits into no room */
    job->buffer = room ? malloc(room) : NULL;
    if (job->buffer == NULL) goto close_to;

    for (;;) {
        size_t got = fread(job->buffer, 1, room, job->from);
        if (got == 0) break;
        if (fwrite(job->buffer, 1, got, job->to) != got) goto free_buffer;
        job->bytes += (long)got;
    }
    result = ferror(job->from) ? -2 : 0;

free_buffer:
    free(job->buffer);
close_to:
    if (fclose(job->to) != 0) result = -3;
close_from:
    fclose(job->from);
out:
    return result;
}

int main(int argc, char **argv) {
    struct copy job;
    const char *self = argc > 1 ? argv[1] : __FILE__;
    int missing = copy_file("/no/such/file", "/dev/null", 16, &job);
    int no_room = copy_file("/dev/null", "/dev/null", 0, &job);
    int whole = copy_file(self, "/dev/null", 64, &job);

    printf("%d %d %d, more than 500 bytes: %s\n", missing, no_room, whole, job.bytes > 500 ? "yes" : "no");
    return strlen(self) == 0;
}

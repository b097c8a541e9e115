#include <stdio.h>

int open_source(int id);
int open_target(int id);
int reserve(int bytes);
void release(int handle);
void close_port(int port);

/* Three resources are taken, and given back in reverse order. */
int copy(int id) {
    int result = -1;
    int source = open_source(id);
    int target;
    int buffer;
    if (source < 0) goto out;
    target = open_target(id);
    if (target < 0) goto close_source;
    buffer = reserve(4096);
    if (buffer < 0) goto close_target;
    printf("copy %d to %d\n", source, target);
    result = 0;
    release(buffer);
close_target:
    close_port(target);
close_source:
    close_port(source);
out:
    return result;
}

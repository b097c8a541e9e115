#include <stdio.h>
int open_source(int id);
int open_target(int id);
int reserve(int bytes);
void release(int handle);
void close_port(int port);
/* Three resources are taken, and given back in reverse order. */
int copy(int id) {
    int result;
    int source;
    int target;
    int buffer;
    int goto_close_target = 0;
    int goto_close_source = 0;
    int goto_out = 0;
    result = -1;
    source = open_source(id);
    goto_out = source < 0;
    if (!goto_out) {
        target = open_target(id);
        goto_close_source = target < 0;
        if (!goto_close_source) {
            buffer = reserve(4096);
            goto_close_target = buffer < 0;
            if (!goto_close_target) {
                printf("copy %d to %d\n", source, target);
                result = 0;
                release(buffer);
            }
            goto_close_target = 0;
            close_port(target);
        }
        goto_close_source = 0;
        close_port(source);
    }
    goto_out = 0;
    return result;
}

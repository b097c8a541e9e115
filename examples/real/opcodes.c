/* A switch with fallthrough, and gotos into its cases from outside and from one another. */
#include <stdio.h>

enum opcode { PUSH, ADD, SUB, NEG, DUP, PRINT, JUMP_IF, HALT };
#define STACK 8

struct machine {
    int stack[STACK], top, steps;
    const signed char *code;
};

static const char *run(struct machine *m, int starts_with_print) {
    const signed char *pc = m->code;
    int b;

    if (starts_with_print) goto print;
    while (m->steps++ < 100) {
        switch ((enum opcode)*pc++) {
        case PUSH:
            if (m->top == STACK) return "overflow";
            m->stack[m->top++] = *pc++;
            break;
        case SUB:
            m->stack[m->top - 1] = -m->stack[m->top - 1];
            /* fall through */
        case ADD:
            if (m->top < 2) goto wrong;
            b = m->stack[--m->top];
            m->stack[m->top - 1] += b;
            break;
        case DUP:
            if (m->top == 0 || m->top == STACK) goto wrong;
            b = m->stack[m->top - 1];
            m->stack[m->top++] = b;
            break;
        case NEG:
            m->stack[m->top - 1] *= -1;
            goto print;
        case PRINT:
        print:
            printf("top %d of %d\n", m->top ? m->stack[m->top - 1] : 0, m->top);
            break;
        case JUMP_IF:
            b = *pc++;
            if (m->stack[--m->top] != 0) pc += b;
            break;
        default:
            return "halted";
        }
    }
    return "too long";
wrong:
    return "nothing or too much to work on";
}

int main(void) {
    static const signed char down[] = {PUSH, 3, PRINT, PUSH, 1, SUB, DUP, JUMP_IF, -7, NEG, HALT};
    struct machine m = {.code = down};
    puts(run(&m, 1));
    return m.steps == 0 ? 1 : 0;
}

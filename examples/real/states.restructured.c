/* A state machine whose jumps stand in macros: it finds words, numbers and strings in a line. */
#include <stdio.h>
#include <string.h>

#define STATE(name) name: if (!*p) goto end
#define NEXT(name) do { p++; goto name; } while (0)
#define EMIT(kind) printf("%s '%.*s'\n", kind, (int)(p - start), start)
#define IN(set) (strchr(set, *p) != NULL)

#define DIGITS "0123456789"
#define LETTERS "abcdefghijklmnopqrstuvwxyz_"

static int words_of(const char *p) {
	const char *start = p;
	int count = 0;
	int goto_between = 0;
	int goto_in_word = 0;
	int goto_in_number = 0;
	int goto_in_string = 0;
	int goto_end = 0;

	do {
		do {
			do {
				do {
					goto_between = 0;

					goto_end = !*p;
					if (!goto_end) {
						start = p;
						if (IN(LETTERS)) {
							p++;
							goto_in_word = 1;
						}
						if (!goto_in_word) {
							if (IN(DIGITS)) {
								p++;
								goto_in_number = 1;
							}
							if (!goto_in_number) {
								/* until the next quote */
								if (*p == '"') {
									p++;
									goto_in_string = 1;
								}
								if (!goto_in_string) {
									p++;
									goto_between = 1;
								}
							}
						}
						if (!goto_between) {
							if (!goto_in_string) {
								do {
									if (goto_in_word || !goto_in_number) {
										do {
											goto_in_word = 0;

											goto_end = !*p;
											if (!goto_end) {
												if (IN(LETTERS DIGITS)) {
													p++;
													goto_in_word = 1;
												}
												if (!goto_in_word) {
													EMIT("word");
													count++;
													goto_between = 1;
												}
											}
										} while (!goto_between && goto_in_word);
									}
									if (!goto_between && !goto_end) {
										do {
											goto_in_number = 0;

											goto_end = !*p;
											if (!goto_end) {
												if (IN(DIGITS)) {
													p++;
													goto_in_number = 1;
												}
												if (!goto_in_number) {
													/* 3d is a word */
													if (IN(LETTERS)) {
														p++;
														goto_in_word = 1;
													}
													if (!goto_in_word) {
														EMIT("number");
														count++;
														goto_between = 1;
													}
												}
											}
										} while (!goto_between && !goto_in_word && goto_in_number);
									}
								} while (!goto_between && goto_in_word);
							}
							if (!goto_between && !goto_end) {
								do {
									goto_in_string = 0;

									goto_end = !*p;
									if (!goto_end) {
										if (*p != '"') {
											p++;
											goto_in_string = 1;
										}
										if (!goto_in_string) {
											p++;
											EMIT("string");
											count++;
											goto_between = 1;
										}
									}
								} while (!goto_between && goto_in_string);
							}
						}
					}
				} while (goto_between);
			} while (!goto_end && goto_between);
		} while (!goto_end && goto_between);
	} while (!goto_end && goto_between);
	goto_end = 0;
	if (p > start)
		EMIT("rest");
	return count;
}

int main(void)
{
	return words_of("alpha 12 3d \"a b\" _x9 , 7 \"open") == 6 ? 0 : 1;
}

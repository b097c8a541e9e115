/* A state machine whose jumps stand in macros: it finds words, numbers and strings in a line. */
#include <stdio.h>
#include <string.h>

#define STATE(name) name: if (!*p) goto end
#define NEXT(name) do { p++; goto name; } while (0)
#define EMIT(kind) printf("%s '%.*s'\n", kind, (int)(p - start), start)
#define IN(set) (strchr(set, *p) != NULL)

#define DIGITS "0123456789"
#define LETTERS "abcdefghijklmnopqrstuvwxyz_"

static int words_of(const char *p) {
	const char *start = p;
	int count = 0;

	STATE(between);
	start = p;
	if (IN(LETTERS))
		NEXT(in_word);
	if (IN(DIGITS))
		NEXT(in_number);
	if (*p == '"')
		NEXT(in_string);	/* until the next quote */
	NEXT(between);

	STATE(in_word);
	if (IN(LETTERS DIGITS))
		NEXT(in_word);
	EMIT("word");
	count++;
	goto between;

	STATE(in_number);
	if (IN(DIGITS))
		NEXT(in_number);
	if (IN(LETTERS))
		NEXT(in_word);	/* 3d is a word */
	EMIT("number");
	count++;
	goto between;

	STATE(in_string);
	if (*p != '"')
		NEXT(in_string);
	p++;
	EMIT("string");
	count++;
	goto between;
end:
	if (p > start)
		EMIT("rest");
	return count;
}

int main(void)
{
	return words_of("alpha 12 3d \"a b\" _x9 , 7 \"open") == 6 ? 0 : 1;
}

/*
 * Host software in C that calls the translator: translates the table on standard input, and prints one
 * line a word, or the number of the refusal. With an argument, it translates that many times over.
 */
#include <stdio.h>
#include <stdlib.h>

#include "translate.h"

/* One byte more than the longest table has, so that too long an input is refused. */
#define MOST_INPUT 2049

int main(int argc, char **argv)
{
    static uint8_t table[MOST_INPUT];
    static uint8_t out[TRANSLATE_MOST];
    size_t table_len = fread(table, 1, sizeof table, stdin);
    long times = argc > 1 ? strtol(argv[1], NULL, 10) : 1;
    int32_t answer = 0;

    for (long i = 0; i < times; i++)
        answer = translate(table, table_len, out, sizeof out);
    if (answer < 0) {
        printf("refused %d\n", (int)answer);
        return 0;
    }
    for (int32_t at = 0; at < answer; at += 8) {
        printf("%d %c", (int)(at / 8), out[at]);
        for (int field = 1; field < 8; field++)
            printf(" %d", out[at + field]);
        putchar('\n');
    }
    return 0;
}

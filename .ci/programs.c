/* What the gate's runs of the programs need, in C over the static library:
 *
 *   input N                 writes N bytes by the rule below
 *   one-shot                writes what the program `digest` must write for standard input, by the one-shot entry point
 *   pieces PROGRAM FILE     runs the program with the file on a pipe whose reads come in odd pieces
 *
 * The rule: x starts as 14; for each byte x becomes (x * 1,103,515,245 + 12,345) mod 2^31, and the byte is x / 65,536 mod 256. */
#define _GNU_SOURCE
#include "saltcurtain.h"
#include <fcntl.h>
#include <stdio.h>
#include <stdlib.h>
#include <string.h>
#include <sys/wait.h>
#include <unistd.h>

/* More than any input that the gate makes. */
enum { ROOM = 1 << 20 };
static uint8_t bytes[ROOM];

static int input(long n)
{
    uint64_t x = 14;
    for (long i = 0; i < n; i++) {
        x = (x * 1103515245 + 12345) % 2147483648;
        putchar((int)(x / 65536 % 256));
    }
    return fflush(stdout) != 0;
}

static int one_shot(void)
{
    size_t n = fread(bytes, 1, ROOM, stdin);
    if (ferror(stdin) || n == ROOM)
        return 2;
    uint8_t text[SALTCURTAIN_TEXT_128];
    uint32_t number = saltcurtain_digest(128, 0, bytes, n, text, sizeof text);
    if (number == 0)
        printf("%.*s\n", (int)sizeof text, (const char *)text);
    else
        printf("refused %u\n", number);
    return fflush(stdout) != 0;
}

/* A pipe in packet mode: a read gives what one write of at most 4,096 bytes put there, and no more. */
static int pieces(const char *program, const char *file)
{
    static const size_t sizes[] = {1, 3, 7, 49, 51, 1021, 4093};
    FILE *f = fopen(file, "rb");
    int ends[2], status;
    if (!f || pipe2(ends, O_DIRECT) != 0)
        return 2;
    size_t n = fread(bytes, 1, ROOM, f);
    pid_t child = fork();
    if (child == 0) {
        dup2(ends[0], 0);
        close(ends[0]);
        close(ends[1]);
        execl(program, program, (char *)0);
        _exit(127);
    }
    close(ends[0]);
    for (size_t at = 0, i = 0; at < n; i++) {
        size_t size = sizes[i % 7] < n - at ? sizes[i % 7] : n - at;
        if (write(ends[1], bytes + at, size) != (ssize_t)size)
            return 2;
        at += size;
    }
    close(ends[1]);
    return child < 0 || waitpid(child, &status, 0) != child || !WIFEXITED(status) ? 2 : WEXITSTATUS(status);
}

int main(int argc, char **argv)
{
    if (argc == 3 && strcmp(argv[1], "input") == 0)
        return input(atol(argv[2]));
    if (argc == 2 && strcmp(argv[1], "one-shot") == 0)
        return one_shot();
    if (argc == 4 && strcmp(argv[1], "pieces") == 0)
        return pieces(argv[2], argv[3]);
    return 2;
}

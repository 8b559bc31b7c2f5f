/*
 * Reads sets of requests, as sets.py prints them, from a file. For each it writes what libtmmbr announces as docs/FORMATS.md says that
 * `sfu bound` prints it, gives the requests to a run of the program, and compares what that printed. Stops at the first difference.
 *
 *     bound SETS SFU SOME AT_ONCE     the first SOME sets, in AT_ONCE runs at a time
 */
#define _GNU_SOURCE
#include <fcntl.h>
#include <inttypes.h>
#include <spawn.h>
#include <stdarg.h>
#include <stdio.h>
#include <stdlib.h>
#include <string.h>
#include <sys/wait.h>
#include <unistd.h>

#include "tmmbr.h"

enum { SENDER = 1, DIGITS = 40, ROOM = 1 << 16 };

extern char **environ;

static tmmbr_request asked[TMMBR_MAX_REQUESTS];
static tmmbr_kept kept[TMMBR_MAX_REQUESTS];
static tmmbr_implied implied[TMMBR_MAX_REQUESTS];

struct text {
    char bytes[ROOM];
    size_t count;
};

static struct text input, wanted, printed;

static void give_up(const char *what)
{
    perror(what);
    exit(3);
}

static void add(struct text *text, const char *format, ...)
{
    size_t room = sizeof text->bytes - text->count;
    va_list values;
    int count;

    va_start(values, format);
    count = vsnprintf(text->bytes + text->count, room, format, values);
    va_end(values);
    if (count < 0 || (size_t)count >= room)
        give_up("a text that is too long");
    text->count += (size_t)count;
}

/* A number of two halves, decimal. */
static const char *decimal(uint64_t high, uint64_t low, char digits[DIGITS])
{
    unsigned __int128 number = (unsigned __int128)high << 64 | low;
    char *at = digits + DIGITS - 1;

    *at = 0;
    do {
        *--at = (char)('0' + (int)(number % 10));
        number /= 10;
    } while (number);
    return at;
}

static uint32_t word_of(const tmmbr_request *request)
{
    return request->exponent << 26 | request->mantissa << 9 | request->overhead;
}

/* The numbers of a line: `a`, how much room there is, how many requests, and these. */
static size_t requests_of(char *line)
{
    size_t count, i;
    char *at = line + 1;

    strtoul(at, &at, 10);
    strtoul(at, &at, 10);
    count = strtoul(at, &at, 10);
    if (*line != 'a' || count > TMMBR_MAX_REQUESTS)
        give_up("a line that is no set");
    for (i = 0; i < count; i++) {
        asked[i].ssrc = (uint32_t)strtoul(at, &at, 10);
        asked[i].exponent = (uint32_t)strtoul(at, &at, 10);
        asked[i].mantissa = (uint32_t)strtoul(at, &at, 10);
        asked[i].overhead = (uint32_t)strtoul(at, &at, 10);
    }
    return count;
}

/* A TMMBR of one entry for each request (RFC 5104, section 4.2.1). */
static void write_input(size_t count)
{
    size_t i;

    input.count = 0;
    for (i = 0; i < count; i++)
        add(&input, "83cd0004%08" PRIx32 "00000000%08x%08" PRIx32 "\n", asked[i].ssrc, SENDER, word_of(&asked[i]));
}

static int by_owner(const void *a, const void *b)
{
    uint32_t first = asked[((const tmmbr_implied *)a)->place].ssrc, second = asked[((const tmmbr_implied *)b)->place].ssrc;

    return (first > second) - (first < second);
}

/* The TMMBN, the kept requests by rising overhead, and the others by rising owner. */
static void write_wanted(size_t count)
{
    tmmbr_answer answer = tmmbr_announced(asked, count, kept, count, implied, count);
    char packets[DIGITS], bits[DIGITS];
    uint32_t i;

    if (answer.fault)
        give_up("a set that is refused");
    wanted.count = 0;
    add(&wanted, "84cd%04" PRIx32 "%08x00000000", 2 + 2 * answer.kept, SENDER);
    for (i = 0; i < answer.kept; i++)
        add(&wanted, "%08" PRIx32 "%08" PRIx32, asked[kept[i].place].ssrc, word_of(&asked[kept[i].place]));
    add(&wanted, "\n");
    for (i = 0; i < answer.kept; i++) {
        const tmmbr_request *request = &asked[kept[i].place];

        add(&wanted, "kept %" PRIu32 " %08" PRIx32 " pair %s %s %" PRIu32 "\n", request->ssrc, word_of(request),
            decimal(kept[i].packets_high, kept[i].packets_low, packets), decimal(kept[i].bits_high, kept[i].bits_low, bits),
            kept[i].seconds);
    }
    qsort(implied, answer.implied, sizeof *implied, by_owner);
    for (i = 0; i < answer.implied; i++) {
        const tmmbr_implied *entry = &implied[i];
        const tmmbr_request *request = &asked[entry->place];

        add(&wanted, "implied %" PRIu32 " %08" PRIx32 " by %" PRIu32 " %" PRIu32 " times %" PRIu32 " %" PRIu32 " %" PRIu32 "\n",
            request->ssrc, word_of(request), asked[entry->a].ssrc, asked[entry->b].ssrc, entry->p, entry->q, entry->r);
    }
}

/* What the program prints of the requests, and with which status it ends. */
static int run(char *program)
{
    char sender[] = "1", *words[] = {program, (char[]){"bound"}, (char[]){"--sender"}, sender, NULL};
    int in[2], out[2], status;
    posix_spawn_file_actions_t actions;
    ssize_t count;
    pid_t child;

    if (pipe2(in, O_CLOEXEC) || pipe2(out, O_CLOEXEC))
        give_up("pipe2");
    posix_spawn_file_actions_init(&actions);
    posix_spawn_file_actions_adddup2(&actions, in[0], 0);
    posix_spawn_file_actions_adddup2(&actions, out[1], 1);
    if (posix_spawn(&child, program, &actions, NULL, words, environ))
        give_up(program);
    posix_spawn_file_actions_destroy(&actions);
    close(in[0]);
    close(out[1]);
    /* A pipe takes it at once: it has 64 KiB. */
    if (write(in[1], input.bytes, input.count) != (ssize_t)input.count)
        give_up("write");
    close(in[1]);
    printed.count = 0;
    while ((count = read(out[0], printed.bytes + printed.count, sizeof printed.bytes - printed.count)) > 0)
        printed.count += (size_t)count;
    close(out[0]);
    if (count < 0 || waitpid(child, &status, 0) != child)
        give_up("read");
    return WIFEXITED(status) ? WEXITSTATUS(status) : 128;
}

/* Each set whose number leaves this rest, of so many. Answers 0, or 1 where one differs. */
static int compare(const char *sets, char *program, size_t some, size_t at_once, size_t rest)
{
    FILE *file = fopen(sets, "r");
    char *line = NULL;
    size_t room = 0, number;

    if (!file)
        give_up(sets);
    for (number = 0; number < some && getline(&line, &room, file) > 0; number++) {
        size_t count;
        int status;

        if (number % at_once != rest)
            continue;
        count = requests_of(line);
        write_input(count);
        write_wanted(count);
        status = run(program);
        if (status || printed.count != wanted.count || memcmp(printed.bytes, wanted.bytes, wanted.count)) {
            fprintf(stderr, "for %sthe program (status %d) printed\n%.*sand the library\n%.*s", line, status, (int)printed.count,
                    printed.bytes, (int)wanted.count, wanted.bytes);
            return 1;
        }
    }
    if (number < some) {
        fprintf(stderr, "%s has %zu sets\n", sets, number);
        return 1;
    }
    return 0;
}

int main(int count, char **words)
{
    size_t some, at_once, rest;
    int status, differs = 0;

    if (count != 5)
        return 2;
    some = strtoul(words[3], NULL, 10);
    at_once = strtoul(words[4], NULL, 10);
    for (rest = 0; rest < at_once; rest++) {
        pid_t child = fork();

        if (child < 0)
            give_up("fork");
        if (!child)
            return compare(words[1], words[2], some, at_once, rest);
    }
    while (wait(&status) > 0)
        differs |= status != 0;
    if (!differs)
        printf("%zu sets: what `sfu bound` prints is the library's answer\n", some);
    return differs;
}

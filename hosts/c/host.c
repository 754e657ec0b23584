/* A host in C: prints the certificate of a trace file. host [FILE [KIND]], or host --self-test */
#include "wickerheron.h"

#include <stdio.h>
#include <stdlib.h>
#include <string.h>

/* One byte more than a lawful file has, so that a longer one shows. Of such a one no more is needed. */
static uint8_t trace[WICKERHERON_MOST_TRACE + 1];
static uint8_t text[WICKERHERON_MOST_TEXT];

/* Reads the file, or standard input for "-". Answers how many bytes it took, or -1. */
static long read_trace(const char *path)
{
    FILE *file = strcmp(path, "-") == 0 ? stdin : fopen(path, "rb");
    if (file == NULL)
        return -1;
    size_t length = fread(trace, 1, sizeof trace, file);
    int failed = ferror(file);
    if (file != stdin)
        fclose(file);
    return failed ? -1 : (long)length;
}

/* Reads the kind; 0, which is none, for anything but a number that fits. */
static uint32_t read_kind(const char *word)
{
    char *end;
    unsigned long kind = strtoul(word, &end, 10);
    return *word == '\0' || *end != '\0' || kind > UINT32_MAX ? 0 : (uint32_t)kind;
}

static int print_certificate(const char *path, uint32_t kind)
{
    long length = read_trace(path);
    if (length < 0) {
        perror(path);
        return 1;
    }
    int64_t answer = wickerheron_certify(trace, (size_t)length, kind, text, sizeof text);
    if (answer < 0) {
        fprintf(stderr, "no certificate: %d\n", (int)answer);
        return 1;
    }
    size_t printed = fwrite(text, 1, (size_t)answer, stdout);
    return printed == (size_t)answer && fflush(stdout) == 0 ? 0 : 1;
}

/* Thread 0 forks thread 1 and writes place 5; thread 1 writes it too. One section. */
static const uint8_t race[] = {1, 0, 1, 0, 12, 0, 0, 0, 9, 0, 0, 0, 6, 0, 1, 1, 0, 5, 1, 1, 5};
static const char race_text[] = "accepted 2 declined 1\nevent 3 place 5 witness 2\nnot clean\n";
/* No sections, and a file that ends in its header. */
static const uint8_t nothing[] = {1, 0, 0, 0};
static const char nothing_text[] = "accepted 0 declined 0\nclean\n";
static const char header_text[] = "accepted 0 declined 0\nrefused 13 section 0 event 0 byte 3\n";

static int checks, failures;

static void check(int holds, const char *what, uint32_t kind)
{
    checks++;
    if (holds)
        return;
    failures++;
    printf("self-test: kind %u: not so: %s\n", (unsigned)kind, what);
}

enum { FILLER = 0xA5, SPARE = 100 };

/* Whether all of text from that byte on still holds the filler. */
static int kept_from(size_t begin)
{
    for (size_t i = begin; i < sizeof text; i++)
        if (text[i] != FILLER)
            return 0;
    return 1;
}

/* Calls with a buffer of this length at the front of text, which is filled first. */
static int64_t call(const uint8_t *bytes, size_t length, uint32_t kind, size_t room)
{
    memset(text, FILLER, sizeof text);
    return wickerheron_certify(bytes, length, kind, text, room);
}

/* Whether the call gives exactly this text and keeps the bytes behind it. */
static int gives(const uint8_t *bytes, size_t length, uint32_t kind, size_t room, const char *expected)
{
    size_t n = strlen(expected);
    return call(bytes, length, kind, room) == (int64_t)n && memcmp(text, expected, n) == 0 && kept_from(n);
}

static void check_kind(uint32_t kind)
{
    size_t n = strlen(race_text);
    check(gives(race, sizeof race, kind, n + SPARE, race_text), "the bytes behind the text are kept", kind);
    check(gives(race, sizeof race, kind, n, race_text), "a text fits a buffer of its length", kind);
    int64_t answer = call(race, sizeof race, kind, n - 1);
    check(answer == WICKERHERON_NO_ROOM && kept_from(0), "one byte short gives -19 and changes nothing", kind);
    answer = call(race, sizeof race, kind, 0);
    check(answer == WICKERHERON_NO_ROOM && kept_from(0), "an empty buffer gives -19", kind);
    check(gives(nothing, sizeof nothing, kind, SPARE, nothing_text), "a file without sections is clean", kind);
    check(gives(nothing, 3, kind, SPARE, header_text), "a file that ends in its header is refused", kind);
}

static void check_no_kind(uint32_t kind)
{
    int64_t answer = call(race, sizeof race, kind, sizeof text);
    check(answer == WICKERHERON_NO_SUCH_KIND && kept_from(0), "no such kind gives -22 and changes nothing", kind);
    answer = call(race, sizeof race, kind, 0);
    check(answer == WICKERHERON_NO_SUCH_KIND, "the kind is tested before the room", kind);
}

static int self_test(void)
{
    for (uint32_t kind = 1; kind <= 4; kind++)
        check_kind(kind);
    check_no_kind(0);
    check_no_kind(5);
    check_no_kind(UINT32_MAX);
    printf("self-test: %d checks, %d failed\n", checks, failures);
    return failures == 0 ? 0 : 1;
}

int main(int count, char **words)
{
    if (count == 2 && strcmp(words[1], "--self-test") == 0)
        return self_test();
    if (count > 3) {
        fprintf(stderr, "usage: host [FILE [KIND]] or host --self-test; FILE - is standard input\n");
        return 2;
    }
    const char *path = count > 1 ? words[1] : "-";
    return print_certificate(path, count > 2 ? read_kind(words[2]) : WICKERHERON_CLOCKS);
}

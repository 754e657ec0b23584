/* Calls from several threads at once, each on a painted stack: threads [FILE]..
   The certificates must be those of calls made one by one, and the stack below what the header says. */
#include "wickerheron.h"

#include <pthread.h>
#include <stdio.h>
#include <stdlib.h>
#include <string.h>

enum { THREADS = 8, KINDS = 4, MOST_TRACES = 64, STACK = 1 << 18, OWN = 512, PAINT = 0x5A };

struct trace {
    uint8_t bytes[WICKERHERON_MOST_TRACE + 1];
    size_t length;
    char text[WICKERHERON_MOST_TEXT];
    int64_t answer;
};

struct caller {
    pthread_t thread;
    uint8_t *stack;
    size_t taken; /* the most stack that a call took */
    long calls, failures;
    char text[WICKERHERON_MOST_TEXT];
};

static struct trace traces[MOST_TRACES];
static size_t count;
static struct caller callers[THREADS];

/* Thread 0 forks thread 1 and writes place 63, which thread 1 writes again and again: more than a thousand findings. */
static void make_racy(struct trace *trace)
{
    static const uint8_t front[] = {1, 0, 1, 0, 12, 0, 0, 0, 0, 0, 0, 0, 6, 0, 1, 1, 0, 63};
    memcpy(trace->bytes, front, sizeof front);
    size_t end = sizeof front;
    for (; end + 3 <= WICKERHERON_MOST_TRACE; end += 3)
        memcpy(trace->bytes + end, "\x01\x01\x3F", 3);
    trace->bytes[8] = (uint8_t)(end - 12);
    trace->bytes[9] = (uint8_t)((end - 12) >> 8);
    trace->length = end;
}

/* Whether the file could be read. */
static int read_trace(const char *path, struct trace *trace)
{
    FILE *file = fopen(path, "rb");
    if (file == NULL)
        return 0;
    trace->length = fread(trace->bytes, 1, sizeof trace->bytes, file);
    int failed = ferror(file);
    fclose(file);
    return !failed;
}

static int64_t certify(const struct trace *trace, uint32_t kind, char *text)
{
    return wickerheron_certify(trace->bytes, trace->length, kind, (uint8_t *)text, WICKERHERON_MOST_TEXT);
}

/* Calls with the stack below this frame painted, and notes how much of it the call wrote to. */
static void call(struct caller *caller, const struct trace *trace, uint32_t kind)
{
    uint8_t *here = __builtin_frame_address(0);
    memset(caller->stack, PAINT, (size_t)(here - caller->stack) - OWN);
    int64_t answer = certify(trace, kind, caller->text);
    size_t kept = 0;
    while (caller->stack[kept] == PAINT)
        kept++;
    size_t taken = (size_t)(here - caller->stack) - kept;
    if (taken > caller->taken)
        caller->taken = taken;
    caller->calls++;
    caller->failures += answer != trace->answer || memcmp(caller->text, trace->text, (size_t)answer) != 0;
}

static void *call_all(void *given)
{
    struct caller *caller = given;
    for (size_t i = 0; i < count; i++)
        for (uint32_t kind = 1; kind <= KINDS; kind++)
            call(caller, &traces[i], kind);
    return NULL;
}

/* Starts a thread on a stack of its own; whether that went well. */
static int start(struct caller *caller)
{
    pthread_attr_t attributes;
    return posix_memalign((void **)&caller->stack, 4096, STACK) == 0 && pthread_attr_init(&attributes) == 0 &&
           pthread_attr_setstack(&attributes, caller->stack, STACK) == 0 &&
           pthread_create(&caller->thread, &attributes, call_all, caller) == 0;
}

/* Reads the files, and makes the certificate of each; whether all could be read. */
static int prepare(int files, char **names)
{
    make_racy(&traces[count++]);
    for (int i = 0; i < files && count < MOST_TRACES; i++)
        if (!read_trace(names[i], &traces[count++])) {
            perror(names[i]);
            return 0;
        }
    for (size_t i = 0; i < count; i++)
        traces[i].answer = certify(&traces[i], WICKERHERON_CLOCKS, traces[i].text);
    return 1;
}

/* Starts all callers, waits for them, and sums up in the first; whether they could be started. */
static int run_all(void)
{
    for (int i = 0; i < THREADS; i++)
        if (!start(&callers[i]))
            return 0;
    for (int i = 0; i < THREADS; i++)
        pthread_join(callers[i].thread, NULL);
    for (int i = 1; i < THREADS; i++) {
        callers[0].calls += callers[i].calls;
        callers[0].failures += callers[i].failures;
        if (callers[i].taken > callers[0].taken)
            callers[0].taken = callers[i].taken;
    }
    return 1;
}

int main(int words, char **word)
{
    if (!prepare(words - 1, word + 1))
        return 1;
    if (!run_all()) {
        fprintf(stderr, "threads: no thread\n");
        return 1;
    }
    const struct caller *all = &callers[0];
    printf("threads: %d at once, %zu traces, %ld calls, %ld failed; ", THREADS, count, all->calls, all->failures);
    printf("at most %zu bytes of stack, of %d\n", all->taken, WICKERHERON_STACK);
    return all->failures == 0 && all->taken <= WICKERHERON_STACK ? 0 : 1;
}

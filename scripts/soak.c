/* Writes lines for the program: settings, then calls in ROUNDS rounds: soak SETTINGS ROUNDS
 *
 * Each round opens and closes the same spans, so each round draws the same bytes. Only the ids
 * rise. A round has 100,000 roots at once, 20,000 children of one span, many chains in two branches,
 * fields that grow, and long strings. Prints the number of calls in a round on standard error. */
#define _GNU_SOURCE
#include <stdio.h>
#include <stdlib.h>
#include <string.h>

static unsigned long next_id = 1, calls;
static char long_text[65536];

static void text(const char *words)
{
    fputs_unlocked(words, stdout);
}

static void number(unsigned long value)
{
    char digits[20];
    int at = 20;
    do
        digits[--at] = '0' + value % 10;
    while (value /= 10);
    fwrite_unlocked(digits + at, 1, 20 - at, stdout);
}

/* Ends a call's line, with the span's id if it isn't 0. */
static void ended(const char *key, unsigned long id)
{
    if (id) {
        text(key);
        number(id);
    }
    text("}\n");
    calls++;
}

static unsigned long opened(const char *name, unsigned long parent)
{
    text("{\"call\":\"new\",\"name\":\"");
    text(name);
    text("\",\"fields\":[[\"key\",\"1\"]]");
    ended(",\"current\":", parent);
    return next_id++;
}

static void happened(const char *message, unsigned long current)
{
    text("{\"call\":\"event\",\"level\":\"INFO\",\"fields\":[[\"message\",\"");
    text(message);
    text("\"],[\"n\",\"12\"]]");
    ended(",\"current\":", current);
}

static void closed(unsigned long id)
{
    text("{\"call\":\"close\"");
    ended(",\"id\":", id);
}

/* Roots that are all live at once, with an event in every tenth. They close in the order of their
 * creation. */
static void roots(int count)
{
    unsigned long first = next_id;
    for (int at = 0; at < count; at++) {
        unsigned long id = opened("root", 0);
        if (at % 10 == 0)
            happened("begun", id);
    }
    for (int at = 0; at < count; at++)
        closed(first + at);
}

/* Children of one span that are all live at once, with an event in every third. The last one closes
 * first. */
static void children(int count)
{
    unsigned long parent = opened("parent", 0), first = next_id;
    for (int at = 0; at < count; at++) {
        unsigned long id = opened("child", parent);
        if (at % 3 == 0)
            happened("in a child", id);
    }
    for (int at = count; at-- > 0;)
        closed(first + at);
    closed(parent);
}

/* Two branches of `depth` spans below one root, with events in turn, so that each branch is shown
 * again. The handles are dropped from the root down, so each branch closes at once. */
static void branches(int depth)
{
    unsigned long root = opened("service", 0), first = next_id;
    for (int branch = 0; branch < 2; branch++)
        for (int at = 0; at < depth; at++)
            opened("step", at ? next_id - 1 : root);
    for (int at = 0; at < 6; at++)
        happened("in turn", first + (at % 2) * depth + depth - 1 - at / 2);
    closed(root);
    for (int at = 0; at < 2 * depth; at++)
        closed(first + at);
}

/* A span whose fields and handles grow. */
static void grown(int count)
{
    unsigned long id = opened("grown", 0);
    for (int at = 0; at < count; at++) {
        text("{\"call\":\"record\",\"fields\":[[\"more\",\"value\"]]");
        ended(",\"id\":", id);
        text("{\"call\":\"clone\"");
        ended(",\"id\":", id);
    }
    happened(long_text, id);
    for (int at = 0; at <= count; at++)
        closed(id);
}

static void round_of_calls(void)
{
    roots(100000);
    children(20000);
    for (int at = 0; at < 2000; at++)
        branches(1 + at % 20);
    for (int at = 0; at < 20; at++)
        grown(100);
}

int main(int count, char **words)
{
    if (count != 3)
        return 2;
    memset(long_text, 'x', sizeof long_text - 1);
    setvbuf(stdout, NULL, _IOFBF, 1 << 20);
    text(words[1]);
    text("\n");
    for (long left = atol(words[2]); left > 0; left--) {
        calls = 0;
        round_of_calls();
    }
    fprintf(stderr, "%lu\n", calls);
    return fflush(stdout) ? 1 : 0;
}

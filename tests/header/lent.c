/* Lent buffers. Their pages stand between two that can't be accessed, and the bytes around a buffer on its pages have one
 * value, which is compared with the buffer. */
#define _DEFAULT_SOURCE
#include <stdlib.h>
#include <string.h>
#include <sys/mman.h>
#include <unistd.h>
#include "check.h"

/* The most buffers of one check, and the value of the bytes around. */
enum { MOST = 32, AROUND = 0xa5 };

static enum guard guard_now;
static lent lents[MOST];
static size_t lents_now;

/* A place in a text of numbers: the number there, and how often it still comes. */
typedef struct {
    const char *rest;
    int64_t number;
    size_t times;
} place;

static place start(const char *numbers)
{
    place p = {numbers, 0, 0};
    return p;
}

static int64_t read_number(place *p)
{
    char *end;
    int64_t number = strtoll(p->rest, &end, 10);
    if (end == p->rest)
        fail("the check's text has no number at '%s'", p->rest);
    p->rest = end;
    return number;
}

/* Goes on to the next number; 0 where there is none. */
static int next(place *p)
{
    if (p->times == 0) {
        p->rest += strspn(p->rest, " ,");
        if (*p->rest == 0)
            return 0;
        p->number = read_number(p);
        p->times = 1;
        if (*p->rest == 'x') {
            p->rest++;
            p->times = (size_t)p->number;
            p->number = read_number(p);
        }
    }
    p->times--;
    return 1;
}

static size_t page(void)
{
    return (size_t)sysconf(_SC_PAGESIZE);
}

void guard_is(enum guard guard)
{
    guard_now = guard;
}

static lent lend(size_t len, size_t size)
{
    lent buffer;
    size_t bytes = len * size;
    buffer.len = len;
    buffer.size = size;
    buffer.room = (bytes + page() - 1) / page() * page();
    void *all = mmap(NULL, buffer.room + 2 * page(), PROT_NONE, MAP_PRIVATE | MAP_ANONYMOUS, -1, 0);
    if (all == MAP_FAILED || lents_now == MOST)
        fail("no buffer of %zu bytes can be lent", bytes);
    buffer.pages = (uint8_t *)all + page();
    if (mprotect(buffer.pages, buffer.room, PROT_READ | PROT_WRITE) != 0)
        fail("no buffer of %zu bytes can be written", bytes);
    memset(buffer.pages, AROUND, buffer.room);
    buffer.bytes = buffer.pages + (guard_now == ENDS_AT_GUARD ? buffer.room - bytes : 0);
    lents[lents_now++] = buffer;
    return buffer;
}

void give_back(void)
{
    for (; lents_now > 0; lents_now--) {
        lent last = lents[lents_now - 1];
        munmap(last.pages - page(), last.room + 2 * page());
    }
}

int32_t *list_of(lent buffer)
{
    return (int32_t *)(void *)buffer.bytes;
}

uint32_t *table_of(lent buffer)
{
    return (uint32_t *)(void *)buffer.bytes;
}

static lent lend_elements(const char *numbers, size_t size)
{
    size_t len = 0;
    for (place p = start(numbers); next(&p);)
        len++;
    lent buffer = lend(len, size);
    size_t i = 0;
    for (place p = start(numbers); next(&p); i++) {
        if (size == 1)
            buffer.bytes[i] = (uint8_t)p.number;
        else
            table_of(buffer)[i] = (uint32_t)p.number;
    }
    return buffer;
}

lent lend_bytes(const char *numbers)
{
    return lend_elements(numbers, 1);
}

lent lend_numbers(const char *numbers)
{
    return lend_elements(numbers, 4);
}

lent lend_text(const char *text, size_t len)
{
    lent buffer = lend(len, 1);
    memcpy(buffer.bytes, text, len);
    return buffer;
}

lent for_reading(lent buffer)
{
    if (mprotect(buffer.pages, buffer.room, PROT_READ) != 0)
        fail("a buffer can't be protected");
    return buffer;
}

/* An element of a list or of bytes. */
static int64_t element(lent buffer, size_t i)
{
    return buffer.size == 1 ? buffer.bytes[i] : list_of(buffer)[i];
}

static void holds_around(const char *what, lent buffer)
{
    const uint8_t *behind = buffer.bytes + buffer.len * buffer.size;
    for (const uint8_t *p = buffer.pages; p < buffer.pages + buffer.room; p++)
        if ((p < buffer.bytes || p >= behind) && *p != AROUND)
            fail("byte %td of %s was written, outside of the buffer", p - buffer.bytes, what);
    compared_one();
}

void holds(const char *what, lent buffer, const char *numbers)
{
    size_t i = 0;
    for (place p = start(numbers); next(&p); i++) {
        if (i == buffer.len)
            fail("%s has only %zu elements", what, buffer.len);
        if (element(buffer, i) != p.number)
            fail("%s[%zu] is %lld, not %lld", what, i, (long long)element(buffer, i), (long long)p.number);
    }
    if (i != buffer.len)
        fail("%s has %zu elements, not %zu", what, buffer.len, i);
    holds_around(what, buffer);
}

void holds_text(const char *what, lent buffer, const char *text, uint8_t rest)
{
    size_t len = strlen(text);
    for (size_t i = 0; i < buffer.len; i++) {
        uint8_t expected = i < len ? (uint8_t)text[i] : rest;
        if (buffer.bytes[i] != expected)
            fail("%s[%zu] is %d, not %d", what, i, buffer.bytes[i], expected);
    }
    holds_around(what, buffer);
}

void fail_at(const void *address)
{
    for (size_t i = 0; i < lents_now; i++) {
        lent l = lents[i];
        intptr_t byte = (intptr_t)address - (intptr_t)l.bytes, len = (intptr_t)(l.len * l.size);
        intptr_t front = (intptr_t)(l.pages - page()) - (intptr_t)l.bytes, end = front + (intptr_t)(l.room + 2 * page());
        if (byte >= 0 && byte < len)
            fail("byte %td of a buffer for reading was written", byte);
        if (byte >= front && byte < end)
            fail("byte %td of a buffer of %td bytes was accessed", byte, len);
    }
}

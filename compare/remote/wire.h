/* How a call of the C face goes over two pipes to a program on another processor. Both are little-endian. A call is its number, then of each parameter a number, or a length and that many elements;
 * the answer is a number, then every list as it was left. Guard bytes stand on both sides of each list over there; where one has changed the program there ends, and so does the one here. */
#include <stdio.h>
#include <stdlib.h>
#include <string.h>

static FILE *from, *to;

static void failed(const char *what)
{
    fprintf(stderr, "remote: %s\n", what);
    _Exit(3);
}

static void send_bytes(const void *bytes, size_t count)
{
    if (count != 0 && fwrite(bytes, 1, count, to) != count)
        failed("the other side does not listen");
}

static void take_bytes(void *bytes, size_t count)
{
    if (count != 0 && fread(bytes, 1, count, from) != count)
        failed("the other side has ended");
}

static void send_number(uint64_t number)
{
    send_bytes(&number, sizeof number);
}

static uint64_t take_number(void)
{
    uint64_t number;
    take_bytes(&number, sizeof number);
    return number;
}

#ifdef HERE
#include <unistd.h>

static uint32_t float_bits(float value)
{
    uint32_t bits;
    memcpy(&bits, &value, sizeof bits);
    return bits;
}

/* The environment's REMOTE is the command of the program over there. */
static void begin_remote(void)
{
    int ask[2], answer[2];
    const char *command = getenv("REMOTE");
    if (!command)
        failed("REMOTE names no command");
    if (pipe(ask) != 0 || pipe(answer) != 0)
        failed("no pipe");
    if (fork() == 0) {
        dup2(ask[0], 0);
        dup2(answer[1], 1);
        close(ask[1]);
        close(answer[0]);
        execl("/bin/sh", "sh", "-c", command, (char *)NULL);
        _Exit(3);
    }
    close(ask[0]);
    close(answer[1]);
    to = fdopen(ask[1], "wb");
    from = fdopen(answer[0], "rb");
}

static void begin_call(uint64_t number)
{
    if (!to)
        begin_remote();
    send_number(number);
}

static void send_list(const void *list, size_t len, size_t size)
{
    send_number(len);
    send_bytes(list, len * size);
}

static uint64_t end_call(void)
{
    fflush(to);
    return take_number();
}

static void take_list(void *list, size_t len, size_t size)
{
    take_bytes(list, len * size);
}

static void same_list(const void *list, size_t len, size_t size)
{
    void *left = malloc(len * size + 1);
    if (!left)
        failed("no memory");
    take_bytes(left, len * size);
    if (len != 0 && memcmp(list, left, len * size) != 0)
        failed("a list that is only read was written");
    free(left);
}
#endif

#ifdef THERE
#define GUARD 64
#define LISTS 16

struct list {
    unsigned char *at;
    size_t len;
};

static float float_of(uint64_t number)
{
    uint32_t bits = (uint32_t)number;
    float value;
    memcpy(&value, &bits, sizeof value);
    return value;
}

/* Each place of a call has memory of its own, which only grows. */
static struct list take_list(size_t place, size_t size)
{
    static unsigned char *memory[LISTS];
    static size_t room[LISTS];
    struct list list;
    list.len = (size_t)take_number();
    if (list.len * size + 2 * GUARD > room[place]) {
        free(memory[place]);
        room[place] = 2 * (list.len * size + 2 * GUARD);
        memory[place] = malloc(room[place]);
        if (!memory[place])
            failed("no memory");
    }
    list.at = memory[place] + GUARD;
    memset(memory[place], 0xA5, GUARD);
    memset(list.at + list.len * size, 0xA5, GUARD);
    take_bytes(list.at, list.len * size);
    return list;
}

static void send_list(struct list list, size_t size)
{
    for (size_t i = 0; i < GUARD; i++)
        if (list.at[i - GUARD] != 0xA5 || list.at[list.len * size + i] != 0xA5)
            failed("a call wrote beside a list");
    send_bytes(list.at, list.len * size);
}

static int serve(void (*const *calls)(void), size_t count)
{
    uint64_t number;
    from = stdin;
    to = stdout;
    while (fread(&number, sizeof number, 1, from) == 1) {
        if (number >= count)
            failed("no such call");
        calls[number]();
        fflush(to);
    }
    return 0;
}
#endif

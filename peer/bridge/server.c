/*
 * The far side of the bridge: an x86-64 program with the proved library in it. Its standard input is a socket, on which calls come and
 * answers go, until the near side (client.c) closes it.
 */
#include "call.h"
#include "checkraven.h"

/* The toolchain has a C library for x86-64, and no headers for it. */
#define MSG_WAITALL 0x100
long recv(int socket, void *bytes, size_t length, int flags);
long send(int socket, const void *bytes, size_t length, int flags);
void *realloc(void *bytes, size_t length);
void *memcpy(void *to, const void *from, size_t length);
void *memset(void *to, int value, size_t length);
int memcmp(const void *one, const void *other, size_t length);
_Noreturn void exit(int status);

/* The caller's own marks stand around its copy. So the parts have marks here too: before, between and behind them. */
#define MARK 0xA7
#define MARGIN 64

static struct call call;
static size_t carried_length; /* of all parts */
static uint8_t *carried;      /* the parts as they came; later what goes back */
static size_t lent_length;
static uint8_t *lent; /* the parts among marks */
static size_t start[MOST_PARTS];

static void make_room(uint8_t **bytes, size_t *room, size_t length)
{
    if (length <= *room)
        return;
    *bytes = realloc(*bytes, length);
    *room = length;
    if (*bytes == NULL)
        exit(1);
}

static void read_call(void)
{
    static size_t room;
    if (recv(0, &call, sizeof call, MSG_WAITALL) != (long)sizeof call)
        exit(0);
    carried_length = 0;
    for (size_t part = 0; part < call.parts; part++)
        carried_length += call.length[part];
    make_room(&carried, &room, sizeof(struct answer) + carried_length);
    if (carried_length > 0 && recv(0, carried, carried_length, MSG_WAITALL) != (long)carried_length)
        exit(1);
}

static void lay_out(void)
{
    static size_t room;
    size_t end = 0;
    for (size_t part = 0; part < call.parts; part++) {
        start[part] = (end + MARGIN + ADDRESS_STEP) / ADDRESS_STEP * ADDRESS_STEP + call.address[part];
        end = start[part] + call.length[part];
    }
    lent_length = end + MARGIN;
    make_room(&lent, &room, lent_length);
    memset(lent, MARK, lent_length);
    const uint8_t *from = carried;
    for (size_t part = 0; part < call.parts; part++) {
        memcpy(lent + start[part], from, call.length[part]);
        from += call.length[part];
    }
}

static int marks_hold(size_t from, size_t to)
{
    int hold = 1;
    for (size_t at = from; at < to; at++)
        hold &= lent[at] == MARK;
    return hold;
}

/* Whether all marks and all files are as they were. */
static int nothing_else_changed(void)
{
    const uint8_t *before = carried;
    size_t end = 0;
    int same = 1;
    for (size_t part = 0; part < call.parts; part++) {
        same &= marks_hold(end, start[part]);
        same &= part >= call.files || memcmp(lent + start[part], before, call.length[part]) == 0;
        before += call.length[part];
        end = start[part] + call.length[part];
    }
    return same && marks_hold(end, lent_length);
}

static uint8_t *bytes(size_t part)
{
    return lent + start[part];
}

static uint64_t *cells(size_t part)
{
    return (uint64_t *)(void *)bytes(part);
}

static size_t count(size_t part)
{
    return call.length[part] / sizeof(uint64_t);
}

static uint64_t make_call(void)
{
    const uint64_t *length = call.length, *number = call.number;
    switch (call.function) {
    case ACCOUNT:
        return checkraven_account(bytes(0), length[0], bytes(1), length[1], bytes(2), length[2], bytes(3), length[3],
                                  cells(4), count(4), cells(5), count(5));
    case ACCOUNT_BUNDLE:
        return checkraven_account_bundle(bytes(0), length[0], bytes(1), length[1], bytes(2), length[2], bytes(3), length[3],
                                         cells(4), count(4), cells(5), count(5), cells(6), count(6));
    case REPORT:
        return checkraven_report(bytes(0), length[0], bytes(1), length[1], bytes(2), length[2], bytes(3), length[3], bytes(4), length[4]);
    case SHEET_FROM_TEXT:
        return checkraven_sheet_from_text(bytes(0), length[0], bytes(1), length[1]);
    case TEXT_FROM_SHEET:
        return checkraven_text_from_sheet(bytes(0), length[0], bytes(1), length[1]);
    case ACCOUNT_TEXT:
        return checkraven_account_text(bytes(0), length[0], bytes(1), length[1], bytes(2), length[2], bytes(3), length[3],
                                       cells(4), count(4), cells(5), count(5));
    case ROW:
        return checkraven_row(bytes(0), length[0], bytes(1), length[1], number[0], number[1], number[2], number[3], number[4], number[5],
                              number[6], bytes(2), length[2]);
    case ROW_NUMBER:
        return checkraven_row_number(bytes(0), length[0], bytes(1), length[1], number[0], number[1], number[2], number[3], number[4],
                                     number[5], number[6]);
    case STEP:
        return checkraven_step(number[0], cells(0), count(0), cells(1), count(1));
    case STEPS:
        return checkraven_steps(number[0], cells(0), count(0));
    default:
        exit(1);
    }
}

static void send_answer(struct answer answer)
{
    size_t length = sizeof answer;
    memcpy(carried, &answer, sizeof answer);
    for (size_t part = call.files; part < call.parts; part++) {
        memcpy(carried + length, bytes(part), call.length[part]);
        length += call.length[part];
    }
    if (send(0, carried, length, 0) != (long)length)
        exit(1);
}

int main(void)
{
    for (;;) {
        struct answer answer;
        read_call();
        lay_out();
        answer.answer = make_call();
        answer.harm = !nothing_else_changed();
        send_answer(answer);
    }
}

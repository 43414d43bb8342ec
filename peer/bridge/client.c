/*
 * The near side of the bridge: the functions of the library for programs of this machine, where the library itself cannot be linked. Each
 * call is carried to a server (server.c), an x86-64 program with the library in it that runs under the emulator.
 */
#define _GNU_SOURCE
#include <pthread.h>
#include <spawn.h>
#include <stdio.h>
#include <stdlib.h>
#include <string.h>
#include <sys/socket.h>
#include <unistd.h>

#include "call.h"
#include "checkraven.h"

/* What starts a server: the script `build` gives it, each word with a comma behind it. */
static char *const server_words[] = { SERVER_WORDS NULL };

struct server {
    int socket;
    uint8_t *bytes; /* a call as it goes, then what comes back */
    size_t room;
    struct server *next;
};

/* Servers that no call has now. Each of several calls at once has its own, and a server ends with this process, as its socket is closed. */
static struct server *idle;
static pthread_mutex_t idle_lock = PTHREAD_MUTEX_INITIALIZER;

/* A part that is lent. A file is never written to. */
struct part {
    uint8_t *bytes;
    size_t length;
};

static _Noreturn void give_up(const char *why)
{
    fprintf(stderr, "checkraven bridge: %s\n", why);
    abort();
}

static struct server *start_server(void)
{
    int ends[2];
    pid_t process;
    posix_spawn_file_actions_t actions;
    struct server *server = calloc(1, sizeof *server);
    if (server == NULL || socketpair(AF_UNIX, SOCK_STREAM | SOCK_CLOEXEC, 0, ends) != 0)
        give_up("no connection to a server could be made");
    if (posix_spawn_file_actions_init(&actions) != 0 || posix_spawn_file_actions_adddup2(&actions, ends[1], STDIN_FILENO) != 0 ||
        posix_spawn(&process, server_words[0], &actions, NULL, server_words, environ) != 0)
        give_up("the server could not be started");
    posix_spawn_file_actions_destroy(&actions);
    close(ends[1]);
    server->socket = ends[0];
    return server;
}

static struct server *take_server(void)
{
    pthread_mutex_lock(&idle_lock);
    struct server *server = idle;
    if (server != NULL)
        idle = server->next;
    pthread_mutex_unlock(&idle_lock);
    return server != NULL ? server : start_server();
}

static void give_back(struct server *server)
{
    pthread_mutex_lock(&idle_lock);
    server->next = idle;
    idle = server;
    pthread_mutex_unlock(&idle_lock);
}

static void make_room(struct server *server, size_t length)
{
    if (length <= server->room)
        return;
    server->bytes = realloc(server->bytes, length);
    if (server->bytes == NULL)
        give_up("no memory for a call");
    server->room = length;
}

static void send_call(struct server *server, struct call call, const struct part *parts)
{
    size_t length = sizeof call;
    for (size_t i = 0; i < call.parts; i++) {
        call.length[i] = parts[i].length;
        call.address[i] = (uintptr_t)parts[i].bytes % ADDRESS_STEP;
        length += parts[i].length;
    }
    make_room(server, length);
    memcpy(server->bytes, &call, sizeof call);
    uint8_t *to = server->bytes + sizeof call;
    for (size_t i = 0; i < call.parts; i++) {
        memcpy(to, parts[i].bytes, parts[i].length);
        to += parts[i].length;
    }
    if (send(server->socket, server->bytes, length, MSG_NOSIGNAL) != (ssize_t)length)
        give_up("the server has ended");
}

/* An answer is never longer than its call, so the buffer has room. */
static uint64_t receive_answer(const struct server *server, struct call call, const struct part *parts)
{
    struct answer answer;
    size_t length = sizeof answer;
    for (size_t i = call.files; i < call.parts; i++)
        length += parts[i].length;
    if (recv(server->socket, server->bytes, length, MSG_WAITALL) != (ssize_t)length)
        give_up("the server has ended");
    memcpy(&answer, server->bytes, sizeof answer);
    if (answer.harm)
        give_up("the library changed memory that was not lent for writing");
    const uint8_t *from = server->bytes + sizeof answer;
    for (size_t i = call.files; i < call.parts; i++) {
        memcpy(parts[i].bytes, from, parts[i].length);
        from += parts[i].length;
    }
    return answer.answer;
}

static uint64_t carry_call(struct call call, const struct part *parts)
{
    struct server *server = take_server();
    send_call(server, call, parts);
    uint64_t answer = receive_answer(server, call, parts);
    give_back(server);
    return answer;
}

static uint64_t carry(enum function function, size_t files, size_t count, const struct part *parts)
{
    return carry_call((struct call){ .function = function, .parts = count, .files = files }, parts);
}

static struct part file(const uint8_t *bytes, size_t length)
{
    return (struct part){ (uint8_t *)bytes, length };
}

static struct part cells(const uint64_t *cells, size_t count)
{
    return (struct part){ (uint8_t *)cells, count * sizeof *cells };
}

uint64_t checkraven_account(const uint8_t *own, size_t own_len, const uint8_t *book, size_t book_len,
                            const uint8_t *fugitive, size_t fugitive_len, const uint8_t *sheet, size_t sheet_len,
                            uint64_t *exact, size_t exact_len, uint64_t *shown, size_t shown_len)
{
    struct part parts[] = { file(own, own_len), file(book, book_len), file(fugitive, fugitive_len), file(sheet, sheet_len),
                            cells(exact, exact_len), cells(shown, shown_len) };
    return carry(ACCOUNT, 4, 6, parts);
}

uint64_t checkraven_account_bundle(const uint8_t *own, size_t own_len, const uint8_t *book, size_t book_len,
                                   const uint8_t *fugitive, size_t fugitive_len, const uint8_t *bundle, size_t bundle_len,
                                   uint64_t *exact, size_t exact_len, uint64_t *shown, size_t shown_len,
                                   uint64_t *outcomes, size_t outcomes_len)
{
    struct part parts[] = { file(own, own_len), file(book, book_len), file(fugitive, fugitive_len), file(bundle, bundle_len),
                            cells(exact, exact_len), cells(shown, shown_len), cells(outcomes, outcomes_len) };
    return carry(ACCOUNT_BUNDLE, 4, 7, parts);
}

uint64_t checkraven_report(const uint8_t *own, size_t own_len, const uint8_t *book, size_t book_len,
                           const uint8_t *fugitive, size_t fugitive_len, const uint8_t *sheet, size_t sheet_len,
                           uint8_t *text, size_t text_len)
{
    struct part parts[] = { file(own, own_len), file(book, book_len), file(fugitive, fugitive_len), file(sheet, sheet_len),
                            { text, text_len } };
    return carry(REPORT, 4, 5, parts);
}

uint64_t checkraven_sheet_from_text(const uint8_t *text, size_t text_len, uint8_t *sheet, size_t sheet_len)
{
    struct part parts[] = { file(text, text_len), { sheet, sheet_len } };
    return carry(SHEET_FROM_TEXT, 1, 2, parts);
}

uint64_t checkraven_text_from_sheet(const uint8_t *sheet, size_t sheet_len, uint8_t *text, size_t text_len)
{
    struct part parts[] = { file(sheet, sheet_len), { text, text_len } };
    return carry(TEXT_FROM_SHEET, 1, 2, parts);
}

uint64_t checkraven_account_text(const uint8_t *own, size_t own_len, const uint8_t *book, size_t book_len,
                                 const uint8_t *fugitive, size_t fugitive_len, const uint8_t *text, size_t text_len,
                                 uint64_t *exact, size_t exact_len, uint64_t *shown, size_t shown_len)
{
    struct part parts[] = { file(own, own_len), file(book, book_len), file(fugitive, fugitive_len), file(text, text_len),
                            cells(exact, exact_len), cells(shown, shown_len) };
    return carry(ACCOUNT_TEXT, 4, 6, parts);
}

uint64_t checkraven_row(const uint8_t *own, size_t own_len, const uint8_t *book, size_t book_len, uint64_t industry, uint64_t product,
                        uint64_t material, uint64_t process, uint64_t scale, uint64_t medium, uint64_t pollutant,
                        uint8_t *row, size_t row_len)
{
    struct part parts[] = { file(own, own_len), file(book, book_len), { row, row_len } };
    struct call call = { .function = ROW, .parts = 3, .files = 2,
                         .number = { industry, product, material, process, scale, medium, pollutant } };
    return carry_call(call, parts);
}

uint64_t checkraven_row_number(const uint8_t *own, size_t own_len, const uint8_t *book, size_t book_len, uint64_t industry,
                               uint64_t product, uint64_t material, uint64_t process, uint64_t scale, uint64_t medium,
                               uint64_t pollutant)
{
    struct part parts[] = { file(own, own_len), file(book, book_len) };
    struct call call = { .function = ROW_NUMBER, .parts = 2, .files = 2,
                         .number = { industry, product, material, process, scale, medium, pollutant } };
    return carry_call(call, parts);
}

uint64_t checkraven_step(uint64_t unit, const uint64_t *table, size_t table_len, uint64_t *next, size_t next_len)
{
    struct part parts[] = { cells(table, table_len), cells(next, next_len) };
    return carry_call((struct call){ .function = STEP, .parts = 2, .files = 1, .number = { unit } }, parts);
}

uint64_t checkraven_steps(uint64_t unit, const uint64_t *table, size_t table_len)
{
    struct part parts[] = { cells(table, table_len) };
    return carry_call((struct call){ .function = STEPS, .parts = 1, .files = 1, .number = { unit } }, parts);
}

/* cpg_stand_in.c: stands in for libcpg.so.4, the library of Corosync's closed process groups, where no Corosync is.

   Built:  cc -O2 -shared -fPIC -o FOLDER/libcpg.so.4 cpg_stand_in.c
   Used:   LD_LIBRARY_PATH=FOLDER CPG_STAND_IN=script tools/record --logs logs

   The file that CPG_STAND_IN names says what the daemon does, line by line:
     life                        what follows is for the next process that loads this library; the last part holds for all later ones
     node N                      the number of this node (1)
     answer CALL N [N ..]        what the calls of cpg_CALL return, one after another; the last one goes on. CALL is initialize, local, fd,
                                 join, leave, mcast, dispatch or finalize. `never`: this call does not return
     occupy FOLDER               before the first answer, a file of the name that the log of this process will have is made in the folder
   and then events, which cpg_dispatch delivers in this order once the process has asked to join:
     view [left P:N REASON].. [joined P:N REASON].. members P:N ..
                                 a change of the group. P is a node, N a process; `self` is this process. REASON is the library's number
     ring P SEQ P ..             a change of the ring: its representative, its number, its nodes
     deliver P:N TEXT            a message of another process
     echo                        from here on, whatever this process has sent or will send is delivered to it
     await sends N               goes on when N messages have been taken; `await leave`: when the process has asked to leave;
                                 `await go`: when there is a file script.go
     gone                        the daemon ends: its end of the descriptor is closed, and each call of which no `answer` speaks returns 2

   Beside it, `script.lives` has a byte for each process that has loaded this library, and `script.calls` a line for each call but dispatch: the
   number of the life, the process, the call, what it returned, and of a message its length and its first two words, of a join the group. If it is
   loaded by LD_PRELOAD too, there is also a line for each fsync of a file, with the size of the file.

   Loaded by LD_AUDIT, it hides libcpg.so.4 from the dynamic loader, as if it were not installed. */
#define _GNU_SOURCE
#include <errno.h>
#include <fcntl.h>
#include <stdarg.h>
#include <stdint.h>
#include <stdio.h>
#include <stdlib.h>
#include <string.h>
#include <sys/stat.h>
#include <sys/syscall.h>
#include <sys/uio.h>
#include <unistd.h>

enum { OK = 1, LIBRARY = 2, INVALID = 7, BAD_HANDLE = 9, BUSY = 10, NOT_EXIST = 12, TOO_LONG = 13 };
enum { INITIALIZE, LOCAL, FD, JOIN, LEAVE, MCAST, DISPATCH, FINALIZE, CALLS };
static const char *const names[CALLS] = { "initialize", "local", "fd", "join", "leave", "mcast", "dispatch", "finalize" };
enum { MOST_ANSWERS = 16, MOST_EVENTS = 256, MOST_MEMBERS = 64, AGREED = 2, DISPATCH_ALL = 2, INITIAL_RING = 1 };
static const uint64_t HANDLE = 0x5374616e64496eULL;

struct name { uint32_t length; char value[128]; };
struct address { uint32_t node, process, reason; };
struct ring { uint32_t node; uint64_t number; };
typedef void deliver_function(uint64_t, const struct name *, uint32_t, uint32_t, void *, size_t);
typedef void group_function(uint64_t, const struct name *, const struct address *, size_t, const struct address *, size_t,
                            const struct address *, size_t);
typedef void ring_function(uint64_t, struct ring, uint32_t, const uint32_t *);
struct model { int model; deliver_function *deliver; group_function *group; ring_function *ring; unsigned flags; };
struct list { struct address them[MOST_MEMBERS]; size_t count; };
struct message { struct message *next; size_t length; char contents[]; };

static struct model listener;
static struct name group;
static char *script, *occupied, *events[MOST_EVENTS];
static int answers[CALLS][MOST_ANSWERS], given[CALLS], made[CALLS];
static int life, event_count, next_event, is_open, is_gone, is_joining, is_member, is_leaving, does_echo, is_readable, ends[2];
static uint32_t node = 1;
static unsigned long taken;
static struct message *first, **last = &first;

/* ---- the script */

static char *beside(const char *ending) {
    char *path;
    if (asprintf(&path, "%s%s", script, ending) < 0) abort();
    return path;
}

static void note(const char *form, ...) {
    static int file = -1;
    char line[512];
    int length = snprintf(line, sizeof line, "%d %d ", life, (int)getpid());
    va_list rest;
    va_start(rest, form);
    length += vsnprintf(line + length, sizeof line - length - 2, form, rest);
    va_end(rest);
    if (length > (int)sizeof line - 2) length = sizeof line - 2;
    line[length] = '\n';
    if (file < 0) file = open(beside(".calls"), O_WRONLY | O_APPEND | O_CREAT | O_CLOEXEC, 0600);
    if (write(file, line, length + 1) < 0) return;
}

/* The process is wrong to do this, or the script has a mistake: nothing is told apart any more, so it ends. */
static void fail(const char *what) {
    fprintf(stderr, "cpg_stand_in: %s\n", what);
    note("wrong %s", what);
    _exit(99);
}

static void read_answers(char *words) {
    char *rest, *word = strtok_r(words, " ", &rest);
    int call = 0;
    while (call < CALLS && (!word || strcmp(word, names[call]))) call++;
    if (call == CALLS) fail("answer of no call");
    while ((word = strtok_r(0, " ", &rest)) && given[call] < MOST_ANSWERS)
        answers[call][given[call]++] = strcmp(word, "never") ? atoi(word) : -1;
}

static void read_line(char *line) {
    if (!strncmp(line, "node ", 5)) node = strtoul(line + 5, 0, 10);
    else if (!strncmp(line, "answer ", 7)) read_answers(line + 7);
    else if (!strncmp(line, "occupy ", 7)) occupied = strdup(line + 7);
    else if (*line && event_count < MOST_EVENTS) events[event_count++] = strdup(line);
}

/* Which process this is of those that load the library with this script, from 1 on. */
static int count_life(void) {
    int file = open(beside(".lives"), O_WRONLY | O_APPEND | O_CREAT | O_CLOEXEC, 0600);
    struct stat it;
    if (write(file, "+", 1) != 1 || fstat(file, &it)) return 1;
    close(file);
    return it.st_size;
}

static void begin(void) {
    char *line = 0;
    size_t room = 0;
    ssize_t length;
    script = getenv("CPG_STAND_IN");
    FILE *file = script ? fopen(script, "re") : 0;
    if (!file) { fputs("cpg_stand_in: CPG_STAND_IN names no file\n", stderr); _exit(99); }
    life = count_life();
    for (int part = 1; (length = getline(&line, &room, file)) >= 0;) {
        if (length && line[length - 1] == '\n') line[--length] = 0;
        if (!strcmp(line, "life")) {
            if (part++ == life) break;
            event_count = 0; node = 1; occupied = 0;
            memset(given, 0, sizeof given);
        } else read_line(line);
    }
    free(line);
    fclose(file);
}

static void occupy(void) {
    char *path;
    if (!occupied || asprintf(&path, "%s/%u.%d.log", occupied, node, (int)getpid() % 65535 + 1) < 0) return;
    int file = open(path, O_WRONLY | O_CREAT | O_EXCL, 0600);
    if (file < 0 || write(file, "# of another process\n", 21) != 21) fail("occupy");
    close(file);
}

/* ---- events */

static struct address address_of(const char *word) {
    struct address it = { node, getpid(), 0 };
    char *behind;
    if (!word) fail("a process is missing");
    if (strcmp(word, "self")) {
        it.node = strtoul(word, &behind, 10);
        if (*behind != ':') fail("no process");
        it.process = strtoul(behind + 1, 0, 10);
    }
    return it;
}

static void change_group(char *words) {
    struct list members = { .count = 0 }, left = { .count = 0 }, joined = { .count = 0 }, *to = 0;
    char *rest;
    for (char *word = strtok_r(words, " ", &rest); word; word = strtok_r(0, " ", &rest)) {
        if (!strcmp(word, "left")) { to = &left; continue; }
        if (!strcmp(word, "joined")) { to = &joined; continue; }
        if (!strcmp(word, "members")) { to = &members; continue; }
        if (!to || to->count == MOST_MEMBERS) fail("a view");
        struct address *it = &to->them[to->count++];
        *it = address_of(word);
        if (to != &members && !(word = strtok_r(0, " ", &rest))) fail("a reason is missing");
        if (to != &members) it->reason = strtoul(word, 0, 10);
    }
    is_member = 0;
    for (size_t at = 0; at < members.count; at++)
        is_member |= members.them[at].node == node && members.them[at].process == (uint32_t)getpid();
    listener.group(HANDLE, &group, members.them, members.count, left.them, left.count, joined.them, joined.count);
}

static void change_ring(char *words) {
    uint32_t nodes[MOST_MEMBERS], count = 0;
    struct ring ring = { strtoul(words, &words, 10), strtoull(words, &words, 10) };
    for (char *rest, *word = strtok_r(words, " ", &rest); word && count < MOST_MEMBERS; word = strtok_r(0, " ", &rest))
        nodes[count++] = strtoul(word, 0, 10);
    listener.ring(HANDLE, ring, count, nodes);
}

static void deliver(char *words) {
    char *text = strchr(words, ' ');
    if (!text) fail("deliver without a text");
    *text++ = 0;
    struct address sender = address_of(words);
    listener.deliver(HANDLE, &group, sender.node, sender.process, text, strlen(text));
}

static void go_away(void) {
    is_gone = 1;
    close(ends[1]);
}

/* Whether an event that waits for something can be passed. */
static int is_due(const char *event) {
    if (!strncmp(event, "await sends ", 12)) return taken >= strtoul(event + 12, 0, 10);
    if (!strcmp(event, "await leave")) return is_leaving;
    if (!strcmp(event, "await go")) { char *path = beside(".go"); int is_there = !access(path, F_OK); free(path); return is_there; }
    return 1;
}

static int waits(void) {
    return !is_gone && is_joining && ((does_echo && first) || (next_event < event_count && is_due(events[next_event])));
}

static void happen(char *event) {
    if (!strncmp(event, "view ", 5)) change_group(event + 5);
    else if (!strncmp(event, "ring ", 5)) change_ring(event + 5);
    else if (!strncmp(event, "deliver ", 8)) deliver(event + 8);
    else if (!strcmp(event, "echo")) does_echo = 1;
    else if (!strcmp(event, "gone")) go_away();
    else if (strncmp(event, "await ", 6)) fail(event);
}

static void deliver_own(void) {
    struct message *it = first;
    if (!(first = it->next)) last = &first;
    listener.deliver(HANDLE, &group, node, getpid(), it->contents, it->length);
    free(it);
}

/* Lets the descriptor be readable exactly while something waits. */
static void show(void) {
    char byte = 0;
    int does = waits();
    if (is_gone || does == is_readable) return;
    if (does ? write(ends[1], &byte, 1) < 0 : read(ends[0], &byte, 1) < 0) fail("the descriptor");
    is_readable = does;
}

/* ---- the calls */

static int answer(int call) {
    int nth = made[call]++, it = given[call] ? answers[call][nth < given[call] ? nth : given[call] - 1] : OK;
    if (is_gone && !given[call] && call != FINALIZE) it = LIBRARY;
    while (it < 0) pause();
    return it;
}

static int returned(int call, int it) {
    note("%s %d", names[call], it);
    show();
    return it;
}

int cpg_model_initialize(uint64_t *handle, int model, const struct model *it, void *context) {
    (void)context;
    if (!script) begin();
    if (is_open) fail("two connections");
    if (model != 1 || it->model != 1 || it->flags != INITIAL_RING || !it->deliver || !it->group || !it->ring) return returned(INITIALIZE, INVALID);
    int came = answer(INITIALIZE);
    if (came == OK && pipe2(ends, O_CLOEXEC)) fail("no pipe");
    if (came == OK) { occupy(); listener = *it; *handle = HANDLE; is_open = 1; }
    note("initialize %d", came);
    return came;
}

int cpg_local_get(uint64_t handle, unsigned *it) {
    if (handle != HANDLE || !is_open) return returned(LOCAL, BAD_HANDLE);
    int came = answer(LOCAL);
    if (came == OK) *it = node;
    return returned(LOCAL, came);
}

int cpg_fd_get(uint64_t handle, int *it) {
    if (handle != HANDLE || !is_open) return returned(FD, BAD_HANDLE);
    *it = ends[0];
    return returned(FD, answer(FD));
}

int cpg_join(uint64_t handle, const struct name *name) {
    if (handle != HANDLE || !is_open) return returned(JOIN, BAD_HANDLE);
    if (name->length > sizeof name->value) return returned(JOIN, TOO_LONG);
    int came = answer(JOIN);
    if (came == OK) { group = *name; is_joining = 1; }
    note("join %d %.*s", came, (int)name->length, name->value);
    show();
    return came;
}

int cpg_leave(uint64_t handle, const struct name *name) {
    if (handle != HANDLE || !is_open) return returned(LEAVE, BAD_HANDLE);
    if (!is_joining || name->length != group.length || memcmp(name->value, group.value, name->length)) return returned(LEAVE, NOT_EXIST);
    int came = answer(LEAVE);
    is_leaving |= came == OK;
    return returned(LEAVE, came);
}

int cpg_mcast_joined(uint64_t handle, int guarantee, const struct iovec *pieces, unsigned count) {
    if (handle != HANDLE || !is_open) return returned(MCAST, BAD_HANDLE);
    if (guarantee != AGREED || count != 1) return returned(MCAST, INVALID);
    if (!is_joining || is_leaving) return returned(MCAST, NOT_EXIST);
    if (!is_member) return returned(MCAST, BUSY);
    int came = answer(MCAST), words = 0, length = 0;
    const char *text = pieces->iov_base;
    while (length < (int)pieces->iov_len && length < 80 && !(text[length] == ' ' && words++)) length++;
    note("mcast %d %d %.*s", came, (int)pieces->iov_len, length, text);
    if (came == OK) {
        struct message *it = malloc(sizeof *it + pieces->iov_len);
        *it = (struct message){ 0, pieces->iov_len };
        memcpy(it->contents, text, it->length);
        *last = it; last = &it->next;
        taken++;
    }
    show();
    return came;
}

int cpg_dispatch(uint64_t handle, int types) {
    if (handle != HANDLE || !is_open) return BAD_HANDLE;
    if (types != DISPATCH_ALL) return INVALID;
    int came = answer(DISPATCH);
    while (came == OK && waits()) {
        if (does_echo && first) deliver_own();
        else happen(events[next_event++]);
    }
    show();
    return came;
}

int cpg_finalize(uint64_t handle) {
    if (handle != HANDLE || !is_open) return returned(FINALIZE, BAD_HANDLE);
    is_open = 0;
    note("finalize");
    return answer(FINALIZE);
}

/* ---- for LD_PRELOAD, and for LD_AUDIT */

int fsync(int file) {
    struct stat it;
    if (script && !fstat(file, &it) && S_ISREG(it.st_mode)) note("fsync %ld", (long)it.st_size);
    return syscall(SYS_fsync, file);
}


unsigned la_version(unsigned version) { return version; }

char *la_objsearch(const char *name, uintptr_t *cookie, unsigned how) {
    (void)cookie, (void)how;
    return strcmp(basename(name), "libcpg.so.4") ? (char *)name : 0;
}

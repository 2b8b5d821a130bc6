/* Asks servers and runs commands for bench/peers.sh, and prints nanoseconds and what was counted.
 * Of a reply it reads the length and all bytes, whoever sent it.
 *
 * client ask ADDRESS TIMES REQUEST
 *     the median of replies to a file's bytes; the bytes of the last one
 * client run COMMAND..
 *     a process from its start to its end; the bytes that it printed
 * client talk END TIMES FIRST FILE FILE COMMAND..
 *     the median of replies of a process that stays; the bytes of the last one. The reply to FIRST
 *     is not timed, and the other files take turns. A reply ends with the bytes END.
 * client fetch PORT BASIS FETCH [DIR]
 *     a basis and each content, kept below DIR; how many contents, and the bytes of all replies
 * client loopback BYTES
 *     bytes that another process sends over a connection
 * client write COUNT
 *     the median and the 99th of lines, each of which waits until the one before was taken
 * client poll PORT COUNT REQUEST
 *     no time: how often COUNT connections have polled when standard input ends
 *
 * ADDRESS is a port of 127.0.0.1, where frames are spoken, or the path of a socket, for BSER. */
#define _GNU_SOURCE
#include <arpa/inet.h>
#include <errno.h>
#include <fcntl.h>
#include <netinet/tcp.h>
#include <pthread.h>
#include <spawn.h>
#include <stdio.h>
#include <stdlib.h>
#include <string.h>
#include <sys/socket.h>
#include <sys/stat.h>
#include <sys/un.h>
#include <sys/wait.h>
#include <time.h>
#include <unistd.h>

enum {
    CHUNK = 1 << 18,
    POSITION = 30, /* where a frame has its position, after a length, two bytes and a query */
    LIST = POSITION + 36,
    MOST_FRAME = 4 + (1 << 24),
    MOST_PATH = 1024,
    ASKED = 64, /* contents asked for in one write */
    MOST_END = 64,
    LINE = 4096,
    MOST_POLLERS = 64
};

typedef struct {
    int from, to; /* what is read, and what is written */
    size_t begin, end;
    unsigned char bytes[CHUNK];
} Stream;

typedef struct {
    unsigned char *bytes;
    size_t length;
} Text;

extern char **environ;

/* Ends the client, since the system refused something. */
static void fail(const char *what) {
    fprintf(stderr, "client: %s: %s\n", what, strerror(errno));
    exit(1);
}

/* Ends the client, since something was not as it must be. */
static void refuse(const char *why) {
    fprintf(stderr, "client: %s\n", why);
    exit(1);
}

static long long now(void) {
    struct timespec time;
    clock_gettime(CLOCK_MONOTONIC, &time);
    return time.tv_sec * 1000000000LL + time.tv_nsec;
}

static void *allocate(size_t length) {
    void *made = malloc(length ? length : 1);
    if (!made) fail("memory");
    return made;
}

static int ascending(const void *left, const void *right) {
    long long a = *(const long long *)left, b = *(const long long *)right;
    return (a > b) - (a < b);
}

/* Returns the time below which a share of them is. */
static long long quantile(long long *times, size_t count, double share) {
    qsort(times, count, sizeof *times, ascending);
    return times[(size_t)((double)(count - 1) * share)];
}

static Text read_file(const char *name) {
    struct stat found;
    Text text;
    int file = open(name, O_RDONLY);
    if (file < 0 || fstat(file, &found)) fail(name);
    text.length = (size_t)found.st_size;
    text.bytes = allocate(text.length);
    if (read(file, text.bytes, text.length) != found.st_size) fail(name);
    close(file);
    return text;
}

static Stream *stream_of(int from, int to) {
    Stream *stream = allocate(sizeof *stream);
    stream->from = from, stream->to = to, stream->begin = stream->end = 0;
    return stream;
}

static Stream *connect_to(const char *address) {
    struct sockaddr_in port = {.sin_family = AF_INET};
    struct sockaddr_un path = {.sun_family = AF_UNIX};
    int made, one = 1, is_path = *address == '/';
    port.sin_port = htons((unsigned short)atoi(address));
    port.sin_addr.s_addr = htonl(INADDR_LOOPBACK);
    snprintf(path.sun_path, sizeof path.sun_path, "%s", address);
    made = socket(is_path ? AF_UNIX : AF_INET, SOCK_STREAM, 0);
    if (made < 0) fail("socket");
    if (!is_path) setsockopt(made, IPPROTO_TCP, TCP_NODELAY, &one, sizeof one);
    if (connect(made, is_path ? (void *)&path : (void *)&port, is_path ? sizeof path : sizeof port))
        fail(address);
    return stream_of(made, made);
}

static void put(Stream *stream, const void *bytes, size_t length) {
    while (length) {
        ssize_t sent = write(stream->to, bytes, length);
        if (sent <= 0) fail("write");
        bytes = (const char *)bytes + sent, length -= (size_t)sent;
    }
}

/* Reads what has come into the empty stream. Returns no bytes at the end alone. */
static size_t fill(Stream *stream) {
    ssize_t count = read(stream->from, stream->bytes, CHUNK);
    if (count < 0) fail("read");
    stream->begin = 0, stream->end = (size_t)count;
    return stream->end;
}

/* Takes the next bytes, and drops them if there is no place for them. */
static void take(Stream *stream, unsigned char *into, size_t length) {
    while (length) {
        size_t count;
        if (stream->begin == stream->end && !fill(stream)) refuse("a reply is cut");
        count = stream->end - stream->begin < length ? stream->end - stream->begin : length;
        if (into) memcpy(into, stream->bytes + stream->begin, count), into += count;
        stream->begin += count, length -= count;
    }
}

static size_t number(const unsigned char *bytes, int count) {
    size_t value = 0;
    for (int at = 0; at < count; at++) value = value << 8 | bytes[at];
    return value;
}

/* Reads the length of a BSER value, of version 1. */
static size_t bser_length(Stream *stream) {
    unsigned char head[3], bytes[8];
    size_t value = 0;
    int count;
    take(stream, head, 3);
    if (head[0] || head[1] != 1 || head[2] < 3 || head[2] > 6) refuse("a reply is no BSER");
    count = 1 << (head[2] - 3);
    take(stream, bytes, (size_t)count);
    while (count--) value = value << 8 | bytes[count];
    return value;
}

static size_t frame_length(Stream *stream) {
    unsigned char head[4];
    take(stream, head, 4);
    return number(head, 4);
}

static int ask(const char *address, int times, const char *file) {
    Text request = read_file(file);
    Stream *stream = connect_to(address);
    long long *took = allocate(sizeof *took * (size_t)times);
    size_t length = 0;
    for (int turn = -1; turn < times; turn++) {
        long long begun = now();
        put(stream, request.bytes, request.length);
        length = *address == '/' ? bser_length(stream) : frame_length(stream);
        take(stream, NULL, length);
        if (turn >= 0) took[turn] = now() - begun;
    }
    printf("%lld %zu\n", quantile(took, (size_t)times, 0.5), length);
    return 0;
}

/* Starts a command with pipes to it, if it is to be asked, and from it. */
static Stream *start(char **command, int is_asked, pid_t *process) {
    int asked[2] = {-1, -1}, printed[2];
    posix_spawn_file_actions_t actions;
    posix_spawn_file_actions_init(&actions);
    if (pipe2(printed, O_CLOEXEC) || (is_asked && pipe2(asked, O_CLOEXEC))) fail("pipe");
    fcntl(printed[1], F_SETPIPE_SZ, 1 << 20);
    posix_spawn_file_actions_adddup2(&actions, printed[1], 1);
    if (is_asked) posix_spawn_file_actions_adddup2(&actions, asked[0], 0);
    errno = posix_spawnp(process, *command, &actions, NULL, command, environ);
    if (errno) fail(*command);
    close(printed[1]);
    if (is_asked) close(asked[0]);
    return stream_of(printed[0], asked[1]);
}

static void end(pid_t process) {
    int status;
    if (waitpid(process, &status, 0) < 0 || status) refuse("the command has failed");
}

static int run(char **command) {
    long long begun = now();
    size_t bytes = 0;
    pid_t process;
    Stream *stream = start(command, 0, &process);
    while (fill(stream)) bytes += stream->end;
    end(process);
    printf("%lld %zu\n", now() - begun, bytes);
    return 0;
}

/* Reads a reply that ends with some bytes. Returns its length. */
static size_t take_until(Stream *stream, const char *last) {
    size_t length = strlen(last), bytes = 0;
    unsigned char tail[MOST_END] = {0}; /* the last bytes so far */
    do {
        size_t count = fill(stream), fresh = count < length ? count : length;
        if (!count) refuse("the command has ended");
        memmove(tail, tail + fresh, length - fresh);
        memcpy(tail + length - fresh, stream->bytes + count - fresh, fresh);
        bytes += count;
    } while (memcmp(tail, last, length));
    return bytes;
}

static int talk(const char *last, int times, char **files, char **command) {
    Text requests[3] = {read_file(files[0]), read_file(files[1]), read_file(files[2])};
    long long *took = allocate(sizeof *took * (size_t)times);
    size_t bytes = 0;
    pid_t process;
    Stream *stream = start(command, 1, &process);
    for (int turn = -1; turn < times; turn++) {
        Text *request = &requests[turn < 0 ? 0 : 1 + turn % 2];
        long long begun = now();
        put(stream, request->bytes, request->length);
        bytes = take_until(stream, last);
        if (turn >= 0) took[turn] = now() - begun;
    }
    close(stream->to);
    while (fill(stream)) {}
    end(process);
    printf("%lld %zu\n", quantile(took, (size_t)times, 0.5), bytes);
    return 0;
}

/* Makes the directories above a path. */
static void make_above(int directory, char *path) {
    for (char *at = path; (at = strchr(at, '/')); at++) {
        *at = 0;
        if (mkdirat(directory, path, 0777) && errno != EEXIST) fail(path);
        *at = '/';
    }
}

/* Writes the file of a ContentIs. */
static void keep(int directory, const unsigned char *body) {
    const unsigned char *at = body + LIST - 4;
    size_t length = number(at, 2), size = number(at + 2 + length + 1, 4);
    char path[MOST_PATH + 1];
    int file, how = O_WRONLY | O_CREAT | O_EXCL;
    memcpy(path, at + 2, length), path[length] = 0;
    file = openat(directory, path, how, 0666);
    if (file < 0) make_above(directory, path), file = openat(directory, path, how, 0666);
    if (file < 0 || write(file, at + 2 + length + 5, size) != (ssize_t)size) fail(path);
    close(file);
}

/* Asks for the contents of the next paths of a basis. Returns where the others begin. */
static unsigned char *ask_next(Stream *stream, Text head, unsigned char *at, size_t count) {
    static unsigned char requests[ASKED * (POSITION + 2 + MOST_PATH)];
    unsigned char *to = requests;
    while (count--) {
        size_t path = 2 + number(at, 2), body = head.length - 4 + path;
        memcpy(to, head.bytes, head.length);
        to[2] = (unsigned char)(body >> 8), to[3] = (unsigned char)body;
        memcpy(to + head.length, at, path);
        to += head.length + path, at += path;
    }
    put(stream, requests, (size_t)(to - requests));
    return at;
}

/* Reads one content, and keeps it if there is a place for it. Returns the bytes of its frame. */
static size_t take_content(Stream *stream, int directory, unsigned char *body) {
    size_t length = frame_length(stream);
    take(stream, directory < 0 ? NULL : body, length);
    if (directory >= 0) keep(directory, body);
    return 4 + length;
}

static int fetch(const char *port, const char *basis, const char *head, const char *into) {
    Text request = read_file(basis), fetch = read_file(head);
    Stream *stream = connect_to(port);
    unsigned char *list = allocate(MOST_FRAME), *body = allocate(MOST_FRAME), *at = list + LIST;
    int directory = into ? open(into, O_DIRECTORY | O_RDONLY) : -1;
    size_t count, asked = 0, bytes;
    long long begun = now();
    put(stream, request.bytes, request.length);
    bytes = 4 + frame_length(stream);
    take(stream, list + 4, bytes - 4);
    count = number(at, 4), at += 4;
    for (size_t come = 0; come < count; come++) {
        /* The next are asked for while as many are still to come. */
        if (asked - come <= ASKED && asked < count) {
            size_t more = count - asked < ASKED ? count - asked : ASKED;
            at = ask_next(stream, fetch, at, more), asked += more;
        }
        bytes += take_content(stream, directory, body);
    }
    printf("%lld %zu %zu\n", now() - begun, count, bytes);
    return 0;
}

/* Sends bytes once it is asked to, and ends. */
static void send_all(const char *port, size_t bytes) {
    static unsigned char chunk[CHUNK];
    Stream *stream = connect_to(port);
    memset(chunk, 'x', CHUNK);
    take(stream, NULL, 1);
    for (; bytes > CHUNK; bytes -= CHUNK) put(stream, chunk, CHUNK);
    put(stream, chunk, bytes);
    exit(0);
}

static int loopback(size_t bytes) {
    struct sockaddr_in address = {.sin_family = AF_INET};
    socklen_t length = sizeof address;
    char port[8];
    long long begun;
    pid_t process;
    Stream *stream;
    int made = socket(AF_INET, SOCK_STREAM, 0);
    address.sin_addr.s_addr = htonl(INADDR_LOOPBACK);
    if (bind(made, (void *)&address, length) || listen(made, 1)) fail("listen");
    getsockname(made, (void *)&address, &length);
    snprintf(port, sizeof port, "%d", ntohs(address.sin_port));
    process = fork();
    if (!process) send_all(port, bytes);
    made = accept(made, NULL, NULL);
    stream = stream_of(made, made);
    begun = now();
    put(stream, "x", 1);
    take(stream, NULL, bytes);
    printf("%lld %zu\n", now() - begun, bytes);
    end(process);
    return 0;
}

static int write_lines(int count) {
    long long *took = allocate(sizeof *took * (size_t)count);
    static char line[LINE];
    Stream *stream = stream_of(-1, 1);
    memset(line, 'x', LINE), line[LINE - 1] = '\n';
    for (int turn = -2; turn < count; turn++) {
        long long begun;
        int place = (turn + 2) * 7919 % 10000;
        int length = snprintf(line, LINE, "write d%02d/f%02d plain ", place / 100, place % 100);
        line[length] = 'x';
        begun = now();
        put(stream, line, LINE);
        if (turn >= 0) took[turn] = now() - begun;
    }
    fprintf(stderr, "%lld ", quantile(took, (size_t)count, 0.5));
    fprintf(stderr, "%lld\n", quantile(took, (size_t)count, 0.99));
    return 0;
}

typedef struct {
    const char *port;
    Text request;
    long polls;
} Poller;

/* Polls again and again, each time since the position of the last reply. */
static void *poll_on(void *given) {
    Poller *poller = given;
    unsigned char request[256], head[LIST - 4];
    Stream *stream = connect_to(poller->port);
    memcpy(request, poller->request.bytes, poller->request.length);
    for (;;) {
        size_t length;
        put(stream, request, poller->request.length);
        length = frame_length(stream);
        if (length < sizeof head + 8) refuse("a poll is refused");
        take(stream, head, sizeof head);
        take(stream, NULL, length - sizeof head);
        memcpy(request + POSITION, head + POSITION - 4, LIST - POSITION);
        poller->polls++;
    }
    return NULL;
}

static int poll_all(const char *port, int count, const char *file) {
    Poller pollers[MOST_POLLERS];
    long all = 0;
    char byte;
    for (int at = 0; at < count; at++) {
        pthread_t thread;
        pollers[at] = (Poller){port, read_file(file), 0};
        if (pthread_create(&thread, NULL, poll_on, &pollers[at])) fail("thread");
    }
    while (read(0, &byte, 1) > 0) {}
    for (int at = 0; at < count; at++) all += pollers[at].polls;
    printf("%ld\n", all);
    return 0;
}

int main(int count, char **words) {
    const char *mode = count > 2 ? words[1] : "";
    if (!strcmp(mode, "ask") && count == 5) return ask(words[2], atoi(words[3]), words[4]);
    if (!strcmp(mode, "run")) return run(words + 2);
    if (!strcmp(mode, "talk") && count > 7)
        return talk(words[2], atoi(words[3]), words + 4, words + 7);
    if (!strcmp(mode, "fetch") && count > 4) return fetch(words[2], words[3], words[4], words[5]);
    if (!strcmp(mode, "loopback")) return loopback(strtoul(words[2], NULL, 10));
    if (!strcmp(mode, "write")) return write_lines(atoi(words[2]));
    if (!strcmp(mode, "poll") && count == 5) return poll_all(words[2], atoi(words[3]), words[4]);
    fprintf(stderr, "client: no such words; client.c says which there are\n");
    return 2;
}

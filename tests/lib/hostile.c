/* hostile.c - floods both ports of a RADIUS server on 127.0.0.1, or finds what a datagram costs it. It wants Linux.
 *
 * hostile flood AUTHPORT ACCTPORT COUNT SEED
 *     COUNT datagrams and a few more, half to each port: half of them random octets, half packets that were right
 *     before they were changed at random, with their authenticators made right again; and markers among them. They come
 *     from 127.0.0.1 (secret testing123), 127.0.0.2 (secret 128 times s; it signs) and 127.0.0.3, which is no client.
 *
 *     The server is kept busy, and the room of its sockets is never overrun: after a fifth of it comes a marker, a
 *     packet that is always answered, and at most two markers are out. So every datagram is received, and every answer
 *     comes back here, where its Code, its Length and its Response Authenticator are looked at.
 *
 *     Of each port it prints the datagrams sent, the answers, those that are wrong, the octets of the longest, and the
 *     longest wait for a marker's answer in microseconds. It ends with 1 where a marker had no answer in ten seconds.
 *
 * hostile cost PORT SOURCE PID TIMES FILE [FOLLOWER]
 *     Sends the datagrams of FILE in turn, so many TIMES in all, from the address SOURCE, each once the one before it
 *     was answered. In FILE each has its length in front, in two octets. What is dropped is sent eight times at once
 *     (DROPS), and then that of the file FOLLOWER, which comes from 127.0.0.1 and is answered.
 *
 *     It prints the median of the time until an answer comes and the processor time of the process PID until then, in
 *     microseconds, and the octets of the longest answer. It ends with 1 where none comes within ten seconds. */
#define _GNU_SOURCE
#include <arpa/inet.h>
#include <dirent.h>
#include <errno.h>
#include <poll.h>
#include <pthread.h>
#include <stdatomic.h>
#include <stdio.h>
#include <stdlib.h>
#include <sys/socket.h>
#include <time.h>
#include <unistd.h>
#include "md5.h"

enum {
    LONGEST = 4096,
    LARGEST = 65507,
    HEADER = 20,
    SOURCES = 3,
    STRANGER = 2,
    SIGNER = 1,
    ACCOUNTS = 1000,
    SESSIONS = 64,
    DROPS = 8
};
enum {
    USER_NAME = 1,
    USER_PASSWORD = 2,
    CHAP_PASSWORD = 3,
    NAS_IP = 4,
    NAS_PORT = 5,
    CLASS = 25,
    NAS_ID = 32,
    PROXY_STATE = 33,
    STATUS = 40,
    SESSION_ID = 44,
    MULTI_ID = 50,
    CHALLENGE = 60,
    SIGNATURE = 80
};
static const uint8_t known[] = {1, 2, 3, 4, 5, 18, 24, 25, 26, 32, 33, 40, 44, 50, 60, 62, 79, 80, 255, 0};

static const char *const password = "pw-common";
static char secret_of[SOURCES][129] = {"testing123", "", "unknown"};
/* the boot number and the last accept number that a Class told */
static atomic_ullong boot, accepted;

typedef struct {
    uint8_t octets[LARGEST + 1];
    int len;
} datagram;
/* the Request Authenticators of what a socket sent, by Identifier */
typedef struct {
    int fd, source;
    uint8_t next;
    uint8_t authenticators[256][16];
} sender;
typedef struct {
    int is_auth, port;
    long count;
    uint64_t random[2];
    sender sources[SOURCES], marking;
    int depth, queued, markers;
    uint64_t marked[2];
    long sent, answers, wrong, longest, wait;
    datagram now;
} flood;

static void die(const char *what) {
    fprintf(stderr, "hostile: %s\n", what);
    exit(2);
}
static uint64_t now_ns(void) {
    struct timespec t;
    clock_gettime(CLOCK_MONOTONIC, &t);
    return t.tv_sec * 1000000000ull + t.tv_nsec;
}

static uint64_t any(flood *f) {
    uint64_t a = f->random[0], b = f->random[1];
    f->random[0] = b;
    a ^= a << 23;
    f->random[1] = a ^ b ^ (a >> 18) ^ (b >> 5);
    return f->random[1] + b;
}
static int below(flood *f, int most) { return any(f) % most; }
static void fill(flood *f, uint8_t *p, int len) {
    for (int i = 0; i < len; i += 8) {
        uint64_t one = any(f);
        memcpy(p + i, &one, len - i < 8 ? len - i : 8);
    }
}

/* ---- packets ---- */
static void put(datagram *d, int type, const void *value, int len) {
    if (d->len + 2 + len > LONGEST) return;
    d->octets[d->len] = type;
    d->octets[d->len + 1] = 2 + len;
    memcpy(d->octets + d->len + 2, value, len);
    d->len += 2 + len;
}
static void put_text(datagram *d, int type, const char *text) { put(d, type, text, strlen(text)); }
static void put_number(datagram *d, int type, uint32_t value) {
    value = htonl(value);
    put(d, type, &value, 4);
}
static void put_noise(flood *f, datagram *d, int type, int len) {
    uint8_t v[253];
    fill(f, v, len);
    put(d, type, v, len);
}
static void begin(flood *f, datagram *d, int code) {
    d->octets[0] = code;
    d->octets[1] = 0;
    fill(f, d->octets + 4, 16);
    d->len = HEADER;
}

static void put_pap(datagram *d, const char *secret, const char *text) {
    uint8_t v[128], h[16];
    const uint8_t *last = d->octets + 4;
    int len = strlen(text), padded = len ? (len + 15) / 16 * 16 : 16;
    memset(v, 0, sizeof v);
    memcpy(v, text, len);
    for (int k = 0; k < padded; k += 16) {
        md5_ctx m;
        md5_init(&m);
        md5_add(&m, secret, strlen(secret));
        md5_add(&m, last, 16);
        md5_end(&m, h);
        for (int i = 0; i < 16; i++) v[k + i] ^= h[i];
        last = v + k;
    }
    put(d, USER_PASSWORD, v, padded);
}
static void put_chap(flood *f, datagram *d, int len) {
    uint8_t v[17], challenge[253];
    const uint8_t *given = d->octets + 4;
    int size = 16;
    md5_ctx m;
    if (len >= 0) {
        fill(f, challenge, len);
        put(d, CHALLENGE, challenge, len);
        given = challenge;
        size = len;
    }
    v[0] = any(f);
    md5_init(&m);
    md5_add(&m, v, 1);
    md5_add(&m, password, strlen(password));
    md5_add(&m, given, size);
    md5_end(&m, v + 1);
    put(d, CHAP_PASSWORD, v, 17);
}
static void put_name(flood *f, datagram *d) {
    char name[80];
    if (!below(f, 16))
        snprintf(name, sizeof name, "%063d%d", 0, below(f, 8)); /* names that begin alike */
    else
        snprintf(name, sizeof name, "u%06d", below(f, ACCOUNTS + 50));
    put_text(d, USER_NAME, name);
}
static void put_nas(flood *f, datagram *d) {
    char name[16];
    int kind = below(f, 8);
    if (!kind) return;
    if (kind == 1) {
        put_number(d, NAS_IP, below(f, 8));
        return;
    }
    snprintf(name, sizeof name, "nas%d", below(f, 8));
    put_text(d, NAS_ID, name);
}
static void put_proxy_states(flood *f, datagram *d) {
    int times = below(f, 8) ? below(f, 3) : 2000, len = below(f, 2) ? 0 : below(f, 254);
    while (times-- && d->len + 2 + len <= LONGEST - below(f, 200)) put_noise(f, d, PROXY_STATE, len);
}
static void good_access(flood *f, datagram *d, int source) {
    int signs = source == SIGNER ? below(f, 8) : !below(f, 4);
    begin(f, d, 1);
    if (signs && below(f, 2)) {
        put(d, SIGNATURE, "\0\0\0\0\0\0\0\0\0\0\0\0\0\0\0", 16);
        signs = 0;
    }
    put_name(f, d);
    switch (below(f, 8)) {
    case 0:
        put_chap(f, d, -1);
        break;
    case 1:
        put_chap(f, d, below(f, 254));
        break;
    case 2:
        put_noise(f, d, USER_PASSWORD, 16 * below(f, 9));
        break;
    default:
        put_pap(d, secret_of[source], password);
    }
    put_nas(f, d);
    put_number(d, NAS_PORT, below(f, 100));
    put_proxy_states(f, d);
    if (signs) put(d, SIGNATURE, "\0\0\0\0\0\0\0\0\0\0\0\0\0\0\0", 16);
}
static void good_accounting(flood *f, datagram *d) {
    static const int statuses[] = {1, 1, 1, 2, 2, 3, 3, 3, 3, 3};
    char name[16];
    int status = statuses[below(f, 10)];
    if (!below(f, 500)) status = 7 + below(f, 2);
    begin(f, d, 4);
    put_number(d, STATUS, status);
    put_name(f, d);
    put_nas(f, d);
    snprintf(name, sizeof name, "s%d", below(f, SESSIONS));
    put_text(d, SESSION_ID, name);
    if (!below(f, 4)) {
        snprintf(name, sizeof name, "m%d", below(f, 4));
        put_text(d, MULTI_ID, name);
    }
    if (boot && below(f, 2)) {
        uint8_t class[16];
        uint64_t one = boot, number = accepted - below(f, 4);
        for (int i = 0; i < 8; i++) {
            class[i] = one >> (56 - 8 * i);
            class[8 + i] = number >> (56 - 8 * i);
        }
        put(d, CLASS, class, 16);
    }
    put_proxy_states(f, d);
}

/* ---- changes ---- */
/* where the attribute after the one at an octet begins, or 0 where there is none; a malformed list ends there */
static int next_attribute(const datagram *d, int at) {
    at = at ? at + d->octets[at + 1] : HEADER;
    return at + 2 <= d->len && d->octets[at + 1] >= 2 && at + d->octets[at + 1] <= d->len ? at : 0;
}
/* where one of the first attributes begins, or 0 */
static int some_attribute(flood *f, const datagram *d) {
    int at = 0, found[12], n = 0;
    while (n < 12 && (at = next_attribute(d, at))) found[n++] = at;
    return n ? found[below(f, n)] : 0;
}
static int strange_length(flood *f) {
    static const int lengths[] = {0, 1, 2, 255};
    int k = below(f, 6);
    return k < 4 ? lengths[k] : below(f, 256);
}

static void insert(flood *f, datagram *d) {
    int len = strange_length(f), room = len < 2 ? 2 : len, at = HEADER;
    if (d->len + room > LONGEST) return;
    if (below(f, 2)) {
        at = some_attribute(f, d);
        if (!at) at = d->len;
    } else
        at = d->len;
    memmove(d->octets + at + room, d->octets + at, d->len - at);
    d->len += room;
    d->octets[at] = below(f, 4) ? known[below(f, sizeof known)] : below(f, 256);
    d->octets[at + 1] = len;
    fill(f, d->octets + at + 2, room - 2);
}
static void change(flood *f, datagram *d) {
    int at = some_attribute(f, d), len;
    switch (below(f, 12)) {
    case 0:
        if (d->len > HEADER) d->octets[HEADER + below(f, d->len - HEADER)] = any(f);
        break;
    case 1:
        if (d->len > HEADER) d->octets[HEADER + below(f, d->len - HEADER)] ^= 1 << below(f, 8);
        break;
    case 2:
        d->len = HEADER + below(f, d->len - HEADER + 1);
        break;
    case 3:
        if (at) d->octets[at + 1] = strange_length(f);
        break;
    case 4:
        if (at) d->octets[at] = known[below(f, sizeof known)];
        break;
    case 5:
    case 6:
        insert(f, d);
        break;
    case 7:
        if (at && d->len + d->octets[at + 1] <= LONGEST) {
            len = d->octets[at + 1];
            memcpy(d->octets + d->len, d->octets + at, len);
            d->len += len;
        }
        break;
    case 8:
        if (at) {
            len = d->octets[at + 1];
            memmove(d->octets + at, d->octets + at + len, d->len - at - len);
            d->len -= len;
        }
        break;
    case 9:
        put_proxy_states(f, d);
        break;
    case 10:
        if (!below(f, 8))
            while (d->len + 2 <= LONGEST) {
                d->octets[d->len++] = known[below(f, sizeof known)];
                d->octets[d->len++] = 2;
            }
        break;
    case 11:
        if (!below(f, 4)) d->octets[0] = any(f);
        break;
    }
}
/* makes the Message-Authenticator and, of accounting, the Request Authenticator right, over what the Length takes in */
static void seal(datagram *d, const char *secret, int is_auth) {
    int len = d->octets[2] << 8 | d->octets[3], at = 0;
    md5_ctx m;
    if (len < HEADER || len > d->len) return;
    if (is_auth) {
        while ((at = next_attribute(d, at)))
            if (d->octets[at] == SIGNATURE && d->octets[at + 1] == 18 && at + 18 <= len) {
                memset(d->octets + at + 2, 0, 16);
                md5_hmac((const uint8_t *)secret, strlen(secret), d->octets, len, d->octets + at + 2);
                return;
            }
        return;
    }
    memset(d->octets + 4, 0, 16);
    md5_init(&m);
    md5_add(&m, d->octets, len);
    md5_add(&m, secret, strlen(secret));
    md5_end(&m, d->octets + 4);
}
static void set_length(datagram *d, int len) {
    d->octets[2] = len >> 8;
    d->octets[3] = len;
}

static void changed(flood *f, datagram *d, int source, uint8_t id) {
    if (f->is_auth)
        good_access(f, d, source);
    else
        good_accounting(f, d);
    for (int times = below(f, 4); times; times--) change(f, d);
    d->octets[1] = id;
    set_length(d, d->len);
    if (!below(f, 32)) set_length(d, below(f, 3) ? d->len - 2 + below(f, 5) : (int)any(f));
    if (!below(f, 16)) {
        int more = below(f, 100);
        fill(f, d->octets + d->len, more);
        d->len += more;
    }
    if (below(f, 32)) seal(d, secret_of[source], f->is_auth);
}
static void noise(flood *f, datagram *d, uint8_t id) {
    int kind = below(f, 4);
    d->len = kind < 2 ? below(f, 64) : kind == 2 ? below(f, 512) : below(f, LONGEST + 1);
    if (!below(f, 4000)) d->len = below(f, LARGEST + 1);
    fill(f, d->octets, d->len);
    if (d->len > 1) d->octets[1] = id;
    /* every other one has a right header, so that its attributes are looked at */
    if (d->len >= HEADER && d->len <= LONGEST && below(f, 2)) {
        d->octets[0] = f->is_auth ? 1 : 4;
        set_length(d, d->len);
    }
}

/* ---- sending and receiving ---- */
static void open_sender(sender *s, int source, int port) {
    struct sockaddr_in own = {.sin_family = AF_INET},
                       to = {.sin_family = AF_INET, .sin_port = htons(port), .sin_addr.s_addr = htonl(INADDR_LOOPBACK)};
    int room = 4 << 20;
    s->source = source;
    own.sin_addr.s_addr = htonl(INADDR_LOOPBACK + source);
    s->fd = socket(AF_INET, SOCK_DGRAM, 0);
    setsockopt(s->fd, SOL_SOCKET, SO_RCVBUF, &room, sizeof room);
    setsockopt(s->fd, SOL_SOCKET, SO_SNDBUF, &room, sizeof room);
    if (s->fd < 0 || bind(s->fd, (void *)&own, sizeof own) || connect(s->fd, (void *)&to, sizeof to)) die("no socket");
}
static void note_reply(flood *f, sender *s, const uint8_t *reply, int len) {
    const char *secret = secret_of[s->source];
    md5_ctx m;
    uint8_t h[16];
    f->answers++;
    if (len > f->longest) f->longest = len;
    if (s->source == STRANGER || len < HEADER || len > LONGEST || len != (reply[2] << 8 | reply[3])) {
        f->wrong++;
        return;
    }
    if (f->is_auth ? reply[0] != 2 && reply[0] != 3 : reply[0] != 5) {
        f->wrong++;
        return;
    }
    md5_init(&m);
    md5_add(&m, reply, 4);
    md5_add(&m, s->authenticators[reply[1]], 16);
    md5_add(&m, reply + HEADER, len - HEADER);
    md5_add(&m, secret, strlen(secret));
    md5_end(&m, h);
    if (memcmp(h, reply + 4, 16)) {
        f->wrong++;
        return;
    }
    if (reply[0] == 2)
        for (int at = HEADER; at + 18 <= len && reply[at + 1] >= 2; at += reply[at + 1])
            if (reply[at] == CLASS) {
                uint64_t one = 0, number = 0;
                for (int i = 0; i < 8; i++) {
                    one = one << 8 | reply[at + 2 + i];
                    number = number << 8 | reply[at + 10 + i];
                }
                accepted = number;
                boot = one;
            }
}
static int take_replies(flood *f, sender *s) {
    static __thread uint8_t room[LARGEST];
    int taken = 0;
    for (;;) {
        int len = recv(s->fd, room, sizeof room, MSG_DONTWAIT);
        if (len < 0 && errno == EINTR) continue;
        if (len < 0) return taken;
        note_reply(f, s, room, len);
        taken++;
    }
}
static void send_one(flood *f, sender *s, const datagram *d) {
    if (d->len >= HEADER) memcpy(s->authenticators[d->octets[1]], d->octets + 4, 16);
    while (send(s->fd, d->octets, d->len, 0) < 0)
        if (errno != EINTR) die("a send failed");
    f->sent++;
}
static void wait_for_marker(flood *f) {
    struct pollfd one = {.fd = f->marking.fd, .events = POLLIN};
    int taken;
    while (!(taken = take_replies(f, &f->marking))) {
        if (now_ns() - f->marked[0] > 10000000000ull) {
            fprintf(stderr, "hostile: no answer in ten seconds\n");
            exit(1);
        }
        poll(&one, 1, 100);
    }
    long wait = (now_ns() - f->marked[0]) / 1000;
    if (wait > f->wait) f->wait = wait;
    f->marked[0] = f->marked[1];
    f->markers -= taken;
    for (int i = 0; i < SOURCES; i++) take_replies(f, &f->sources[i]);
}
/* an Access-Request whose list is malformed, or an Accounting-Request with a status that means nothing */
static void mark(flood *f) {
    datagram *d = &f->now;
    begin(f, d, f->is_auth ? 1 : 4);
    if (f->is_auth) {
        d->octets[HEADER] = USER_NAME;
        d->octets[HEADER + 1] = 0;
        d->len += 2;
    } else
        put_number(d, STATUS, 15);
    d->octets[1] = f->marking.next++;
    set_length(d, d->len);
    seal(d, secret_of[0], f->is_auth);
    f->marked[f->markers++] = now_ns();
    send_one(f, &f->marking, d);
    f->queued = 0;
    if (f->markers == 2) wait_for_marker(f);
}
/* what a datagram takes of a socket's room, at most */
static int room_of(int len) {
    int size = 1024;
    while (size < len + 512) size *= 2;
    return size + 256;
}

static void *run(void *given) {
    flood *f = given;
    datagram *d = &f->now;
    for (int i = 0; i < SOURCES; i++) open_sender(&f->sources[i], i, f->port);
    open_sender(&f->marking, 0, f->port);
    while (f->sent < f->count - 1) {
        int source = below(f, 16);
        sender *s = &f->sources[source < 10 ? 0 : source < 15 ? SIGNER : STRANGER];
        if (below(f, 2))
            noise(f, d, s->next++);
        else
            changed(f, d, s->source, s->next++);
        if (room_of(d->len) > f->depth) {
            datagram kept = *d;
            mark(f);
            while (f->markers) wait_for_marker(f);
            *d = kept;
        }
        f->queued += room_of(d->len);
        send_one(f, s, d);
        if (f->queued > f->depth) mark(f);
    }
    mark(f);
    while (f->markers) wait_for_marker(f);
    return NULL;
}
static long number(const char *text) { return strtol(text, NULL, 10); }

static int flooded(char **words) {
    static flood floods[2];
    pthread_t threads[2];
    int room = 212992;
    FILE *file = fopen("/proc/sys/net/core/rmem_default", "r");
    if (file) {
        if (fscanf(file, "%d", &room) != 1) room = 212992;
        fclose(file);
    }
    for (int i = 0; i < 2; i++) {
        flood *f = &floods[i];
        uint64_t seed = number(words[3]);
        f->is_auth = !i;
        f->port = number(words[i]);
        f->count = (number(words[2]) + i) / 2;
        f->depth = room / 5;
        f->random[0] = seed * 2654435761u + i + 1;
        f->random[1] = 88172645463325252ull ^ seed;
        for (int k = 0; k < 32; k++) any(f);
        if (pthread_create(&threads[i], NULL, run, f)) die("no thread");
    }
    for (int i = 0; i < 2; i++) pthread_join(threads[i], NULL);
    for (int i = 0; i < 2; i++)
        printf("%s sent=%ld answers=%ld wrong=%ld longest=%ld wait_us=%ld\n", i ? "acct" : "auth", floods[i].sent,
               floods[i].answers, floods[i].wrong, floods[i].longest, floods[i].wait);
    return 0;
}
/* ---- what a datagram costs ---- */
typedef struct {
    const uint8_t *octets;
    long len;
} record;

/* the datagrams of a file, and how many they are */
static record *records(const char *name, long *count) {
    FILE *file = fopen(name, "rb");
    record *list = NULL;
    uint8_t *whole;
    long size;
    if (!file || fseek(file, 0, SEEK_END) || (size = ftell(file)) < 2) die("no file");
    rewind(file);
    if (!(whole = malloc(size)) || fread(whole, 1, size, file) != (size_t)size) die("no memory for the file");
    fclose(file);
    *count = 0;
    for (long at = 0; at + 2 <= size; at += 2 + list[(*count)++].len) {
        if (!(*count & 1023) && !(list = realloc(list, (*count + 1024) * sizeof *list))) die("no memory");
        list[*count] = (record){whole + at + 2, whole[at] << 8 | whole[at + 1]};
    }
    return list;
}
/* the nanoseconds of processor time that all threads of a process have had */
static uint64_t processor_ns(const char *pid) {
    char name[600];
    struct dirent *thread;
    uint64_t sum = 0, one;
    DIR *threads;
    snprintf(name, sizeof name, "/proc/%s/task", pid);
    if (!(threads = opendir(name))) die("no process");
    while ((thread = readdir(threads))) {
        FILE *file;
        snprintf(name, sizeof name, "/proc/%s/task/%s/schedstat", pid, thread->d_name);
        if (thread->d_name[0] == '.' || !(file = fopen(name, "r"))) continue;
        if (fscanf(file, "%lu", &one) == 1) sum += one;
        fclose(file);
    }
    closedir(threads);
    return sum;
}
static int is_before(const void *one, const void *other) {
    uint64_t a = *(uint64_t *)one, b = *(uint64_t *)other;
    return a < b ? -1 : a > b;
}

/* a socket at an address, that sends to a port, and waits ten seconds at most */
static int socket_at(const char *source, int port) {
    struct sockaddr_in own = {.sin_family = AF_INET},
                       to = {.sin_family = AF_INET, .sin_port = htons(port), .sin_addr.s_addr = htonl(INADDR_LOOPBACK)};
    struct timeval most = {.tv_sec = 10};
    int fd = socket(AF_INET, SOCK_DGRAM, 0);
    if (inet_pton(AF_INET, source, &own.sin_addr) != 1 || setsockopt(fd, SOL_SOCKET, SO_RCVTIMEO, &most, sizeof most))
        die("no address");
    if (bind(fd, (void *)&own, sizeof own) || connect(fd, (void *)&to, sizeof to)) die("no socket");
    return fd;
}
static int cost(int count, char **words) {
    long times = number(words[3]), given, followers = 0, longest = 0, len;
    static uint8_t reply[LARGEST];
    record *list = records(words[4], &given), *follower = count > 5 ? records(words[5], &followers) : NULL;
    int fd = socket_at(words[1], number(words[0])),
        answering = follower ? socket_at("127.0.0.1", number(words[0])) : fd;
    uint64_t *waits = calloc(times, sizeof *waits), processor = processor_ns(words[2]);
    for (long i = 0; i < times; i++) {
        uint64_t start = now_ns();
        for (int k = 0; k < (follower ? DROPS : 1); k++)
            if (send(fd, list[i % given].octets, list[i % given].len, 0) < 0) die("a send failed");
        if (follower && send(answering, follower->octets, follower->len, 0) < 0) die("a send failed");
        if ((len = recv(answering, reply, sizeof reply, 0)) < 0) {
            fprintf(stderr, "hostile: no answer in ten seconds\n");
            return 1;
        }
        waits[i] = now_ns() - start;
        if (len > longest) longest = len;
    }
    processor = processor_ns(words[2]) - processor;
    qsort(waits, times, sizeof *waits, is_before);
    printf("wait_us=%.3f processor_us=%.3f longest=%ld\n", waits[times / 2] / 1e3, processor / 1e3 / times, longest);
    return 0;
}
int main(int count, char **words) {
    memset(secret_of[SIGNER], 's', 128);
    if (count == 6 && !strcmp(words[1], "flood")) return flooded(words + 2);
    if ((count == 7 || count == 8) && !strcmp(words[1], "cost")) return cost(count - 2, words + 2);
    die("usage: hostile flood AUTHPORT ACCTPORT COUNT SEED, or hostile cost PORT SOURCE PID TIMES FILE [FOLLOWER]");
}

/* Long traces and audit logs, made while they are read. A test tool.
 *
 *   long trace SEED COUNT FLOWS SEATS COST [COPY]
 *
 * A trace of this many requests. Times when more come than this many seats can serve take turns with quieter ones. One line in 50 comes up to 4,000 places
 * late. Half of the requests are of five of the flows. The line COST, from 1, has a cost; with 0 no line has. The
 * trace is written to the file of the number COPY too.
 *
 *   long log SEED COUNT SUMS
 *
 * An audit log of this many events that are taken, in the order of their ends, and some that are not. One in 40 waited. One in 30 is of a user whose
 * requests all run for 5,120 microseconds, of which some were turned away: such a median is told in full, since it has four binary digits. SUMS gets a line
 * for each user: its number, requests, and how long they ran together, with those that were turned away as the others; and then how many were turned away,
 * and how many events have no user's name. */
#include <errno.h>
#include <stdint.h>
#include <stdio.h>
#include <stdlib.h>
#include <string.h>
#include <unistd.h>

static uint64_t state;

/* What is printed, which goes out where there is no room for one piece more. */
static char out[1 << 16];
static size_t filled;
static int is_broken, copy = -1;

static void write_whole(int file) {
    for (size_t done = 0; done < filled && !is_broken;) {
        ssize_t more = write(file, out + done, filled - done);
        if (more > 0)
            done += more;
        else if (more == 0 || errno != EINTR)
            is_broken = 1;
    }
}

static void flush(void) {
    write_whole(1);
    if (copy >= 0)
        write_whole(copy);
    filled = 0;
}

static char *room_for(size_t size) {
    if (filled + size > sizeof out)
        flush();
    filled += size;
    return out + filled - size;
}

#define PUT(text) memcpy(room_for(sizeof text - 1), text, sizeof text - 1)

/* A number of this many digits, with zeros in front. The bases are known where it is compiled: division by them is a multiplication. */
static inline __attribute__((always_inline)) void padded(uint64_t number, int digits, unsigned base) {
    char *at = room_for(digits);
    while (digits--) {
        at[digits] = "0123456789abcdef"[number % base];
        number /= base;
    }
}

static void put_number(uint64_t number) {
    char digits[20], *at = digits + sizeof digits;
    do {
        *--at = '0' + number % 10;
    } while (number /= 10);
    memcpy(room_for(digits + sizeof digits - at), at, digits + sizeof digits - at);
}

/* xorshift64* */
static uint64_t below(uint64_t most) {
    state ^= state >> 12;
    state ^= state << 25;
    state ^= state >> 27;
    return ((state * 0x2545f4914f6cdd1d) >> 33) % most;
}

static void trace(int64_t count, uint64_t flows, uint64_t seats, int64_t cost) {
    static const int widths[] = {1, 1, 1, 1, 1, 1, 2, 2, 3, 5};
    /* in 1/1024 microseconds, so that many seats have their traffic too: a request takes 1.8 seats for 21,000 microseconds */
    uint64_t now = 1000000 * 1024ull, gap = 21000 * 18 * 1024 / 10 / seats;
    for (int64_t line = 0; line < count; line++) {
        int is_busy = line / 20000 % 2 == 0;
        now += below(2 * gap) * (is_busy ? 3 : 5) / 4;
        uint64_t flow = below(2) ? below(5) : below(flows), runs = below(4000ull << flow % 6);
        uint64_t late = below(50) ? 0 : below(4000) * gap;
        PUT("{\"hash\":");
        put_number(flow * 0x9e3779b97f4a7c15 ^ flow);
        uint64_t width = widths[below(10)];
        if (width > 1) {
            PUT(",\"width\":");
            put_number(width);
        }
        if (line + 1 == cost)
            PUT(",\"cost\":7");
        PUT(",\"arrivesAt\":");
        put_number((now > late ? now - late : 0) / 1024);
        PUT(",\"runsFor\":");
        put_number(runs);
        PUT("}\n");
    }
}

enum { USERS = 200, STEADY = 7 };

static void put_instant(uint64_t micros) {
    uint64_t seconds = micros / 1000000;
    PUT("2026-07-01T");
    padded(seconds / 3600 % 24, 2, 10);
    PUT(":");
    padded(seconds / 60 % 60, 2, 10);
    PUT(":");
    padded(seconds % 60, 2, 10);
    PUT(".");
    padded(micros % 1000000, 6, 10);
    PUT("Z");
}

#define PUT_WORD(text) memcpy(room_for(strlen(text)), text, strlen(text))

static void event(uint64_t number, const char *stage, const char *verb, int user, int code, uint64_t received, uint64_t ended, uint64_t waited) {
    PUT("{\"kind\":\"Event\",\"apiVersion\":\"audit.k8s.io/v1\",\"level\":\"Metadata\",\"auditID\":\"");
    padded(number, 32, 16);
    PUT("\",\"stage\":\"");
    PUT_WORD(stage);
    PUT("\",\"requestURI\":\"/api/v1/namespaces/team-");
    put_number(user < 0 ? 0 : user % 20);
    PUT("/pods?limit=500\",\"verb\":\"");
    PUT_WORD(verb);
    PUT("\",\"user\":{");
    if (user >= 0) {
        PUT("\"username\":\"system:serviceaccount:team-");
        put_number(user % 20);
        PUT(":worker-");
        put_number(user);
        PUT("\",\"uid\":\"");
        padded(user, 8, 16);
        PUT("-0b7c-4d3e-9a55-2f60c1e7d7aa\",");
    }
    PUT("\"groups\":[\"system:serviceaccounts\",\"system:serviceaccounts:team-1\",\"system:authenticated\"]},\"sourceIPs\":[\"10.0.7.19\"],");
    PUT("\"userAgent\":\"kubectl/v1.34.1 (linux/amd64) kubernetes/93248f9\",\"objectRef\":{\"resource\":\"pods\",\"namespace\":\"team-1\",\"apiVersion\":\"v1\"},");
    PUT("\"responseStatus\":{\"metadata\":{},\"code\":");
    put_number(code);
    PUT("},\"requestReceivedTimestamp\":\"");
    put_instant(received);
    PUT("\",\"stageTimestamp\":\"");
    put_instant(ended);
    PUT("\",\"annotations\":{");
    if (waited) {
        PUT("\"apiserver.latency.k8s.io/apf-queue-wait\":\"");
        put_number(waited);
        PUT("\xc2\xb5s\",");
    }
    PUT("\"authorization.k8s.io/decision\":\"allow\",\"authorization.k8s.io/reason\":\"RBAC: allowed by RoleBinding worker of team\"}}\n");
}

static void audit_log(uint64_t count, const char *name) {
    uint64_t requests[USERS] = {0}, ran[USERS] = {0}, refused = 0, unnamed = 0;
    for (uint64_t number = 0; number < count; number++) {
        uint64_t ended = 36000000000ull + 700 * number;
        int user = below(30) ? below(USERS) : STEADY, code = 200;
        uint64_t runs = user == STEADY ? 5120 : below(50) ? below(100ull * user + 10) : below(900000);
        uint64_t waited = below(40) ? 0 : 1 + below(30000);
        requests[user]++;
        ran[user] += runs;
        if (user == STEADY && below(4) == 0) {
            refused++;
            code = 429;
            waited = 0;
        }
        event(number, "ResponseComplete", "list", user, code, ended - waited - (code == 429 ? below(50) : runs), ended, waited);
        if (below(20) == 0)
            event(number, "RequestReceived", "list", user, 200, ended, ended, 0);
        if (below(100) == 0)
            event(number, "ResponseComplete", "watch", user, 200, ended - 1000000, ended, 0);
        if (below(200) == 0) {
            event(number, "ResponseComplete", "get", -1, 401, ended, ended, 0);
            unnamed++;
        }
    }
    FILE *sums = fopen(name, "w");
    if (!sums)
        exit(2);
    for (int user = 0; user < USERS; user++)
        fprintf(sums, "%d %llu %llu\n", user, (unsigned long long)requests[user], (unsigned long long)ran[user]);
    fprintf(sums, "%llu %llu\n", (unsigned long long)refused, (unsigned long long)unnamed);
    fclose(sums);
}

int main(int words, char **word) {
    if (words < 5)
        return 2;
    state = 0x9e3779b97f4a7c15 ^ strtoull(word[2], NULL, 10);
    if (words == 8)
        copy = atoi(word[7]);
    if (!strcmp(word[1], "trace") && (words == 7 || words == 8))
        trace(atoll(word[3]), strtoull(word[4], NULL, 10), strtoull(word[5], NULL, 10), atoll(word[6]));
    else if (!strcmp(word[1], "log"))
        audit_log(strtoull(word[3], NULL, 10), word[4]);
    else
        return 2;
    flush();
    return is_broken;
}

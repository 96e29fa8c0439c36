/* A server that has one level, `apf serve`, and a clock of its own. A test tool.
 *
 *   client TRACE PATIENCE SOONEST TOLD
 *
 * Its standard output is read by `apf serve`, and its standard input is what that prints. The requests of TRACE come in its lines' order, which is that of
 * their times. The lines are as {"schema":"a","distinguisher":"b","arrivesAt":4,"runsFor":5}. No request runs for less than SOONEST. TOLD gets a line for
 * each flow: its distinguisher, how many of its requests came and how many were turned away; and then the book. Times are in microseconds. */
#include <errno.h>
#include <stdint.h>
#include <stdio.h>
#include <stdlib.h>
#include <string.h>
#include <unistd.h>

enum { NUMBERS = 10000, FLOWS = 100, TOGETHER = 500, ROOM = 1 << 20, MOST_DUE = 1 << 20 };
/* at one time finishes come first, then those who give up, then arrivals */
enum { FINISH, GIVE_UP, ARRIVE };

struct arrival {
    int64_t at, runs;
    int flow;
};

struct due {
    int64_t at;
    int kind, number;
    /* of one who waits: its place among all that waited, since its number may be another request's later */
    int64_t wait;
};

struct flow {
    /* what its requests ask, without the last bracket, and the name in it */
    char asks[200], *name;
    long came, away;
};

static void fail(const char *what) {
    fprintf(stderr, "client: %s\n", what);
    exit(2);
}

/* The trace. */

static struct arrival *arrivals;
static long arrival_count;
static struct flow flows[FLOWS];
static int flow_count;

static int flow_of(const char *asks) {
    int flow = 0;
    while (flow < flow_count && strcmp(flows[flow].asks, asks))
        flow++;
    if (flow == FLOWS)
        fail("too many flows");
    if (flow == flow_count) {
        strcpy(flows[flow].asks, asks);
        flows[flow].name = strstr(flows[flow].asks, "\"distinguisher\":\"") + strlen("\"distinguisher\":\"");
        flow_count++;
    }
    return flow;
}

static void read_trace(const char *name) {
    static char line[200];
    long room = 0;
    FILE *file = fopen(name, "r");
    if (!file)
        fail(name);
    while (fgets(line, sizeof line, file)) {
        char *at = strstr(line, ",\"arrivesAt\":");
        if (arrival_count == room && !(arrivals = realloc(arrivals, (room = 2 * room + 1000) * sizeof *arrivals)))
            fail("out of memory");
        struct arrival *it = &arrivals[arrival_count++];
        if (!at || sscanf(at, ",\"arrivesAt\":%ld,\"runsFor\":%ld}", &it->at, &it->runs) != 2)
            fail(line);
        *at = 0;
        it->flow = flow_of(line);
    }
    fclose(file);
}

/* What else is due, the first on top. */

static struct due heap[MOST_DUE];
static int heap_count;

static int is_before(const struct due *one, const struct due *other) {
    if (one->at != other->at)
        return one->at < other->at;
    if (one->kind != other->kind)
        return one->kind < other->kind;
    return one->number < other->number;
}

static void push(struct due it) {
    if (heap_count == MOST_DUE)
        fail("too much is due");
    int at = heap_count++;
    for (; at && is_before(&it, &heap[(at - 1) / 2]); at = (at - 1) / 2)
        heap[at] = heap[(at - 1) / 2];
    heap[at] = it;
}

static void pop(void) {
    struct due moved = heap[--heap_count];
    int at = 0, child;
    while ((child = 2 * at + 1) < heap_count) {
        if (child + 1 < heap_count && is_before(&heap[child + 1], &heap[child]))
            child++;
        if (!is_before(&heap[child], &moved))
            break;
        heap[at] = heap[child];
        at = child;
    }
    heap[at] = moved;
}

/* The numbers: whose each is, how long that runs, and its place among all that waited while it waits. */

static int free_numbers[NUMBERS], free_count, flow_at[NUMBERS];
static int64_t runs_at[NUMBERS], wait_at[NUMBERS], waited;

static void end(int number, int is_away) {
    flows[flow_at[number]].away += is_away;
    wait_at[number] = 0;
    free_numbers[free_count++] = number;
}

static void start(int number, int64_t now) {
    wait_at[number] = 0;
    push((struct due){now + runs_at[number], FINISH, number, 0});
}

/* What is asked together, and its lines. */

static struct due asked[TOGETHER];
static int asked_count;
static char lines[ROOM], told[ROOM];
static long lines_length, told_length;

/* No request runs for less than that, so what is due in less than that after the first of all is in its order, whatever the answers are. Whether somebody
 * still waits who would give up is known once all that was due before is answered. */
static void ask(long *coming, int64_t soonest) {
    int64_t last = -1;
    asked_count = lines_length = 0;
    while ((heap_count || *coming < arrival_count) && asked_count < TOGETHER) {
        const struct arrival *next = &arrivals[*coming];
        int comes = !heap_count || (*coming < arrival_count && next->at < heap[0].at);
        struct due it = comes ? (struct due){next->at, ARRIVE, 0, 0} : heap[0];
        if (last < 0)
            last = it.at + soonest;
        int is_over = it.kind == GIVE_UP && wait_at[it.number] != it.wait;
        if (it.at >= last || (it.kind == GIVE_UP && asked_count && !is_over))
            return;
        char *to = lines + lines_length;
        if (comes) {
            if (!free_count)
                fail("no number is free");
            it.number = free_numbers[--free_count];
            flow_at[it.number] = next->flow;
            runs_at[it.number] = next->runs;
            flows[next->flow].came++;
            ++*coming;
            lines_length += sprintf(to, "arrive %d %s}\n", it.number, flows[next->flow].asks);
        } else {
            pop();
            if (is_over)
                continue;
            lines_length += it.kind == GIVE_UP ? sprintf(to, "cancel %d\n", it.number) : sprintf(to, "finish %d %ld\n", it.number, runs_at[it.number]);
        }
        asked[asked_count++] = it;
    }
}

static long more(void) {
    long read_now = 0;
    if (told_length < ROOM - 1)
        do
            read_now = read(0, told + told_length, ROOM - 1 - told_length);
        while (read_now < 0 && errno == EINTR);
    if (read_now > 0)
        told_length += read_now;
    told[told_length] = 0;
    return read_now;
}

/* Whether the last line is there, and is that of a fault. */
static int is_told(void) {
    if (!told_length || told[told_length - 1] != '\n')
        return 0;
    long at = told_length - 1;
    while (at && told[at - 1] != '\n')
        at--;
    return !strncmp(told + at, "fault ", 6);
}

/* A line that is no command comes behind them, and ends the answers. */
static void hear(void) {
    lines[lines_length++] = '\n';
    for (long done = 0; done < lines_length;) {
        long now = write(1, lines + done, lines_length - done);
        if (now <= 0 && errno != EINTR)
            fail("cannot write");
        done += now > 0 ? now : 0;
    }
    told_length = 0;
    while (!is_told())
        if (more() <= 0)
            fail("the answers end");
}

/* What is answered to each of those that were asked. Behind an answer stand those that it dispatched. */
static void take(int64_t patience) {
    int answers = 0;
    const struct due *it = NULL;
    for (char *line = told; *line; line = strchr(line, '\n') + 1) {
        if (!strncmp(line, "dispatch ", 9)) {
            start(atoi(line + 9), it ? it->at : 0);
            continue;
        }
        if (!strncmp(line, "strike ", 7))
            continue;
        if (!strncmp(line, "fault ", 6))
            break;
        if (answers == asked_count)
            fail("there are more answers than lines");
        it = &asked[answers++];
        const char *answer = strchr(strchr(line, ' ') + 1, ' ');
        if (it->kind == FINISH) {
            end(it->number, 0);
        } else if (it->kind == ARRIVE && answer && !strncmp(answer, " execute\n", 9)) {
            start(it->number, it->at);
        } else if (it->kind == ARRIVE && answer && !strncmp(answer, " queued ", 8)) {
            wait_at[it->number] = ++waited;
            push((struct due){it->at + patience, GIVE_UP, it->number, waited});
        } else if (it->kind == ARRIVE || (answer && !strncmp(answer, " cancelled\n", 11))) {
            end(it->number, 1);
        }
    }
    if (answers != asked_count)
        fail("a line has no answer");
}

int main(int words, char **word) {
    if (words != 5)
        fail("usage: client TRACE PATIENCE SOONEST TOLD");
    read_trace(word[1]);
    while (free_count < NUMBERS)
        free_numbers[free_count] = NUMBERS - 1 - free_count, free_count++;
    /* the first line says what the level is */
    do
        if (more() <= 0)
            fail("no first line");
    while (told[told_length - 1] != '\n');
    for (long coming = 0; heap_count || coming < arrival_count;) {
        ask(&coming, atoll(word[3]));
        if (asked_count) {
            hear();
            take(atoll(word[2]));
        }
    }
    close(1);
    told_length = 0;
    while (more() > 0)
        ;
    FILE *file = fopen(word[4], "w");
    if (!file)
        fail(word[4]);
    for (int flow = 0; flow < flow_count; flow++)
        fprintf(file, "%.*s %ld %ld\n", (int)strcspn(flows[flow].name, "\""), flows[flow].name, flows[flow].came, flows[flow].away);
    fprintf(file, "%s", told);
    return fclose(file) ? 2 : 0;
}

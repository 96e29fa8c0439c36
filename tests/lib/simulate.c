/* Requests with times on one level: an independent computation of what `apf simulate` prints, written from docs/FORMATS.md for traces that are too long
 * for the one in Python. A test tool.
 *
 *   simulate RUNS
 *
 * RUNS is a file with a run on each line: LIMIT QUEUES HAND LENGTH PATIENCE CHARGE TRACE. A level of no queues rejects. CHARGE is time, seats or usual: by
 * seats where one of the lines has a cost that are read before the first request is handed out, and by time elsewhere. The lines of TRACE are as
 * {"hash":1,"width":2,"cost":3,"arrivesAt":4,"runsFor":5}, where width and cost may be absent. Behind what a run prints stands its status.
 *
 * A trace is held as a whole, and its requests come by an order that is made before. Each wait is kept, and all queues in which somebody waits are looked at for each dispatch. */
#define _GNU_SOURCE
#include <stdint.h>
#include <stdio.h>
#include <stdlib.h>
#include <string.h>

typedef unsigned __int128 sum;
typedef __int128 service;

enum { MOST_THERE = 10000, MOST_FLOWS = 100000, MOST_EXACT = 10000, WINDOW = 131072, PLACES = 1 << 18, MOST_QUEUES = 1024, MOST_HAND = 16 };
enum { COMING, RUNNING, WAITING, EXECUTED, QUEUE_FULL, NO_ROOM, CANCELLED };
enum { BY_TIME, BY_SEATS };

/* its number is that of its line, from 0 */
struct request {
    uint64_t hash;
    int64_t arrives, runs, ends;
    uint32_t width, line_cost, cost, row, next;
    /* of one that was dispatched: the queue that was charged; else -1 */
    int32_t charged;
    uint16_t queue, state;
};

struct queue {
    uint32_t first, last, length;
    /* where somebody waits, `finish` is the start and the cost of the first one */
    service start, finish;
};

struct row {
    uint64_t hash;
    uint32_t first_line, requests, executed, cancelled, room;
    sum seat_time;
    int64_t *waits;
    /* the hand of its flow, once it is dealt */
    uint16_t hand[MOST_HAND];
    int is_dealt;
};

static int64_t limit, queue_count, hand_size, most_waiting, patience;
static int by;

static struct request *all;
static uint32_t count, room;
static struct queue queues[MOST_QUEUES];
/* a bit for each queue in which somebody waits */
static uint64_t busy[MOST_QUEUES / 64];
static uint32_t last_served;
static service virtual_time;
static int64_t seats;
static uint32_t waiting;
static sum waited;
static uint64_t entered, dispatched, struck, of_state[CANCELLED + 1];
/* those that execute, the first to end on top */
static uint32_t running[MOST_THERE], running_count;
static struct row *rows;
static uint32_t row_count, places[PLACES];

static void fail(const char *what) {
    fprintf(stderr, "simulate: %s\n", what);
    exit(2);
}

static void *resized(void *old, size_t size) {
    void *made = realloc(old, size);
    if (!made)
        fail("out of memory");
    return made;
}

/* The trace. */

/* The bytes of a trace, and where a line of it is read. */
static char *bytes, *at;
static size_t bytes_room;

static void read_whole(const char *name) {
    size_t size = 0, more;
    FILE *file = fopen(name, "r");
    if (!file)
        fail(name);
    do {
        if (bytes_room - size < 1 << 16)
            bytes = resized(bytes, bytes_room = 2 * bytes_room + (1 << 20));
        more = fread(bytes + size, 1, bytes_room - size - 1, file);
        size += more;
    } while (more);
    bytes[size] = 0;
    fclose(file);
}

static int take(const char *text, size_t length) {
    if (strncmp(at, text, length))
        return 0;
    at += length;
    return 1;
}

#define TAKE(text) take(text, sizeof text - 1)

static uint64_t digits(void) {
    uint64_t number = 0;
    for (; *at >= '0' && *at <= '9'; at++)
        number = 10 * number + (*at - '0');
    return number;
}

#define NUMBER_BEHIND(key, absent) (TAKE(key) ? digits() : (absent))

static int read_trace(const char *name) {
    int costs = 0;
    read_whole(name);
    at = bytes;
    for (count = 0; *at; count++) {
        if (count == room)
            all = resized(all, (room = 2 * room + 1000) * sizeof *all);
        struct request *it = &all[count];
        memset(it, 0, sizeof *it);
        it->charged = -1;
        it->hash = NUMBER_BEHIND("{\"hash\":", 0);
        it->width = NUMBER_BEHIND(",\"width\":", 1);
        it->line_cost = NUMBER_BEHIND(",\"cost\":", 0);
        it->arrives = NUMBER_BEHIND(",\"arrivesAt\":", 0);
        it->runs = NUMBER_BEHIND(",\"runsFor\":", 0);
        costs |= it->line_cost && count <= WINDOW;
        if (!TAKE("}\n"))
            fail(at);
    }
    return costs;
}

/* The requests in the order in which they come: by their arrivals, and those of one time by their lines. */

static uint32_t *order, order_room;

static int comes_before(uint32_t one, uint32_t other) {
    return all[one].arrives != all[other].arrives ? all[one].arrives < all[other].arrives : one < other;
}

static int by_arrival(const void *a, const void *b) {
    uint32_t one = *(const uint32_t *)a, other = *(const uint32_t *)b;
    return comes_before(one, other) ? -1 : comes_before(other, one);
}

/* Most lines come in order. Those that come late are sorted for themselves, and put among the others from the last one on. */
static void sort(void) {
    uint32_t in_order = 0, late = 0, *lates;
    if (order_room < count)
        order = resized(order, (order_room = count) * sizeof *order);
    lates = resized(NULL, (count + 1) * sizeof *lates);
    for (uint32_t line = 0; line < count; line++) {
        if (in_order && comes_before(line, order[in_order - 1]))
            lates[late++] = line;
        else
            order[in_order++] = line;
    }
    qsort(lates, late, sizeof *lates, by_arrival);
    for (uint32_t turn = count; late; turn--) {
        if (in_order && comes_before(lates[late - 1], order[in_order - 1]))
            order[turn - 1] = order[--in_order];
        else
            order[turn - 1] = lates[--late];
    }
    free(lates);
}

/* What a request is charged, by the means of the flows that are known: sets of eight, in each of which the flow goes that learned longest ago. */

struct mean {
    int64_t count, micros;
};

struct known {
    uint64_t hash, learned;
    struct mean mean;
};

static struct known sets[512][8];
static struct mean firsts;
static uint64_t lessons;

static void add(struct mean *mean, int64_t ran) {
    if (ran > UINT32_MAX)
        ran = UINT32_MAX;
    if (mean->count < 256)
        mean->count++;
    /* division goes towards zero */
    mean->micros += (ran - mean->micros) / mean->count;
}

static struct known *known_of(uint64_t hash) {
    for (int way = 0; way < 8; way++)
        if (sets[hash % 512][way].learned && sets[hash % 512][way].hash == hash)
            return &sets[hash % 512][way];
    return NULL;
}

static uint32_t cost_of(const struct request *it) {
    if (it->line_cost)
        return it->line_cost;
    if (by == BY_SEATS)
        return it->width;
    struct known *known = known_of(it->hash);
    uint64_t cost = it->width * (known ? known->mean.micros : firsts.count ? firsts.micros : 10000);
    return cost < 1 ? 1 : cost > UINT32_MAX ? UINT32_MAX : cost;
}

static void learn(const struct request *it) {
    struct known *known = known_of(it->hash);
    if (!known) {
        add(&firsts, it->runs);
        known = sets[it->hash % 512];
        for (int way = 1; way < 8; way++)
            if (sets[it->hash % 512][way].learned < known->learned)
                known = &sets[it->hash % 512][way];
        *known = (struct known){.hash = it->hash};
    }
    add(&known->mean, it->runs);
    known->learned = ++lessons;
}

/* The rows. Flows beyond the most have one together, the last. */

static uint32_t row_of(uint64_t hash, uint32_t line) {
    uint32_t place = (hash * 0x9e3779b97f4a7c15) >> 46;
    while (places[place] && rows[places[place] - 1].hash != hash)
        place = (place + 1) % PLACES;
    if (!places[place] && row_count == MOST_FLOWS)
        return MOST_FLOWS;
    if (!places[place]) {
        rows[row_count] = (struct row){.hash = hash, .first_line = line};
        places[place] = ++row_count;
    }
    struct row *row = &rows[places[place] - 1];
    if (line < row->first_line)
        row->first_line = line;
    return places[place] - 1;
}

static int by_wait(const void *a, const void *b) {
    int64_t one = *(const int64_t *)a, other = *(const int64_t *)b;
    return (one > other) - (one < other);
}

static int by_first_line(const void *a, const void *b) {
    const struct row *one = a, *other = b;
    return (one->first_line > other->first_line) - (one->first_line < other->first_line);
}

static void print_sum(const char *before, sum number) {
    char digits[40], *at = digits + 39;
    for (*at = 0; number || at == digits + 39; number /= 10)
        *--at = '0' + number % 10;
    printf("%s%s", before, at);
}

/* The least wait such that at least this many of a hundred are not above it. Of many waits it has its first eight binary digits. */
static void print_rank(const char *name, const struct row *row, uint64_t percent) {
    int64_t rank = row->executed ? row->waits[(percent * row->executed + 99) / 100 - 1] : 0;
    int behind = 0;
    if (row->executed > MOST_EXACT)
        while (rank >> behind > 255)
            behind++;
    printf(" %s %s%lld", name, row->executed > MOST_EXACT ? "~" : "", (long long)(rank >> behind << behind));
}

static void print_row(const struct row *row) {
    printf(" requests %u executed %u rejected %u cancelled %u", row->requests, row->executed, row->requests - row->executed - row->cancelled, row->cancelled);
    print_sum(" seat-time ", row->seat_time);
    qsort(row->waits, row->executed, sizeof *row->waits, by_wait);
    printf(" wait");
    print_rank("median", row, 50);
    print_rank("p99", row, 99);
    printf(" longest %lld\n", (long long)(row->executed ? row->waits[row->executed - 1] : 0));
    free(row->waits);
}

/* The level. */

static int ends_before(uint32_t one, uint32_t other) {
    return all[one].ends != all[other].ends ? all[one].ends < all[other].ends : one < other;
}

static void execute(uint32_t number, int64_t now) {
    struct request *it = &all[number];
    struct row *row = &rows[it->row];
    it->state = RUNNING;
    it->ends = now + it->runs;
    seats += it->width;
    if (row->executed == row->room)
        row->waits = resized(row->waits, (row->room = 2 * row->room + 8) * sizeof *row->waits);
    row->waits[row->executed++] = now - it->arrives;
    row->seat_time += (sum)it->width * it->runs;
    waited += now - it->arrives;
    uint32_t at = running_count++;
    for (; at && ends_before(number, running[(at - 1) / 2]); at = (at - 1) / 2)
        running[at] = running[(at - 1) / 2];
    running[at] = number;
}

static uint32_t first_to_end(void) {
    uint32_t top = running[0], moved = running[--running_count], at = 0, child;
    while ((child = 2 * at + 1) < running_count) {
        if (child + 1 < running_count && ends_before(running[child + 1], running[child]))
            child++;
        if (!ends_before(running[child], moved))
            break;
        running[at] = running[child];
        at = child;
    }
    running[at] = moved;
    return top;
}

static int fits(const struct request *it) {
    return seats == 0 || seats + it->width <= limit;
}

/* Once its start has changed, or its first one. */
static void changed(struct queue *queue) {
    if (queue->length)
        queue->finish = queue->start + all[queue->first].cost;
}

static void leave(struct queue *queue) {
    queue->first = all[queue->first].next;
    queue->length--;
    if (!queue->length)
        busy[(queue - queues) / 64] &= ~(1ull << (queue - queues) % 64);
    changed(queue);
    waiting--;
}

static void dispatch(int64_t now) {
    /* where no seat is free nobody fits */
    while (waiting && seats < limit) {
        struct queue *chosen = NULL;
        service best = 0;
        /* first those behind the last that was served, and then the others, from the first one to that one */
        uint64_t behind = ~1ull << last_served % 64;
        for (uint32_t step = 0, words = (queue_count + 63) / 64, word = last_served / 64; step <= words; step++, word = word + 1 < words ? word + 1 : 0) {
            uint64_t bits = busy[word] & (step == 0 ? behind : step == words ? ~behind : ~0ull);
            for (; bits; bits &= bits - 1) {
                struct queue *queue = &queues[64 * word + __builtin_ctzll(bits)];
                if (!chosen || queue->finish < best) {
                    chosen = queue;
                    best = queue->finish;
                }
            }
        }
        uint32_t number = chosen->first;
        if (!fits(&all[number]))
            return;
        leave(chosen);
        if (virtual_time < chosen->start)
            virtual_time = chosen->start;
        chosen->start = best;
        changed(chosen);
        last_served = chosen - queues;
        all[number].charged = last_served;
        dispatched++;
        execute(number, now);
    }
}

static void finish(int64_t now) {
    struct request *it = &all[first_to_end()];
    if (by == BY_TIME) {
        sum took = (sum)it->width * it->runs;
        if (it->charged >= 0) {
            queues[it->charged].start += (service)(took < 1 ? 1 : took > (sum)1 << 46 ? (sum)1 << 46 : took) - it->cost;
            changed(&queues[it->charged]);
        }
        learn(it);
    }
    it->state = EXECUTED;
    seats -= it->width;
    dispatch(now);
}

/* Whoever waits longest is the first of its queue. */
static void give_up(uint32_t number, int64_t now) {
    struct request *it = &all[number];
    if (queues[it->queue].first != number)
        fail("who gives up is not the first of its queue");
    leave(&queues[it->queue]);
    it->state = CANCELLED;
    rows[it->row].cancelled++;
    waited += now - it->arrives;
    struck++;
    dispatch(now);
}

static void deal(uint64_t hash, uint16_t *hand) {
    uint16_t cards[MOST_QUEUES];
    uint32_t left = queue_count;
    for (uint32_t card = 0; card < left; card++)
        cards[card] = card;
    for (int dealt = 0; dealt < hand_size; dealt++) {
        uint32_t place = hash % left;
        hand[dealt] = cards[place];
        hash /= left--;
        memmove(cards + place, cards + place + 1, (left - place) * sizeof *cards);
    }
}

/* The shortest queue of the flow's hand, and of equally short ones the one that was dealt first. */
static uint32_t queue_of(const struct request *it) {
    struct row *row = &rows[it->row];
    if (!row->is_dealt)
        deal(it->hash, row->hand);
    /* flows beyond the most have one row together */
    row->is_dealt = it->row != MOST_FLOWS;
    uint32_t best = row->hand[0];
    for (int dealt = 1; dealt < hand_size; dealt++)
        if (queues[row->hand[dealt]].length < queues[best].length)
            best = row->hand[dealt];
    return best;
}

static void arrive(uint32_t number, int64_t now) {
    struct request *it = &all[number];
    it->row = row_of(it->hash, number);
    rows[it->row].requests++;
    it->cost = cost_of(it);
    if (!waiting && fits(it)) {
        execute(number, now);
    } else if (!queue_count) {
        it->state = NO_ROOM;
    } else {
        it->queue = queue_of(it);
        struct queue *queue = &queues[it->queue];
        if (queue->length == most_waiting) {
            it->state = QUEUE_FULL;
            return;
        }
        if (!queue->length && queue->start < virtual_time)
            queue->start = virtual_time;
        *(queue->length ? &all[queue->last].next : &queue->first) = number;
        queue->last = number;
        if (!queue->length++) {
            busy[it->queue / 64] |= 1ull << it->queue % 64;
            changed(queue);
        }
        it->state = WAITING;
        waiting++;
        entered++;
        dispatch(now);
    }
}

/* A run. What is due at one time comes in this order: finishes, those who give up, arrivals. */

static void begin(void) {
    memset(queues, 0, sizeof queues);
    memset(busy, 0, sizeof busy);
    memset(sets, 0, sizeof sets);
    memset(places, 0, sizeof places);
    memset(of_state, 0, sizeof of_state);
    firsts = (struct mean){0, 0};
    last_served = queue_count ? queue_count - 1 : 0;
    virtual_time = 0;
    waited = 0;
    lessons = entered = dispatched = struck = 0;
    seats = waiting = running_count = row_count = 0;
    rows[MOST_FLOWS] = (struct row){0};
}

static void run(void) {
    int64_t end = 0;
    uint32_t coming = 0, oldest = 0;
    begin();
    sort();
    for (;;) {
        int64_t arrival = coming < count ? all[order[coming]].arrives : INT64_MAX, late = INT64_MAX, over = INT64_MAX;
        while (oldest < coming && all[order[oldest]].state != WAITING)
            oldest++;
        if (patience && oldest < coming)
            late = all[order[oldest]].arrives + patience;
        if (running_count)
            over = all[running[0]].ends;
        if (over == INT64_MAX && late == INT64_MAX && arrival == INT64_MAX)
            break;
        if (over <= late && over <= arrival) {
            finish(end = over);
        } else if (late <= arrival) {
            give_up(order[oldest], end = late);
        } else if (running_count + waiting == MOST_THERE) {
            printf("apf: at line %u, at %lld, more than 10000 requests are there at once\nstatus 1\n", order[coming] + 1, (long long)arrival);
            for (uint32_t at = 0; at <= MOST_FLOWS; at++)
                if (at < row_count || at == MOST_FLOWS)
                    free(rows[at].waits);
            return;
        } else {
            arrive(order[coming++], end = arrival);
        }
    }
    sum seat_time = 0;
    for (uint32_t at = 0; at < row_count; at++)
        seat_time += rows[at].seat_time;
    seat_time += rows[MOST_FLOWS].seat_time;
    for (uint32_t at = 0; at < count; at++)
        of_state[all[at].state]++;
    qsort(rows, row_count, sizeof *rows, by_first_line);
    for (uint32_t at = 0; at < row_count; at++) {
        printf("flow %016llx", (unsigned long long)rows[at].hash);
        print_row(&rows[at]);
    }
    if (rows[MOST_FLOWS].requests) {
        printf("others");
        print_row(&rows[MOST_FLOWS]);
    }
    printf("end %lld", (long long)end);
    print_sum(" seat-time ", seat_time);
    print_sum(" of ", (sum)limit * end);
    print_sum(" waited ", waited);
    uint64_t rejected = of_state[QUEUE_FULL] + of_state[NO_ROOM], decided = of_state[EXECUTED] + rejected + of_state[CANCELLED];
    printf(" patience %lld\nlevel open seats %lld waiting %u\n", (long long)patience, (long long)seats, waiting);
    printf("executed %llu rejected %llu cancelled %llu undecided %llu\n", (unsigned long long)of_state[EXECUTED], (unsigned long long)rejected,
           (unsigned long long)of_state[CANCELLED], (unsigned long long)(count - decided));
    printf("queue-full %llu closed 0 concurrency-limit %llu\n", (unsigned long long)of_state[QUEUE_FULL], (unsigned long long)of_state[NO_ROOM]);
    printf("entered %llu dispatched %llu struck %llu\nstatus 0\n", (unsigned long long)entered, (unsigned long long)dispatched, (unsigned long long)struck);
}

int main(int words, char **word) {
    char charge[8], trace[4096];
    long long of[5];
    FILE *runs = words == 2 ? fopen(word[1], "r") : NULL;
    if (!runs)
        fail("usage: simulate RUNS");
    rows = resized(NULL, (MOST_FLOWS + 1) * sizeof *rows);
    while (fscanf(runs, "%lld %lld %lld %lld %lld %7s %4095s", of, of + 1, of + 2, of + 3, of + 4, charge, trace) == 7) {
        limit = of[0], queue_count = of[1], hand_size = of[2], most_waiting = of[3], patience = of[4];
        int costs = read_trace(trace);
        by = strcmp(charge, "usual") ? strcmp(charge, "seats") ? BY_TIME : BY_SEATS : costs ? BY_SEATS : BY_TIME;
        run();
    }
    return 0;
}

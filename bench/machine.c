/* The lane store of document 01, with document 02's W1, W3, W4, W5 and W6, in plain C, changed in place, and the replay of a tape (program `ctape`).
 * The yardstick of bench/run: not proved, and without settle and picture.
 * A store opened here is never corrupt (refusal 14), so no step looks for that. */

#include <stdbool.h>
#include <stdint.h>
#include <stdio.h>
#include <string.h>

enum { MAX_LANES = 8, MAX_LINES = 8, MAX_BLOCKS = 64, WORDS = 4, PLACES = 8, MAX_SERVICES = 8 };
enum { MAX_TAPE = 65536, TEXT_SIZE = 65536, MAX_ROW = 48 };

enum Refusal {
    TRUNCATED = 1, UNKNOWN_KIND, NOT_OPEN, ALREADY_OPEN, INVALID_SHAPE, NO_SUCH_LANE, NO_SUCH_WORD, LANE_BUSY,
    NOTHING_PENDING, CONTROL_BUSY, RETURNS_PENDING, QUEUE_FULL, TAPE_TOO_LONG, CORRUPT, BUFFER_TOO_SHORT, UNEXPECTED,
    PLACES_EXHAUSTED, INVALID_LIMIT
};

enum Kind { OPEN, LOAD, STORE, EXCHANGE, ADD, SERVE, RETURN, DELIVER, OPEN_LIMIT }; /* of a tape's record */
enum Command { READ_SHARED, READ_EXCLUSIVE, EXCLUDE };
enum State { IDLE, UNSERVED, SERVED };
enum Message_kind {
    EJECT, WRITE_EJECT, UPDATED, PURGED, PURGED_WORDS, GONE, /* to memory */
    UPDATE, PURGE, GRANT_WORDS, GRANT_BARE                   /* to a lane */
};

typedef struct { uint32_t at[WORDS]; } Words;

typedef struct {
    bool valid, private;
    uint8_t block;
    Words words;
} Line;

typedef struct {
    uint8_t kind, block;
    Words words; /* of the kinds that have words; else not looked at */
} Message;

typedef struct {
    uint8_t head, length;
    Message at[PLACES];
} Queue;

typedef struct {
    uint8_t state, command, op, word;
    uint32_t v;
} Waiting;

typedef struct {
    Line lines[MAX_LINES];
    uint8_t order[MAX_LINES]; /* line numbers, oldest first */
    Queue returns, downs;
    Waiting waiting;
} Lane;

typedef struct {
    Words words;
    uint8_t present; /* bit k is lane k's flag */
    bool modified;
} Block;

typedef struct {
    bool bare;
    uint8_t lane, block, command, awaited;
} Service;

typedef struct {
    uint8_t n, c, m; /* n is 0 until the store is open */
    uint8_t limit;   /* L: the most services open at once */
    uint8_t open;    /* the services open now: the first so many of the array, in any order, each of another block */
    uint32_t begun;  /* operations since opening: completions so far plus operations waiting */
    uint32_t completions;
    Service services[MAX_SERVICES];
    Lane lanes[MAX_LANES];
    Block blocks[MAX_BLOCKS];
} Store;

typedef struct {
    enum { OPENED, DONE, WAIT, STEP, REFUSED } tag;
    uint8_t number; /* lane of DONE, number of REFUSED */
    uint32_t value, place; /* of DONE */
} Answer;

static Answer refused(enum Refusal number) { return (Answer){ REFUSED, number, 0, 0 }; }
static Answer stepped(void) { return (Answer){ STEP, 0, 0, 0 }; }

/* Queues: rings of eight places */

static bool is_full(const Queue *q) { return q->length == PLACES; }
static bool is_empty(const Queue *q) { return q->length == 0; }

static Message *push(Queue *q, unsigned kind, unsigned block)
{
    Message *message = &q->at[(q->head + q->length) % PLACES];
    q->length++;
    message->kind = kind;
    message->block = block;
    return message;
}

static const Message *head(const Queue *q) { return &q->at[q->head]; }

static void pop(Queue *q)
{
    q->head = (q->head + 1) % PLACES;
    q->length--;
}

/* Lanes */

/* the lowest-numbered valid line with the block, or null */
static Line *search(Lane *lane, unsigned c, unsigned block)
{
    for (Line *line = lane->lines; line < lane->lines + c; line++)
        if (line->valid && line->block == block)
            return line;
    return NULL;
}

/* the lowest-numbered line that is not valid, or null */
static Line *free_line(Lane *lane, unsigned c)
{
    for (Line *line = lane->lines; line < lane->lines + c; line++)
        if (!line->valid)
            return line;
    return NULL;
}

/* line i becomes the last used */
static void use(Lane *lane, unsigned c, unsigned i)
{
    unsigned place = 0;
    while (lane->order[place] != i)
        place++;
    for (; place + 1 < c; place++)
        lane->order[place] = lane->order[place + 1];
    lane->order[place] = i;
}

/* line i goes in as the oldest */
static void insert_oldest(Lane *lane, unsigned i)
{
    unsigned place = 0;
    while (lane->order[place] != i)
        place++;
    for (; place > 0; place--)
        lane->order[place] = lane->order[place - 1];
    lane->order[0] = i;
}

/* does the operation on its word of the line, gives its value */
static uint32_t perform(Line *line, unsigned op, unsigned word, uint32_t v)
{
    uint32_t *at = &line->words.at[word % WORDS];
    uint32_t former = *at;
    switch (op) {
    case STORE: *at = v; return v;
    case EXCHANGE: *at = v; return former;
    case ADD: *at = former + v; return former;
    default: return former;
    }
}

/* lane k's operation completes on the line: it has the next place */
static Answer complete(Store *s, unsigned k, Line *line, unsigned op, unsigned word, uint32_t v)
{
    uint32_t value = perform(line, op, word, v);
    return (Answer){ DONE, k, value, ++s->completions };
}

static void evict(Lane *lane)
{
    Line *line = &lane->lines[lane->order[0]];
    line->valid = false;
    if (line->private)
        push(&lane->returns, WRITE_EJECT, line->block)->words = line->words;
    else
        push(&lane->returns, EJECT, line->block);
}

static Answer begin(Store *s, unsigned k, unsigned op, unsigned word, uint32_t v)
{
    if (k >= s->n)
        return refused(NO_SUCH_LANE);
    if (word >= WORDS * s->m)
        return refused(NO_SUCH_WORD);
    Lane *lane = &s->lanes[k];
    Line *line = search(lane, s->c, word / WORDS);
    if (lane->waiting.state != IDLE && !(op == LOAD && line))
        return refused(LANE_BUSY);
    if (s->begun == UINT32_MAX)
        return refused(PLACES_EXHAUSTED);
    unsigned command = EXCLUDE;
    if (line) {
        if (op == LOAD || line->private) {
            s->begun++;
            use(lane, s->c, line - lane->lines);
            return complete(s, k, line, op, word, v);
        }
    } else {
        command = op == LOAD ? READ_SHARED : READ_EXCLUSIVE;
        if (!free_line(lane, s->c)) {
            if (is_full(&lane->returns))
                return refused(QUEUE_FULL);
            evict(lane);
        }
    }
    s->begun++;
    lane->waiting = (Waiting){ UNSERVED, command, op, word, v };
    return (Answer){ WAIT, 0, 0, 0 };
}

/* an order: UPDATE or PURGE */
static Answer deliver_order(Lane *lane, unsigned c, const Message *order)
{
    unsigned kind = order->kind, block = order->block;
    if (is_full(&lane->returns))
        return refused(QUEUE_FULL);
    pop(&lane->downs);
    Line *line = search(lane, c, block);
    if (!line) {
        push(&lane->returns, GONE, block);
    } else if (kind == UPDATE) {
        push(&lane->returns, UPDATED, block)->words = line->words;
        line->private = false;
    } else {
        if (line->private)
            push(&lane->returns, PURGED_WORDS, block)->words = line->words;
        else
            push(&lane->returns, PURGED, block);
        line->valid = false;
    }
    return stepped();
}

static Answer deliver_grant(Store *s, unsigned k, const Message *grant)
{
    Lane *lane = &s->lanes[k];
    Waiting *waiting = &lane->waiting;
    if (waiting->state != SERVED || waiting->word / WORDS != grant->block)
        return refused(UNEXPECTED);
    Line *line = search(lane, s->c, grant->block);
    if (grant->kind == GRANT_BARE) {
        if (!line)
            return refused(UNEXPECTED);
    } else {
        if (line || !(line = free_line(lane, s->c)))
            return refused(UNEXPECTED);
        line->valid = true;
        line->block = grant->block;
        line->words = grant->words;
    }
    line->private = waiting->op != LOAD;
    if (grant->kind != GRANT_BARE && waiting->op == LOAD)
        insert_oldest(lane, line - lane->lines); /* no use */
    else
        use(lane, s->c, line - lane->lines);
    pop(&lane->downs);
    waiting->state = IDLE;
    return complete(s, k, line, waiting->op, waiting->word, waiting->v);
}

static Answer deliver(Store *s, unsigned k)
{
    if (k >= s->n)
        return refused(NO_SUCH_LANE);
    Lane *lane = &s->lanes[k];
    if (is_empty(&lane->downs))
        return refused(NOTHING_PENDING);
    const Message *message = head(&lane->downs);
    if (message->kind == UPDATE || message->kind == PURGE)
        return deliver_order(lane, s->c, message);
    return deliver_grant(s, k, message);
}

/* Memory and control */

/* the open service of the block, or null */
static Service *service_of(Store *s, unsigned block)
{
    for (Service *service = s->services; service < s->services + s->open; service++)
        if (service->block == block)
            return service;
    return NULL;
}

/* what a service does at its end: sets the flags and sends the grant; there is room for it */
static void close_service(Store *s, const Service *service)
{
    Block *block = &s->blocks[service->block];
    unsigned self = 1u << service->lane;
    if (service->command == READ_SHARED) {
        block->present |= self;
    } else {
        block->present = self;
        block->modified = true;
    }
    Queue *downs = &s->lanes[service->lane].downs;
    if (service->bare)
        push(downs, GRANT_BARE, service->block);
    else
        push(downs, GRANT_WORDS, service->block)->words = block->words;
}

/* bench/serves counts a serve's instructions apart: it compiles with SERVE_CALL as noinline, noclone */
#ifndef SERVE_CALL
#define SERVE_CALL
#endif

SERVE_CALL static Answer serve(Store *s, unsigned k)
{
    if (k >= s->n)
        return refused(NO_SUCH_LANE);
    Lane *lane = &s->lanes[k];
    Waiting *waiting = &lane->waiting;
    if (waiting->state != UNSERVED)
        return refused(NOTHING_PENDING);
    unsigned number = waiting->word / WORDS, command = waiting->command;
    if (s->open == s->limit || service_of(s, number))
        return refused(CONTROL_BUSY);
    if (!is_empty(&lane->returns))
        return refused(RETURNS_PENDING);
    const Block *block = &s->blocks[number];
    unsigned self = 1u << k;
    unsigned ordered = command == READ_SHARED && !block->modified ? 0 : block->present & ~self;
    bool bare = command == EXCLUDE && block->present & self;
    Service service = { bare, k, number, command, 0 };
    if (ordered == 0) {
        if (is_full(&lane->downs))
            return refused(QUEUE_FULL);
        waiting->state = SERVED;
        close_service(s, &service);
        return stepped();
    }
    for (unsigned left = ordered; left != 0; left &= left - 1)
        if (is_full(&s->lanes[__builtin_ctz(left)].downs))
            return refused(QUEUE_FULL);
    for (unsigned left = ordered; left != 0; left &= left - 1) {
        push(&s->lanes[__builtin_ctz(left)].downs, command == READ_SHARED ? UPDATE : PURGE, number);
        service.awaited++;
    }
    waiting->state = SERVED;
    s->services[s->open++] = service;
    return stepped();
}

static Answer take_return(Store *s, unsigned k)
{
    if (k >= s->n)
        return refused(NO_SUCH_LANE);
    Queue *returns = &s->lanes[k].returns;
    if (is_empty(returns))
        return refused(NOTHING_PENDING);
    const Message *message = head(returns);
    Service *service = NULL; /* an answer's */
    if (message->kind != EJECT && message->kind != WRITE_EJECT) {
        service = service_of(s, message->block);
        if (!service || service->awaited == 0)
            return refused(UNEXPECTED);
        if (service->awaited == 1 && is_full(&s->lanes[service->lane].downs))
            return refused(QUEUE_FULL);
    }
    Block *block = &s->blocks[message->block];
    if (message->kind != UPDATED)
        block->present &= ~(1u << k);
    if (message->kind == WRITE_EJECT || message->kind == UPDATED || message->kind == PURGED_WORDS) {
        block->words = message->words;
        block->modified = false;
    }
    pop(returns);
    if (service && --service->awaited == 0) {
        close_service(s, service);
        *service = s->services[--s->open];
    }
    return stepped();
}

static Answer open_store(Store *s, unsigned n, unsigned c, unsigned m, unsigned limit)
{
    if (s->n)
        return refused(ALREADY_OPEN);
    if (n < 2 || n > MAX_LANES || c < 1 || c > MAX_LINES || m < 1 || m > MAX_BLOCKS)
        return refused(INVALID_SHAPE);
    if (limit < 1 || limit > MAX_SERVICES)
        return refused(INVALID_LIMIT);
    memset(s, 0, sizeof *s);
    s->n = n;
    s->c = c;
    s->m = m;
    s->limit = limit;
    for (unsigned k = 0; k < n; k++)
        for (unsigned i = 0; i < c; i++)
            s->lanes[k].order[i] = i;
    return (Answer){ OPENED, 0, 0, 0 };
}

/* Tape */

static Answer record(Store *s, unsigned kind, const uint8_t *body)
{
    if (kind == OPEN || kind == OPEN_LIMIT)
        return open_store(s, body[0], body[1], body[2], kind == OPEN ? 1 : body[3]);
    if (!s->n)
        return refused(NOT_OPEN);
    switch (kind) {
    case LOAD: return begin(s, body[0], kind, body[1], 0);
    case SERVE: return serve(s, body[0]);
    case RETURN: return take_return(s, body[0]);
    case DELIVER: return deliver(s, body[0]);
    default: {
        uint32_t v = body[2] | (uint32_t)body[3] << 8 | (uint32_t)body[4] << 16 | (uint32_t)body[5] << 24;
        return begin(s, body[0], kind, body[1], v);
    }
    }
}

/* text of the rows: gathered here, written when it is nearly full */
static char text[TEXT_SIZE];

static char *flush(const char *end)
{
    fwrite(text, 1, end - text, stdout);
    return text;
}

static char *put(char *p, const char *word)
{
    size_t length = strlen(word);
    memcpy(p, word, length);
    return p + length;
}

static char *put_number(char *p, uint32_t x)
{
    char *end = p + 1;
    for (uint64_t power = 10; power <= x; power *= 10)
        end++;
    p = end;
    do
        *--p = '0' + x % 10;
    while (x /= 10);
    return end;
}

static char *put_row(char *p, uint32_t index, Answer answer)
{
    if (p > text + TEXT_SIZE - MAX_ROW)
        p = flush(p);
    p = put_number(p, index);
    switch (answer.tag) {
    case OPENED: return put(p, " open\n");
    case WAIT: return put(p, " wait\n");
    case STEP: return put(p, " step\n");
    case REFUSED:
        p = put(p, " refused ");
        p = put_number(p, answer.number);
        break;
    case DONE:
        p = put(p, " done ");
        p = put_number(p, answer.number);
        p = put(p, " ");
        p = put_number(p, answer.value);
        p = put(p, " ");
        p = put_number(p, answer.place);
        break;
    }
    return put(p, "\n");
}

static char *replay(char *p, Store *s, const uint8_t *tape, size_t length)
{
    static const uint8_t body_length[] = { 3, 2, 6, 6, 6, 1, 1, 1, 4 };
    uint32_t index = 0;
    size_t at = 0;
    while (at < length) {
        unsigned kind = tape[at++];
        if (kind > OPEN_LIMIT) {
            p = put_row(p, index++, refused(UNKNOWN_KIND));
            break;
        }
        if (length - at < body_length[kind]) {
            p = put_row(p, index++, refused(TRUNCATED));
            break;
        }
        p = put_row(p, index++, record(s, kind, tape + at));
        at += body_length[kind];
    }
    p = put(flush(p), "end ");
    return put(put_number(p, index), "\n");
}

int main(void)
{
    static uint8_t tape[MAX_TAPE + 1];
    static Store store;
    size_t length = fread(tape, 1, sizeof tape, stdin);
    flush(length > MAX_TAPE ? put(text, "refused 13\n") : replay(text, &store, tape, length));
    return fflush(stdout) || ferror(stdin) || ferror(stdout);
}

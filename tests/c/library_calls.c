/* Calls the library of include/mapf.h on files, and prints what it answers as the program's line. It is C99, and C++
   as well. It asks for no memory by itself, so that each request that is refused is one of the library's.

     library_calls version
     library_calls check MAP SCEN K PLAN CERT
     library_calls validate MAP SCEN K PLAN
     library_calls dispatch MAP SCEN K PLAN EVENTS                     prints the replies to the agents that ask
     library_calls visits MAP SCEN K PLAN                              prints the visits of all agents
     library_calls asks MAP SCEN K PLAN COUNT STEP                     lets agents ask, STEP of them in each call
     library_calls solve SEARCH IMPROVE MAP SCEN K LIMIT PLAN CERT     writes the two texts
     library_calls rooms SEARCH IMPROVE MAP SCEN K LIMIT               tries buffers of other sizes
     library_calls wrong                                               tries numbers that are out of their ranges

   Where the variable EXACT is set, each text is in a block of memory of just its size. The variable ROOM says how many
   bytes the buffers of solve have. */
#define _POSIX_C_SOURCE 200809L

#include "mapf.h"

#include <fcntl.h>
#include <stdarg.h>
#include <stdio.h>
#include <stdlib.h>
#include <string.h>
#include <unistd.h>

typedef struct text {
    char *bytes;
    size_t length;
} text;

static const char FILL = '#';

/* The memory of texts, of which each begins where a number may stand. */
static union arena {
    uint64_t first;
    char bytes[200000000];
} arena;
static size_t taken;

static void fail(const char *why) {
    ssize_t told = write(2, why, strlen(why));
    told += write(2, "\n", 1);
    _exit(told < 0 ? 4 : 3);
}

/* Room for so many bytes, filled, where a number or a struct may stand. */
static char *room_of(size_t length) {
    char *room = arena.bytes + taken;
    if (getenv("EXACT") != NULL) {
        room = (char *)malloc(length == 0 ? 1 : length);
    } else if (length <= sizeof arena.bytes - taken - 16) {
        taken += (length + 15) / 16 * 16;
    } else {
        room = NULL;
    }
    if (room == NULL) {
        fail("a text is too long for library_calls");
    }
    memset(room, FILL, length);
    return room;
}

static void release(char *room) {
    if (getenv("EXACT") != NULL) {
        free(room);
    }
}

static text text_of(const char *name) {
    static char buffer[70000000];
    text found = {NULL, 0};
    ssize_t count = 1;
    int file = open(name, O_RDONLY);
    if (file < 0) {
        fail("a file can't be opened");
    }
    while (count > 0) {
        count = read(file, buffer + found.length, sizeof buffer - found.length);
        found.length += count > 0 ? (size_t)count : 0;
    }
    close(file);
    found.bytes = room_of(found.length);
    memcpy(found.bytes, buffer, found.length);
    return found;
}

static void put_text(const char *name, const char *bytes, size_t length) {
    int file = open(name, O_WRONLY | O_CREAT | O_TRUNC, 0600);
    while (file >= 0 && length > 0) {
        ssize_t count = write(file, bytes, length);
        if (count <= 0) {
            break;
        }
        bytes += count;
        length -= (size_t)count;
    }
    if (file < 0 || length > 0 || close(file) != 0) {
        fail("a file can't be written");
    }
}

/* Prints words, in a place of a fixed size. */
static void say(const char *format, ...) {
    static char line[4096];
    va_list values;
    int length;
    va_start(values, format);
    length = vsnprintf(line, sizeof line, format, values);
    va_end(values);
    if (length < 0 || write(1, line, (size_t)length) != length) {
        fail("what is printed can't be written");
    }
}

/* The letter of each hundred of a defect. */
static void say_defect(uint32_t defect) {
    static const char *const names[] = {"map", "scen", "plan", "cert", "none", "count"};
    if (defect >= MAPF_MAP) {
        say(" %s", names[defect - MAPF_MAP]);
    } else if (defect != 0) {
        say(" %c%u", " MSPKV"[defect / 100], (unsigned)(defect % 100));
    }
}

static void say_fault(const mapf_fault *fault) {
    const uint64_t numbers[] = {fault->first, fault->second, fault->third};
    uint32_t at;
    if (fault->error == MAPF_RANGE) {
        say("range");
    } else if (fault->error >= MAPF_C1) {
        say("refused C%u", (unsigned)(fault->error - MAPF_C1 + 1));
    } else {
        say("F%u", (unsigned)fault->error);
    }
    say_defect(fault->defect);
    for (at = 0; at < 3; at++) {
        if (at < fault->count) {
            say(" %llu", (unsigned long long)numbers[at]);
        } else if (numbers[at] != 0) {
            fail("a number that doesn't count isn't 0");
        }
    }
    say("\n");
}

static int is_no_fault(const mapf_fault *fault) {
    return fault->error == MAPF_NO_FAULT && fault->defect == 0 && fault->count == 0 && fault->first == 0 &&
        fault->second == 0 && fault->third == 0;
}

/* Prints the line of an answer. A limit of so many splits has another one than a bound that is checked. */
static void say_answer(const mapf_answer *answer, const char *found, const uint32_t *limit) {
    unsigned long long cost = answer->cost, bound = answer->bound;
    if (answer->kind == MAPF_NO_ANSWER) {
        say_fault(&answer->fault);
        return;
    }
    if (!is_no_fault(&answer->fault) || (answer->cause != 0) != (limit != NULL && answer->kind == MAPF_BOUND)) {
        fail("an answer has a fault or a cause");
    }
    switch (answer->kind) {
    case MAPF_OPTIMAL:
        say(bound == cost ? "%s %llu\n" : "%s %llu, another bound\n", found, cost);
        break;
    case MAPF_WITHIN:
        say("within %llu %llu\n", bound, cost);
        break;
    case MAPF_BOUND:
        if (answer->cause == MAPF_SPLITS) {
            say("limit %u ", (unsigned)*limit);
        } else if (answer->cause == MAPF_TICKS) {
            say("limit ticks ");
        }
        say("bound %llu\n", bound);
        break;
    case MAPF_IMPOSSIBLE:
        say("impossible\n");
        break;
    case MAPF_VALID:
        say(bound == 0 ? "valid %llu\n" : "valid %llu, with a bound\n", cost);
        break;
    default:
        fail("an answer of no kind");
    }
}

static uint32_t number_of(const char *word) {
    return (uint32_t)strtoul(word, NULL, 10);
}

static void run_check(char **words) {
    text map = text_of(words[0]), scen = text_of(words[1]), plan = text_of(words[3]), cert = text_of(words[4]);
    mapf_answer answer = mapf_check(map.bytes, map.length, scen.bytes, scen.length, number_of(words[2]), plan.bytes,
                                    plan.length, cert.bytes, cert.length);
    say_answer(&answer, "optimal", NULL);
    release(map.bytes);
    release(scen.bytes);
    release(plan.bytes);
    release(cert.bytes);
}

static void run_validate(char **words) {
    text map = text_of(words[0]), scen = text_of(words[1]), plan = text_of(words[3]);
    mapf_answer answer = mapf_validate(map.bytes, map.length, scen.bytes, scen.length, number_of(words[2]), plan.bytes,
                                       plan.length);
    say_answer(&answer, "optimal", NULL);
    release(map.bytes);
    release(scen.bytes);
    release(plan.bytes);
}

/* Fails unless so many bytes from this place on are as they were before a call. */
static void expect_filled(const char *room, size_t from, size_t to) {
    for (; from < to; from++) {
        if (room[from] != FILL) {
            fail("a byte was written that isn't one of the answer's");
        }
    }
}

/* The number behind a word in a text. */
static uint32_t number_behind(const text *of, const char *word) {
    char front[200];
    const char *found;
    size_t length = of->length < sizeof front - 1 ? of->length : sizeof front - 1;
    memcpy(front, of->bytes, length);
    front[length] = 0;
    found = strstr(front, word);
    return found == NULL ? 0 : number_of(found + strlen(word));
}

/* A dispatcher with the error that was told. */
typedef struct made {
    mapf_dispatcher dispatcher;
    mapf_fault fault;
} made;

static made made_of(char **words, uint32_t *width) {
    text map = text_of(words[0]), scen = text_of(words[1]), plan = text_of(words[3]);
    made found = {{NULL, 0}, {0, 0, 0, 0, 0, 0}};
    found.fault = mapf_dispatcher_new(&found.dispatcher, map.bytes, map.length, scen.bytes, scen.length,
                                      number_of(words[2]), plan.bytes, plan.length);
    *width = number_behind(&map, "width ");
    if (is_no_fault(&found.fault) != (found.dispatcher.is_made == 1)) {
        fail("a dispatcher beside an error, or neither");
    }
    release(map.bytes);
    release(scen.bytes);
    release(plan.bytes);
    return found;
}

/* The agents that ask by an event text, which is right. */
static uint32_t *agents_of(const text *events, size_t *count) {
    uint32_t *agents;
    size_t at, line = 0;
    *count = 0;
    for (at = 0; at < events->length; at++) {
        line += events->bytes[at] == '\n';
    }
    agents = (uint32_t *)(void *)room_of((line < 2 ? 0 : line - 2) * sizeof *agents);
    for (at = 0; at < events->length && *count + 2 < line; at++) {
        if (events->bytes[at] == '\n') {
            agents[(*count)++] = number_of(events->bytes + at + 1);
        }
    }
    return agents;
}

static void say_reply(uint32_t agent, const mapf_reply *reply, uint32_t width) {
    if (reply->kind == MAPF_GO) {
        say("go %u %u,%u\n", (unsigned)agent, (unsigned)(reply->number % width), (unsigned)(reply->number / width));
    } else if (reply->kind == MAPF_HOLD) {
        say("hold %u by %u\n", (unsigned)agent, (unsigned)reply->number);
    } else if (reply->kind == MAPF_DONE && reply->number == 0) {
        say("done %u\n", (unsigned)agent);
    } else {
        fail("a reply of no kind");
    }
}

/* Whoever isn't an agent is told so, and a buffer that is too short by one gets nothing. */
static void try_no_replies(mapf_dispatcher *dispatcher, const uint32_t *agents, size_t count, mapf_reply *replies) {
    const uint32_t other = 4294967295u;
    mapf_reply reply = {0, 1};
    if (count > 0 && mapf_dispatcher_ask(dispatcher, agents, count, replies, count - 1) != 0) {
        fail("a buffer that is too short is filled");
    }
    if (count > 0) {
        expect_filled((const char *)replies, 0, count * sizeof *replies);
    }
    if (mapf_dispatcher_ask(dispatcher, &other, 1, &reply, 1) != 1 || reply.kind != MAPF_RANGE || reply.number != 0) {
        fail("an agent that isn't there gets a reply");
    }
    if (mapf_dispatcher_visit(dispatcher, other, 0).count != 0) {
        fail("an agent that isn't there has visits");
    }
}

static void try_freed(mapf_dispatcher *dispatcher) {
    const uint32_t agent = 0;
    mapf_reply reply = {0, 0};
    mapf_dispatcher_free(dispatcher);
    mapf_dispatcher_free(dispatcher);
    if (mapf_dispatcher_ask(dispatcher, &agent, 1, &reply, 1) != 0) {
        fail("a dispatcher that was freed replies");
    }
    if (mapf_dispatcher_visit(dispatcher, 0, 0).count != 0) {
        fail("a dispatcher that was freed has visits");
    }
}

/* Has agents ask one dispatcher in one call, and another one in a call for each. */
static void try_replies(made *all, made *each, const uint32_t *agents, size_t count, uint32_t width) {
    mapf_reply *replies = (mapf_reply *)(void *)room_of(count * sizeof *replies), alone;
    size_t at;
    try_no_replies(&all->dispatcher, agents, count, replies);
    if (mapf_dispatcher_ask(&all->dispatcher, agents, count, replies, count) != count) {
        fail("agents that ask aren't answered");
    }
    for (at = 0; at < count; at++) {
        if (mapf_dispatcher_ask(&each->dispatcher, agents + at, 1, &alone, 1) != 1 ||
            alone.kind != replies[at].kind || alone.number != replies[at].number) {
            fail("an agent that asks alone gets another reply");
        }
        say_reply(agents[at], replies + at, width);
    }
    release((char *)replies);
}

static void run_dispatch(char **words) {
    text events = text_of(words[4]);
    size_t count;
    uint32_t width, *agents = agents_of(&events, &count);
    made first = made_of(words, &width), second = made_of(words, &width);
    if (first.dispatcher.is_made == 0 || second.dispatcher.is_made == 0) {
        say_fault(first.dispatcher.is_made == 0 ? &first.fault : &second.fault);
    } else {
        try_replies(&first, &second, agents, count, width);
    }
    try_freed(&first.dispatcher);
    try_freed(&second.dispatcher);
    release(events.bytes);
    release((char *)agents);
}

static void run_visits(char **words) {
    uint32_t width, agent, number, count = number_of(words[2]);
    made first = made_of(words, &width);
    if (first.dispatcher.is_made == 0) {
        say_fault(&first.fault);
        return;
    }
    for (agent = 0; agent < count; agent++) {
        mapf_visit visit = mapf_dispatcher_visit(&first.dispatcher, agent, 4294967295u);
        if (visit.cell != 0 || visit.entry != 0) {
            fail("a visit that isn't there has a cell");
        }
        for (number = 0; number < visit.count; number++) {
            visit = mapf_dispatcher_visit(&first.dispatcher, agent, number);
            say("%u %u,%u at %u\n", (unsigned)agent, (unsigned)(visit.cell % width), (unsigned)(visit.cell / width),
                (unsigned)visit.entry);
        }
    }
    try_freed(&first.dispatcher);
}

/* Lets agents ask in turn, so many in each call, and says how many were told to go. */
static void run_asks(char **words) {
    static uint32_t agents[1000];
    static mapf_reply replies[1000];
    uint32_t width, at, agent = 0, left = number_of(words[4]), step = number_of(words[5]);
    unsigned gone = 0;
    made first = made_of(words, &width);
    while (first.dispatcher.is_made == 1 && left > 0) {
        for (at = 0; at < step; at++) {
            agents[at] = agent++ % number_of(words[2]);
        }
        if (mapf_dispatcher_ask(&first.dispatcher, agents, step, replies, step) != step) {
            fail("agents that ask aren't answered");
        }
        for (at = 0; at < step; at++) {
            gone += replies[at].kind == MAPF_GO;
        }
        left -= step;
    }
    if (agent > 0 && mapf_dispatcher_visit(&first.dispatcher, 0, 0).count == 0) {
        fail("an agent has no visits");
    }
    mapf_dispatcher_free(&first.dispatcher);
    say("%u\n", gone);
}

/* A search, and what it is given. */
typedef struct search {
    text map, scen;
    mapf_question question;
} search;

static search search_of(char **words) {
    search found;
    found.question.search = strcmp(words[0], "cbsh") == 0 ? MAPF_CBSH : MAPF_CBS;
    found.question.agents = number_of(words[4]);
    found.question.limit = number_of(words[5]);
    found.question.improvements =
        strcmp(words[1], "-") == 0 ? 50 * found.question.agents : number_of(words[1]);
    found.map = text_of(words[2]);
    found.scen = text_of(words[3]);
    return found;
}

static mapf_solution solved(const search *given, char *plan, size_t plan_room, char *cert, size_t cert_room) {
    return mapf_solve(given->map.bytes, given->map.length, given->scen.bytes, given->scen.length, given->question,
                      plan, plan_room, cert, cert_room);
}

static void run_solve(char **words) {
    const char *room = getenv("ROOM");
    const size_t size = room == NULL ? 60000000 : (size_t)strtoul(room, NULL, 10);
    search given = search_of(words);
    char *plan = room_of(size), *cert = room_of(size);
    mapf_solution found = solved(&given, plan, size, cert, size);
    say_answer(&found.answer, "cost", &given.question.limit);
    if (!is_no_fault(&found.refused)) {
        say("after a refusal: ");
        say_fault(&found.refused);
    }
    if (found.is_written != (found.answer.kind != MAPF_NO_ANSWER)) {
        fail("an answer isn't written, or something else is");
    }
    expect_filled(plan, found.plan_length, size);
    expect_filled(cert, found.cert_length, size);
    if (found.is_written) {
        put_text(words[6], plan, found.plan_length);
        put_text(words[7], cert, found.cert_length);
    }
    release(given.map.bytes);
    release(given.scen.bytes);
    release(plan);
    release(cert);
}

/* Calls with buffers of these sizes, which have to suffice or not, and compares what is written. */
static void try_rooms(const search *given, size_t plan_room, size_t cert_room, const mapf_solution *wanted,
                      const char *plan_text, const char *cert_text) {
    char *plan = room_of(plan_room), *cert = room_of(cert_room);
    mapf_solution found = solved(given, plan, plan_room, cert, cert_room);
    uint32_t fits = plan_room >= wanted->plan_length && cert_room >= wanted->cert_length;
    if (found.is_written != fits || found.plan_length != wanted->plan_length ||
        found.cert_length != wanted->cert_length || found.answer.kind != wanted->answer.kind ||
        found.answer.cost != wanted->answer.cost || found.answer.bound != wanted->answer.bound) {
        fail("another answer in buffers of another size");
    }
    if (fits && (memcmp(plan, plan_text, wanted->plan_length) != 0 ||
                 memcmp(cert, cert_text, wanted->cert_length) != 0)) {
        fail("other bytes in buffers of another size");
    }
    expect_filled(plan, fits ? wanted->plan_length : 0, plan_room);
    expect_filled(cert, fits ? wanted->cert_length : 0, cert_room);
    release(plan);
    release(cert);
}

static void run_rooms(char **words) {
    const size_t size = 1000000;
    search given = search_of(words);
    char *plan = room_of(size), *cert = room_of(size);
    mapf_solution first = solved(&given, plan, size, cert, size);
    size_t p = first.plan_length, c = first.cert_length;
    if (!first.is_written) {
        fail("there is no answer that fits");
    }
    try_rooms(&given, p, c, &first, plan, cert);
    try_rooms(&given, p - 1, c, &first, plan, cert);
    try_rooms(&given, p, c - 1, &first, plan, cert);
    try_rooms(&given, p - 1, c - 1, &first, plan, cert);
    try_rooms(&given, 0, 0, &first, plan, cert);
    try_rooms(&given, 0, c, &first, plan, cert);
    try_rooms(&given, p + 1, c + 1, &first, plan, cert);
    try_rooms(&given, p, c, &first, plan, cert);
    say("rooms of %lu and %lu\n", (unsigned long)p, (unsigned long)c);
    release(given.map.bytes);
    release(given.scen.bytes);
    release(plan);
    release(cert);
}

/* Questions of which one number is out of its range, and the last ones that are in it. */
static void run_wrong(void) {
    static const mapf_question wrong[] = {
        {0, MAPF_CBS, 0, 0}, {201, MAPF_CBS, 0, 0}, {4294967295u, MAPF_CBS, 0, 0}, {1, 2, 0, 0},
        {1, MAPF_CBS, 100001, 0}, {1, MAPF_CBSH, 0, 1000001}, {200, 4294967295u, 100000, 1000000},
    };
    static const mapf_question right[] = {{200, MAPF_CBS, 100000, 1000000}, {1, MAPF_CBSH, 0, 0}};
    static const uint32_t counts[] = {0, 201, 4294967295u};
    char room[1] = {FILL};
    size_t at;
    for (at = 0; at < sizeof wrong / sizeof *wrong; at++) {
        mapf_solution found = mapf_solve("", 0, "", 0, wrong[at], room, 1, room, 0);
        if (found.answer.kind != MAPF_NO_ANSWER || found.answer.fault.error != MAPF_RANGE || found.is_written) {
            fail("a question out of its range is answered");
        }
    }
    for (at = 0; at < sizeof right / sizeof *right; at++) {
        mapf_solution found = mapf_solve("", 0, "", 0, right[at], room, 1, room, 0);
        if (found.answer.kind != MAPF_NO_ANSWER || found.answer.fault.error != MAPF_F1) {
            fail("a question in its range isn't read");
        }
    }
    for (at = 0; at < sizeof counts / sizeof *counts; at++) {
        mapf_answer checked = mapf_check("", 0, "", 0, counts[at], "", 0, "", 0);
        mapf_answer judged = mapf_validate("", 0, "", 0, counts[at], "", 0);
        mapf_dispatcher dispatcher = {NULL, 0};
        mapf_fault made = mapf_dispatcher_new(&dispatcher, "", 0, "", 0, counts[at], "", 0);
        if (checked.fault.error != MAPF_RANGE || judged.fault.error != MAPF_RANGE || made.error != MAPF_RANGE) {
            fail("a number of agents out of its range is taken");
        }
    }
    expect_filled(room, 0, 1);
    say("wrong numbers are told\n");
}

int main(int count, char **words) {
    const char *name = count > 1 ? words[1] : "";
    if (strcmp(name, "version") == 0) {
        say("%u %u\n", (unsigned)mapf_version(), (unsigned)MAPF_VERSION);
    } else if (strcmp(name, "check") == 0 && count == 7) {
        run_check(words + 2);
    } else if (strcmp(name, "validate") == 0 && count == 6) {
        run_validate(words + 2);
    } else if (strcmp(name, "dispatch") == 0 && count == 7) {
        run_dispatch(words + 2);
    } else if (strcmp(name, "visits") == 0 && count == 6) {
        run_visits(words + 2);
    } else if (strcmp(name, "asks") == 0 && count == 8) {
        run_asks(words + 2);
    } else if (strcmp(name, "solve") == 0 && count == 10) {
        run_solve(words + 2);
    } else if (strcmp(name, "rooms") == 0 && count == 8) {
        run_rooms(words + 2);
    } else if (strcmp(name, "wrong") == 0) {
        run_wrong();
    } else {
        fail("library_calls knows no such words");
    }
    return 0;
}

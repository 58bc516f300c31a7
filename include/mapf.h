/* The calls of mapf for C and C++: solve a problem of multi-agent path finding, check a plan with its certificate,
   judge a plan alone, and let agents follow a plan.

   Texts. A text is given as a pointer and a length in bytes, and need not end with a 0. No pointer is ever null, of a
   text, a buffer or a list, also where its length is 0. What the texts are is said in docs/FORMATS.md. A map, a
   scenario and a plan text have at most 67,108,864 bytes, a certificate 1,099,511,627,776; a longer one is told as
   MAPF_F4.

   Buffers. Answers that are texts go into buffers of the caller's, which are given as texts are. A buffer overlaps no
   text and no other buffer.

   Memory. A dispatcher has to be freed, and nothing else: all other calls keep nothing. A call takes its memory by
   malloc and realloc, gives it back by free before it returns, and answers MAPF_F6 where malloc or realloc returns
   null. These three have to belong together, and blocks have to begin at multiples of 16, as those of glibc and musl
   do.

   Threads. Any calls may run in several threads at once, as long as no buffer of one is a text or a buffer of another,
   and a dispatcher is used by one thread at a time. A call shares nothing with another one, opens no file, prints
   nothing and never ends the process. Don't call from a handler of signals, nor in the child of a fork of a process
   with threads. A search can't be stopped: make one that may take too long in a process of its own.

   Units. Agents, rows of the grid and rows of the scenario are counted from 0, columns and ticks too, lines of a text
   from 1. Costs and bounds are in ticks: the cost of a plan is the sum, over its agents, of the tick of the last
   arrival at the goal.

   What is proved. The clauses of crates/mapf_c are proved of each call, and docs/PROOFS.md says what they rest on.
   Below, 'Proved' says in a sentence what they are. Nothing checks that a caller passes what is asked for here. */
#ifndef MAPF_H
#define MAPF_H

#include <stddef.h>
#include <stdint.h>

#ifdef __cplusplus
extern "C" {
#endif

/* The version of this header: 1,000,000 times the first number, 1,000 times the second, and the third. */
#define MAPF_VERSION 1001000

/* mapf_fault.error: no error; the errors F1 to F6 of a run; a number of the caller's is out of its range; and the
   refusals C1 to C10. docs/FORMATS.md, section 8, says what F1 to F6 and C1 to C10 mean. No call answers F5. */
#define MAPF_NO_FAULT 0u
#define MAPF_F1 1u  /* the map has the error that `defect` tells */
#define MAPF_F2 2u  /* the scenario has it */
#define MAPF_F3 3u  /* the plan text, or its plan, has it */
#define MAPF_F4 4u  /* the text that `defect` tells is too long */
#define MAPF_F6 6u  /* memory ran out */
#define MAPF_RANGE 10u
#define MAPF_C1 11u  /* the plan text has the error that `defect` tells */
#define MAPF_C2 12u  /* the certificate has it */
#define MAPF_C3 13u  /* one of these two is for another number of agents */
#define MAPF_C4 14u  /* the certificate's claim doesn't fit the plan text, or that has a limit of version 1 */
#define MAPF_C5 15u  /* the plan isn't valid: `defect` tells why */
#define MAPF_C6 16u  /* what stands in the line `first` of the certificate is wrong: a split, */
#define MAPF_C7 17u  /* a label, */
#define MAPF_C8 18u  /* a leaf, */
#define MAPF_C9 19u  /* a clash, */
#define MAPF_C10 20u /* or something else of version 3 */

/* mapf_fault.defect: the number of an error of docs/FORMATS.md, with 100 for M1 to M9 (of a map), 200 for S1 to S7 (of
   a scenario), 300 for P1 to P4 (of a plan text), 400 for K1 to K4 (of a certificate) and 500 for V1 to V5 (of a plan
   that isn't valid): M4 is 104. Or which text is too long. 0 where there is none. */
#define MAPF_MAP 601u
#define MAPF_SCEN 602u
#define MAPF_PLAN 603u
#define MAPF_CERT 604u
/* Or, of MAPF_F3 alone, why a plan text has no plan to judge: it holds none, or is for another number of agents. */
#define MAPF_NO_PLAN 605u
#define MAPF_OTHER_COUNT 606u

/* An error or a refusal. `count` says how many of the three numbers there are, 0 to 3, and the others are 0:

     M4, M9     a line of the map               M6        a row of the grid
     M7         a column and a row of it        M8        how many rows the map has
     S2, S4-S6  a row of the scenario           S3        a row of it, and a field; fields are counted from 1
     S7         how many rows the scenario has  P, K, C6-C10  a line
     V1, V3     an agent                        V2        an agent and a tick
     V4, V5     two agents and a tick */
typedef struct mapf_fault {
    uint32_t error;
    uint32_t defect;
    uint32_t count;
    uint64_t first;
    uint64_t second;
    uint64_t third;
} mapf_fault;

/* mapf_answer.kind. */
#define MAPF_NO_ANSWER 0u  /* `fault` says why */
#define MAPF_OPTIMAL 1u    /* a valid plan costs `cost`, and none costs less */
#define MAPF_WITHIN 2u     /* a valid plan costs `cost`, and none costs less than `bound`, which is smaller */
#define MAPF_BOUND 3u      /* there is no plan here, and no valid plan costs less than `bound` */
#define MAPF_IMPOSSIBLE 4u /* no plan is valid */
#define MAPF_VALID 5u      /* the plan is valid and costs `cost`; another one may cost less */

/* mapf_answer.cause: why a search answers MAPF_BOUND. 0 for all other answers. */
#define MAPF_SPLITS 1u /* its splits are used up */
#define MAPF_TICKS 2u  /* it would have to split at tick 1,000,000 or later */

/* What a call found. `bound` and `cost` are 0 to 1,999,999,800. Where a plan is optimal, both are its cost; what an
   answer doesn't have is 0, as the bound of MAPF_VALID. `fault` has only zeros unless `kind` is MAPF_NO_ANSWER. */
typedef struct mapf_answer {
    uint32_t kind;
    uint32_t cause;
    uint64_t bound;
    uint64_t cost;
    mapf_fault fault;
} mapf_answer;

/* mapf_question.search: plain conflict-based search, and the second search, which docs/USE.md explains. */
#define MAPF_CBS 0u
#define MAPF_CBSH 1u

/* What a search is asked for. */
typedef struct mapf_question {
    uint32_t agents;       /* how many agents of the scenario count, 1 to 200 */
    uint32_t search;       /* MAPF_CBS or MAPF_CBSH */
    uint32_t limit;        /* how many splits the search may make, 0 to 100,000; MAPF_CBSH may make 300 all the same */
    uint32_t improvements; /* how often MAPF_CBSH improves its first plan, 0 to 1,000,000; say 50 * agents */
} mapf_question;

/* What a search found, and its two texts. */
typedef struct mapf_solution {
    mapf_answer answer;
    mapf_fault refused; /* all 0, or why the check refused MAPF_CBSH's answer: then `answer` is that of MAPF_CBS */
    uint32_t is_written; /* 1 if both texts were written, else 0 */
    size_t plan_length;  /* bytes of the plan text, 0 if there is no answer */
    size_t cert_length;  /* bytes of the certificate, 0 if there is no answer */
} mapf_solution;

/* A dispatcher, or none, which is {NULL, 0}: begin with none. Only the calls below change it. It may be copied, but
   then only one of the copies is used from then on. */
typedef struct mapf_dispatcher {
    void *kept;
    uint32_t is_made; /* 1 if there is a dispatcher, else 0 */
} mapf_dispatcher;

/* mapf_reply.kind, beside MAPF_RANGE, which says that this isn't an agent. */
#define MAPF_GO 1u   /* the agent is in the cell `number`, its next one, from now on, and the one before is free */
#define MAPF_HOLD 2u /* it waits for the agent `number` to leave a cell, and may ask again later */
#define MAPF_DONE 3u /* it is at the end of its path and stays there */

/* A reply to an agent that asks to move on. A cell is told by its number: its row times the width of the map, plus its
   column. `number` is 0 where there is none. */
typedef struct mapf_reply {
    uint32_t kind;
    uint32_t number;
} mapf_reply;

/* A visit of an agent: its cell, by its number, and the tick of the plan at which the agent enters it. `count` says how
   many visits the agent has, 0 if it isn't one. The other two are 0 if it has no visit of the number that was asked
   for. */
typedef struct mapf_visit {
    uint32_t count;
    uint32_t cell;
    uint32_t entry;
} mapf_visit;

/* Returns the version of the library, which is MAPF_VERSION of the header that belongs to it. */
uint32_t mapf_version(void);

/* Checks a plan text and a certificate for the problem of the first `agents` agents (1 to 200) of a scenario.

   The certificate's claim has to fit the cost of the plan, else the answer is MAPF_C4. So a plan that costs more is
   refused beside the certificate of an optimal one. For a bound in place of this: compare the costs of mapf_validate
   and mapf_solve; or, in a certificate of version 3, write `claim bound B` for `claim cost B`, then it is MAPF_WITHIN.

   Proved: a verdict is true of the problem that the map and the scenario spell, whoever wrote the other two texts; what
   has to be accepted is accepted, unless a text is too long or memory runs out; and an error is one that the texts
   have. Which of P1 to P4, of K1 to K4 and, in version 3, of C6 to C10 it is, the lines of these, and that an error is
   the first one, are tested. */
mapf_answer mapf_check(const char *map, size_t map_length, const char *scen, size_t scen_length, uint32_t agents,
                       const char *plan, size_t plan_length, const char *cert, size_t cert_length);

/* Judges the plan of a plan text alone, for the problem of the first `agents` agents (1 to 200) of a scenario: it is
   valid, or has the error that MAPF_F3 tells.

   Proved: a plan is found valid if and only if it is, unless a text is too long or memory runs out; `cost` is its sum
   of costs; and an error is one that the texts have. Which of P1 to P4 it is, its line, and that it is the first one,
   are tested. */
mapf_answer mapf_validate(const char *map, size_t map_length, const char *scen, size_t scen_length, uint32_t agents,
                          const char *plan, size_t plan_length);

/* Solves the problem of the first agents of a scenario, and writes a plan text, in version 2, and a certificate, in
   version 2 or, by MAPF_CBSH, 3. Nothing but `limit` and `improvements` bounds the time and the memory that a search
   takes.

   If there is an answer and both texts fit into their buffers, they are written to their fronts. Else nothing is
   written, and the lengths say how much room they need: a second call with enough room searches again, answers the
   same, and writes these texts. Certificates may have hundreds of megabytes. Bytes behind a text stay as they were.

   Proved: the answer is true of the problem that the map and the scenario spell; mapf_check accepts the two texts with
   it, unless one is too long or memory runs out; an error is one that the map or the scenario has; and nothing but the
   two texts is written. That the same call answers the same is tested. */
mapf_solution mapf_solve(const char *map, size_t map_length, const char *scen, size_t scen_length,
                         mapf_question question, char *plan, size_t plan_room, char *cert, size_t cert_room);

/* Makes a dispatcher of the plan of a plan text, for the problem of the first `agents` agents (1 to 200) of a scenario.
   Each agent begins in its first visit. Returns MAPF_NO_FAULT, or why there is no dispatcher. The place for it holds
   none or one, which is freed first, also before an error. A new one is freed by mapf_dispatcher_free.

   Proved: the plan is valid; each valid plan gets a dispatcher, unless a text is too long or memory runs out; and an
   error is one that the texts have. Which of P1 to P4 it is, and its line, is tested. */
mapf_fault mapf_dispatcher_new(mapf_dispatcher *dispatcher, const char *map, size_t map_length, const char *scen,
                               size_t scen_length, uint32_t agents, const char *plan, size_t plan_length);

/* Lets `count` agents, counted from 0, ask one after another to move on, and puts their replies into a buffer of `room`
   replies. Returns how many were answered: `count`, or 0 if there is no dispatcher (`is_made` is 0) or the buffer is
   too short. Then nothing changes. It takes no memory, which is tested.

   The cell that an agent leaves is free from the reply MAPF_GO on: where moves take time, let no agent ask until the
   move is finished. Agents in a full cycle of the plan, of which each goes where the next one is, are told MAPF_HOLD
   for ever, and so is whoever waits for them: `number` leads from each to the next. tools/uncycle makes a plan without.

   Proved: each reply is the one that the program's `dispatch` gives, so agents keep the plan's order at each cell. One
   that isn't an agent is told MAPF_RANGE and changes nothing. */
size_t mapf_dispatcher_ask(mapf_dispatcher *dispatcher, const uint32_t *agents, size_t count, mapf_reply *replies,
                           size_t room);

/* Returns how many visits an agent has, and its visit of this number, counted from 0. After n replies MAPF_GO an agent
   is in its visit n. It takes no memory, which is tested.

   Proved: the visit is the one of the plan's path, and nothing changes. */
mapf_visit mapf_dispatcher_visit(mapf_dispatcher *dispatcher, uint32_t agent, uint32_t number);

/* Gives the memory of a dispatcher back, if there is one. Proved: there is none afterwards. */
void mapf_dispatcher_free(mapf_dispatcher *dispatcher);

#ifdef __cplusplus
}
#endif

#endif

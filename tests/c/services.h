/* What the tests know of the services, all of it from the list in services.def. */
#ifndef SERVICES_H
#define SERVICES_H

/* What a call may take. First the buffers, the fields of a call, then its numbers. */
enum { LEFT_SHEET, RIGHT_SHEET, WIRING, FIRST, SECOND, LENT, FIELDS, NUMBER = FIELDS, VALUE };

/* The words of the list for what a service takes first and for what it answers. */
enum { SHEET, PLAN };
enum { NO_VALUE, A_VALUE, A_VERTEX, A_WORD, DECODED, A_STATE };

/* The services by name, and how many there are. */
enum {
#define SERVICE(stream, service, call, shown, on, answer, takes) service,
#include "services.def"
    SERVICES
};

/* Sets of services. */
#define ON(service) (1u << (service))
enum {
    ON_PLANS = 0 /* those that take a plan */
#define SERVICE(stream, service, call, shown, on, answer, takes) | (on == PLAN ? ON(service) : 0)
#include "services.def"
    ,
    ON_STATES = 0 /* those that make or change a state */
#define SERVICE(stream, service, call, shown, on, answer, takes) | (answer == A_STATE ? ON(service) : 0)
#include "services.def"
    ,
#define TAKES_FIRST | ON(FIRST)
#define TAKES_SECOND | ON(SECOND)
#define TAKES_LENT | ON(LENT)
#define TAKES_NUMBER | ON(NUMBER)
#define TAKES_VALUE | ON(VALUE)
    READING = 0 /* those that read a block, a message or a table */
#define SERVICE(stream, service, call, shown, on, answer, takes) | ((0 takes) & ON(FIRST) ? ON(service) : 0)
#include "services.def"
    ,
    WRITING = 0 /* those that write a buffer */
#define SERVICE(stream, service, call, shown, on, answer, takes) | ((0 takes) & ON(LENT) ? ON(service) : 0)
#include "services.def"
#undef TAKES_FIRST
#undef TAKES_SECOND
#undef TAKES_LENT
#undef TAKES_NUMBER
#undef TAKES_VALUE
};
#define ON_ALL (ON(SERVICES) - 1)
#define ON_SHEETS (ON_ALL & ~ON_PLANS)
#define CHANGING_STATES (ON_STATES & ~READING)            /* those that take a state, and no block */
#define ON_BLOCKS (READING & ~(ON(LOOK_UP) | ON(ENCODE))) /* those whose first buffer is a block */

/* The list as a table. */
typedef struct {
    unsigned stream;   /* its number in the stream */
    const char *shown; /* its name in what is printed */
    int answer;        /* what is in its answer */
    int takes[8];      /* what it takes after the sheet or the plan, in order; 0 ends it */
} service_line;

extern const service_line services[SERVICES];

#endif

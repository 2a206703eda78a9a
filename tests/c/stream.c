/* The stored stream: every record of it is run, and the line that it gives compared with the one expected. The format is that
 * of docs/STREAM.md. */
#include "subjects.h"

#include <stdlib.h>

static uint8_t *read_file(const char *name, size_t *size)
{
    FILE *file = fopen(name, "rb");
    if (file == NULL) {
        perror(name);
        exit(1);
    }
    size_t room = 1 << 16, got;
    uint8_t *data = take(room);
    *size = 0;
    while ((got = fread(data + *size, 1, room - *size, file)) > 0) {
        *size += got;
        if (*size == room) {
            room *= 2;
            data = realloc(data, room);
            if (data == NULL)
                give_up("no memory");
        }
    }
    fclose(file);
    return data;
}

/* What is still to be read of the stream. */
static bytes rest;

static uint64_t next_number(unsigned size)
{
    uint64_t value = 0;
    if (rest.size < size)
        give_up("the stream ends within a record");
    for (unsigned i = 0; i < size; i++)
        value = value << 8 | rest.data[i];
    rest.data += size;
    rest.size -= size;
    return value;
}

static bytes next_bytes(void)
{
    bytes field;
    field.size = next_number(4);
    if (rest.size < field.size || field.size > ROOM)
        give_up("a field of the stream is too long");
    field.data = rest.data;
    rest.data += field.size;
    rest.size -= field.size;
    return field;
}

/* The service of the stream that C does not call. It takes a plan and a number. */
#define PIECE 2

/* The service with this number in the stream; SERVICES for the piece. */
static unsigned service_of(unsigned stream)
{
    unsigned service = 0;
    while (service < SERVICES && services[service].stream != stream)
        service++;
    if (service == SERVICES && stream != PIECE)
        give_up("the stream names no such service");
    return service;
}

static call next_record(void)
{
    static const int takes_number[] = {NUMBER, 0};
    call c = {.service = service_of((unsigned)next_number(1))};
    const int *takes = c.service == SERVICES ? takes_number : services[c.service].takes;
    c.field[LEFT_SHEET] = next_bytes();
    if (c.service == SERVICES || ON(c.service) & ON_PLANS) {
        c.field[RIGHT_SHEET] = next_bytes();
        c.nl = next_number(8);
        c.nr = next_number(8);
        c.field[WIRING] = next_bytes();
    }
    for (; *takes != 0; takes++)
        if (*takes == NUMBER)
            c.number = next_number(8);
        else if (*takes == VALUE)
            c.value = next_number(8);
        else
            c.field[*takes] = next_bytes();
    return c;
}

static void show_number(uint64_t number, unsigned size)
{
    printf(" ");
    while (size-- > 0)
        printf("%02x", (unsigned)(number >> 8 * size & 0xff));
}

static void show_bytes(bytes field)
{
    show_number(field.size, 4);
    if (field.size != 0)
        printf(" ");
    for (size_t i = 0; i < field.size; i++)
        printf("%02x", field.data[i]);
}

void show_record(const call *c)
{
    printf("%02x", services[c->service].stream);
    show_bytes(c->field[LEFT_SHEET]);
    if (ON(c->service) & ON_PLANS) {
        show_bytes(c->field[RIGHT_SHEET]);
        show_number(c->nl, 8);
        show_number(c->nr, 8);
        show_bytes(c->field[WIRING]);
    }
    for (const int *takes = services[c->service].takes; *takes != 0; takes++)
        if (*takes < FIELDS)
            show_bytes(c->field[*takes]);
        else
            show_number(*takes == NUMBER ? c->number : c->value, 8);
    printf("\n");
}

/* The line that a call gives: the answer, then the whole lent buffer where there is one, then the decoder's sums and visits. */
static const char *line_of(const call *c, const outcome *o)
{
    static char line[2 * ROOM + SUMS_ROOM + 100];
    char *end = line;
    lembikat_answer a = o->answer;
    int answer = services[c->service].answer;
    if (a.number != LEMBIKAT_DONE)
        end += sprintf(end, "refused %u %u", a.number, a.place);
    else if (answer == A_WORD)
        end += sprintf(end, "ok %llu %llu", (unsigned long long)a.value, (unsigned long long)o->changed);
    else if (answer == NO_VALUE || answer == A_STATE) /* a state is in the lent buffer */
        end += sprintf(end, "ok");
    else if (answer != A_VERTEX)
        end += sprintf(end, "ok %llu", (unsigned long long)a.value);
    else if (a.place == LEMBIKAT_NONE)
        end += sprintf(end, "ok none");
    else
        end += sprintf(end, "ok %s %llu", a.place == LEMBIKAT_LEFT ? "left" : "right", (unsigned long long)a.value);
    if (ON(c->service) & WRITING) {
        size_t size = c->field[LENT].size;
        end += sprintf(end, "%s", size == 0 ? " -" : " ");
        for (size_t i = 0; i < size; i++)
            end += sprintf(end, "%02x", o->lent[i]);
    }
    if (answer == DECODED) {
        char sums[SUMS_ROOM];
        put_sums(sums, o->sums);
        sprintf(end, " %s %llu", sums, (unsigned long long)o->visits);
    }
    return line;
}

/* The next line of the expected file, without its end; NULL where there is none. */
static const char *next_line(char **text)
{
    char *line = *text;
    if (*line == '\0')
        return NULL;
    char *end = strchr(line, '\n');
    if (end == NULL) {
        *text = line + strlen(line);
    } else {
        *end = '\0';
        *text = end + 1;
    }
    return line;
}

/* What is shown of a line: 200 characters from here on, so that the place where it leaves the other line is among them. */
static const char *shown(const char *line, const char *other)
{
    size_t same = 0;
    while (line[same] != '\0' && line[same] == other[same])
        same++;
    return line + (same > 100 ? same - 100 : 0);
}

void stored_stream(const char *stream_name, const char *expected_name)
{
    size_t stream_size, expected_size;
    uint8_t *stream = read_file(stream_name, &stream_size);
    char *expected = (char *)read_file(expected_name, &expected_size);
    expected[expected_size] = '\0'; /* there is room: a full buffer was doubled */
    char *text = expected;
    size_t records = 0, pieces = 0;
    rest = (bytes){stream, stream_size};
    while (rest.size != 0) {
        call c = next_record();
        const char *want = next_line(&text);
        records++;
        if (c.service == SERVICES) {
            pieces++;
            continue;
        }
        run_all(&c);
        const char *line = line_of(&c, &by_library);
        if (want == NULL)
            want = "(no line)";
        if (failed(strcmp(line, want) != 0 || by_library.trouble != NULL))
            printf("FAILED: record %zu (%s)\n  expected %.200s\n  library  %.200s\n  %s\n", records, services[c.service].shown,
                   shown(want, line), shown(line, want), by_library.trouble == NULL ? "" : by_library.trouble);
        /* The stored lines also vouch for the reference, which all other tests lean on. */
        if (failed(!same_outcome(&c, &by_library, &by_reference))) {
            printf("FAILED: record %zu (%s) beside the reference\n", records, services[c.service].shown);
            show("reference", &c, &by_reference);
            show("library  ", &c, &by_library);
        }
    }
    if (failed(next_line(&text) != NULL))
        printf("FAILED: there are more expected lines than records\n");
    printf("stream: %zu records, %zu of them run, %zu of the piece skipped\n", records, records - pieces, pieces);
    free(stream);
    free(expected);
}

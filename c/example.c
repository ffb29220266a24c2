/* Reads the lines of a log, each of which begins with a date-time, and prints them with that date-time in UTC. Its last
 * line says how long the log lasts. Lines without a date-time are reported on standard error.
 *
 *     cc example.c $(pkg-config --cflags --libs speedate) -o example && ./example < LOG
 */
#define _POSIX_C_SOURCE 200809L /* for getline */
#include "speedate.h"

#include <stdio.h>
#include <stdlib.h>

static void report(int number, int code, SpeedatePart part) {
    char wanted[SPEEDATE_CODE_TEXT_SIZE];
    size_t length;
    if (speedate_code_expected(code, &part, wanted, sizeof wanted, &length) != SPEEDATE_OK)
        return;
    fprintf(stderr, "line %d: %s", number, speedate_code_string(code));
    /* A date-time that parses, but has no clock in UTC, has no part that is wrong. */
    if (part.kind != SPEEDATE_KIND_NONE)
        fprintf(stderr, " at byte %zu", part.start);
    fprintf(stderr, ": expected %s\n", wanted);
}

int main(void) {
    SpeedateConfig config = SPEEDATE_CONFIG_DEFAULT;
    SpeedateDateTime first, last, moment;
    SpeedateDuration span;
    SpeedatePart part;
    char *line = NULL, text[SPEEDATE_DATETIME_TEXT_SIZE], span_text[SPEEDATE_DURATION_TEXT_SIZE];
    size_t room = 0, length;
    ssize_t size;
    int seen = 0;
    /* Of nine digits of a second, which Go, Docker and Kubernetes print, those after the sixth are dropped; by default
     * they are refused. */
    config.overflow_behavior = SPEEDATE_OVERFLOW_TRUNCATE;
    for (int number = 1; (size = getline(&line, &room, stdin)) > 0; number++) {
        size -= line[size - 1] == '\n'; /* so that a line that ends too early is too short */
        int code = speedate_datetime_parse(line, (size_t)size, SPEEDATE_FRONT, &config, &moment, &part);
        if (code == SPEEDATE_OK)
            code = speedate_datetime_in_timezone(moment, 0, &moment);
        if (code == SPEEDATE_OK)
            code = speedate_datetime_to_text(moment, SPEEDATE_DIGITS_AUTO, text, sizeof text, &length);
        if (code != SPEEDATE_OK) {
            report(number, code, part);
            continue;
        }
        fputs(text, stdout);
        fwrite(line + part.end, 1, (size_t)size - part.end, stdout);
        putchar('\n');
        if (seen++ == 0)
            first = moment;
        last = moment;
    }
    free(line);
    if (seen > 0 && speedate_duration_between(first, last, &span) == SPEEDATE_OK &&
        speedate_duration_to_text(span, span_text, sizeof span_text, &length) == SPEEDATE_OK)
        printf("%d lines in %s\n", seen, span_text);
    if (ferror(stdin) || fflush(stdout) != 0 || ferror(stdout)) {
        fputs("the log was not read or printed to its end\n", stderr);
        return 1;
    }
    return 0;
}

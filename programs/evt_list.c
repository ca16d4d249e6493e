/* Lists the records of EVT logs, which the old panels write: a line for each record, with its text.
 *
 *     evt_list FILE..
 *
 * A header that is out of date is repaired from the trailer, in memory only. The records are those from the header's first offset up to its
 * cursor, each where the one before it ends, and all together no longer than what stands behind the header. Where the log, or what stands where
 * a record is due, is refused, the line is `refused N`, and the log's listing ends there. Exit status: 1 if something cannot be read or written,
 * which a line on standard error tells; 2 for wrong arguments.
 *
 * It is written in C: a program in Rattle would need memory for 16 MiB, which its checker cannot take. What it calls is proved. A log is read
 * and not mapped: whoever cuts a mapped file meanwhile ends the program, and a pipe cannot be mapped. */
#include "../include/evtx.h"
#include <errno.h>
#include <inttypes.h>
#include <stdio.h>
#include <string.h>

#define FIXED_PART 56
#define FILL_WORD 0x27

static const char usage[] = "usage: evt_list [--help | --version | FILE..]\n";
static const char help[] = "\n"
                           "Lists the records of event logs of the older form (EVT): a line for each record,\n"
                           "with its number, its written time in seconds from 1970, event id, type, category\n"
                           "and strings. A header that is out of date is repaired from the trailer; the file\n"
                           "is not changed. What is refused is a line with its number.\n"
                           "\n"
                           "  FILE       a log; - is standard input\n"
                           "  --help     writes this help\n"
                           "  --version  writes the version\n"
                           "\n"
                           "Where there are several, the listing of each begins with the line FILE: .\n"
                           "What cannot be read or written is told on standard error; the exit status is\n"
                           "then 1, and 2 for wrong arguments. The manual page evt_list(1) says what the\n"
                           "numbers mean.\n";

/* A log; one byte more than it may have tells that it has too many. */
static uint8_t log_bytes[EVTX_MOST_EVT + 1];

/* A text: its numbers take less than the 60 bytes of a record that are no string, and a unit, two bytes, becomes six at most. */
static uint8_t text[3 * EVTX_MOST_EVT];

/* What the system said when standard output first failed; 0 if it has not. */
static int output_error;

static int tell(const char *name, int error)
{
    fprintf(stderr, "evt_list: %s: %s\n", name, strerror(error));
    return 1;
}

/* Keeps what the system says of a write to standard output that does not succeed. */
static void wrote(int succeeded)
{
    if (!succeeded && output_error == 0)
        output_error = errno;
}

static uint32_t number_at(const uint8_t *bytes)
{
    return bytes[0] | (uint32_t)bytes[1] << 8 | (uint32_t)bytes[2] << 16 | (uint32_t)bytes[3] << 24;
}

/* How many bytes from `at` to the end are fill words, which the service writes where a record's fixed part has no room; 0 if others are. */
static size_t fill_at(const uint8_t *log, size_t n, size_t at)
{
    if (at >= n || n - at >= FIXED_PART || (n - at) % 4 != 0)
        return 0;
    for (size_t k = at; k < n; k += 4)
        if (number_at(log + k) != FILL_WORD)
            return 0;
    return n - at;
}

static uint32_t write_text(const uint8_t *log, size_t n, size_t at)
{
    evtx_text answer = evtx_evt_text(log, n, at, text, sizeof text);

    if (answer.number == EVTX_DONE)
        wrote(fwrite(text, 1, answer.length, stdout) == answer.length && putchar('\n') != EOF);
    return answer.number;
}

/* Lists the records from `at` up to the cursor. Each step takes bytes of what stands behind the header, and none are left for a second round. */
static uint32_t walk(const uint8_t *log, size_t n, size_t at, size_t cursor)
{
    size_t left = n - EVTX_EVT_HEADER_SIZE;

    while (at != cursor && output_error == 0) {
        evtx_evt_seen seen = {.number = EVTX_DONE, .length = fill_at(log, n, at), .next = EVTX_EVT_HEADER_SIZE};
        int is_fill = seen.length > 0;

        if (!is_fill)
            seen = evtx_evt_record(log, n, at);
        if (seen.number == EVTX_DONE && seen.length > left)
            seen.number = EVTX_NO_EVT_RECORD;
        if (seen.number == EVTX_DONE && !is_fill)
            seen.number = write_text(log, n, at);
        if (seen.number != EVTX_DONE)
            return seen.number;
        left -= seen.length;
        at = seen.next;
    }
    return EVTX_DONE;
}

static void list_log(uint8_t *log, size_t n)
{
    uint8_t header[EVTX_EVT_HEADER_SIZE];
    uint32_t number = evtx_evt_header(log, n, header, sizeof header).number;

    if (number == EVTX_DONE) {
        /* With a clean header the calls need not look for the trailer each time. */
        memcpy(log, header, sizeof header);
        number = walk(log, n, number_at(header + 16), number_at(header + 20));
    }
    if (number != EVTX_DONE)
        wrote(printf("refused %" PRIu32 "\n", number) >= 0);
}

static int list_file(const char *name)
{
    int is_input = strcmp(name, "-") == 0, failed = 0;
    FILE *file = is_input ? stdin : fopen(name, "rb");
    size_t n;

    if (file == NULL)
        return tell(name, errno);
    n = fread(log_bytes, 1, sizeof log_bytes, file);
    if (ferror(file))
        failed = tell(is_input ? "standard input" : name, errno);
    else
        list_log(log_bytes, n);
    if (!is_input)
        fclose(file);
    return failed;
}

/* The first word that is an option, if there is one. */
static const char *option_of(char **words)
{
    for (; *words != NULL; words++)
        if ((*words)[0] == '-' && (*words)[1] != '\0')
            return *words;
    return NULL;
}

static int list_files(char **names)
{
    int several = names[1] != NULL, failed = 0;

    for (; *names != NULL && output_error == 0; names++) {
        if (several)
            wrote(printf("%s:\n", *names) >= 0);
        failed |= list_file(*names);
    }
    return failed;
}

int main(int count, char **words)
{
    const char *option = count < 2 ? "" : option_of(words + 1);
    int failed = 0;

    if (option == NULL)
        failed = list_files(words + 1);
    else if (strcmp(option, "--version") == 0)
        wrote(puts("evt_list " EVTX_VERSION) >= 0);
    else if (strcmp(option, "--help") == 0)
        wrote(fputs(usage, stdout) >= 0 && fputs(help, stdout) >= 0);
    else
        return fputs(usage, stderr), 2;
    wrote(fflush(stdout) == 0);
    return output_error != 0 ? tell("standard output", output_error) : failed;
}

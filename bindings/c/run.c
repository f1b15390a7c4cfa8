/* Answers standard input line by line as the program does, by calls of the library.
 *
 *   bindings/out/run check FILE     bindings/out/run run FILE
 *
 * The exit status and what is written are those of `bulkhead check` and `bulkhead run`. */
#include <stdio.h>
#include <stdlib.h>
#include <string.h>

#include "bulkhead.h"

enum { REFUSED = 1, ARGUMENTS = 2, FAULT = 3, FILE_LIMIT = 4 << 20, LINE_LIMIT = 1024 };

static int fault(const char *what) {
    fprintf(stderr, "fault: %s\n", what);
    return FAULT;
}

/* Reads the file, of at most FILE_LIMIT bytes, or gives NULL. */
static uint8_t *read_file(const char *path, size_t *length) {
    FILE *file = fopen(path, "rb");
    uint8_t *bytes = file ? malloc(FILE_LIMIT + 1) : NULL;
    if (bytes)
        *length = fread(bytes, 1, FILE_LIMIT + 1, file);
    if (bytes && (ferror(file) || *length > FILE_LIMIT)) {
        free(bytes);
        bytes = NULL;
    }
    if (file)
        fclose(file);
    return bytes;
}

/* Answers one line, and gives 0 or the exit status. */
static int answer_line(bulkhead_service *service, const uint8_t *line, size_t length) {
    uint8_t answer[BULKHEAD_ANSWER_ROOM] = {0};
    size_t answer_length = 0;
    switch (bulkhead_line(service, line, length, answer, sizeof answer, &answer_length)) {
    case BULKHEAD_DONE:
        return fwrite(answer, 1, answer_length, stdout) == answer_length ? 0 : fault("write");
    case BULKHEAD_BAD_LINE:
        return fault("line");
    default:
        return fault("memory");
    }
}

/* Answers a line, less the carriage return at its end. */
static int answer_cut(bulkhead_service *service, const uint8_t *line, size_t length) {
    if (length > LINE_LIMIT)
        return fault("line");
    return answer_line(service, line, length > 0 && line[length - 1] == '\r' ? length - 1 : length);
}

/* Answers each line of standard input, and gives the exit status. */
static int run(bulkhead_service *service) {
    uint8_t line[LINE_LIMIT + 2];
    size_t length = 0;
    int status = 0;
    for (int byte; status == 0 && (byte = getchar()) != EOF;) {
        if (byte == '\n') {
            status = answer_cut(service, line, length);
            length = 0;
        } else if (length > LINE_LIMIT) {
            status = fault("line");
        } else {
            line[length++] = (uint8_t)byte;
        }
    }
    if (status == 0 && ferror(stdin))
        status = fault("read");
    if (status == 0 && length > 0 && !(length == 1 && line[0] == '\r'))
        status = answer_cut(service, line, length);
    return fflush(stdout) == 0 || status ? status : fault("write");
}

/* Prints what is in force, and gives the exit status. */
static int check(bulkhead_service *service) {
    uint8_t none[1] = {0};
    size_t length = 0;
    uint32_t code = bulkhead_check(service, none, 0, &length);
    uint8_t *text = code == BULKHEAD_NO_ROOM ? calloc(length, 1) : NULL;
    if (!text || bulkhead_check(service, text, length, &length) != BULKHEAD_DONE)
        return fault("memory");
    int status = fwrite(text, 1, length, stdout) == length && fflush(stdout) == 0 ? 0 : fault("write");
    free(text);
    return status;
}

/* Opens the service, or gives the exit status. */
static int open_file(bulkhead_service *service, const char *path) {
    size_t length = 0, why_length = 0;
    uint8_t why[256] = {0}, *settings = read_file(path, &length);
    if (!settings)
        return fault("file");
    uint32_t code = bulkhead_open(service, settings, length, why, sizeof why, &why_length);
    free(settings);
    if (code == BULKHEAD_REFUSED) {
        fprintf(stderr, "%.*s\n", (int)(why_length < sizeof why ? why_length : sizeof why), why);
        return REFUSED;
    }
    return code == BULKHEAD_DONE ? 0 : fault("memory");
}

int main(int count, char **words) {
    bulkhead_service service = {0};
    if (count != 3 || (strcmp(words[1], "check") && strcmp(words[1], "run")))
        return ARGUMENTS;
    int status = open_file(&service, words[2]);
    if (status)
        return status;
    status = strcmp(words[1], "check") ? run(&service) : check(&service);
    bulkhead_close(&service);
    return status;
}

/*
 * texts.c: text in JSON, by agent/json.c alone. Each line of standard input is a name, whose bytes are written as a
 * text and as a URI. With a number N only the first N requests for memory are granted.
 */
#include "json.h"

#include <stdio.h>
#include <stdlib.h>
#include <string.h>

static long left = -1;

void *__real_realloc(void *memory, size_t size);
void *__wrap_realloc(void *memory, size_t size) {
    if (left == 0) {
        return NULL;
    }
    left -= left > 0;
    return __real_realloc(memory, size);
}

static void write_name(const char *name) {
    struct json line = {NULL, 0, 0, 0, 0};
    json_object(&line, NULL);
    json_text(&line, "text", name);
    json_text(&line, "none", NULL);
    json_uri(&line, "uri", name, 0);
    json_name(&line, "name", name);
    json_list(&line, "list");
    json_number(&line, NULL, UINT64_MAX);
    json_truth(&line, NULL, 1);
    json_object(&line, NULL);
    json_end(&line);
    json_end_list(&line);
    json_end(&line);
    json_line(&line);
    if (line.is_lost) {
        puts("lost");
    } else {
        fwrite(line.bytes, 1, line.size, stdout);
    }
    json_free(&line);
}

int main(int count, char **words) {
    static char name[1 << 16];
    left = count > 1 ? atol(words[1]) : -1;
    while (fgets(name, sizeof name, stdin) != NULL) {
        name[strcspn(name, "\n")] = 0;
        write_name(name);
    }
    return 0;
}

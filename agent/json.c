/*
 * json.c: text in JSON.
 */
#include "json.h"

#include <stdio.h>
#include <stdlib.h>
#include <string.h>

static void put(struct json *to, const char *bytes, size_t size) {
    if (to->size + size > to->room) {
        size_t room = 2 * (to->size + size);
        char *grown = to->is_lost ? NULL : realloc(to->bytes, room);
        if (grown == NULL) {
            to->is_lost = 1;
            return;
        }
        to->bytes = grown;
        to->room = room;
    }
    if (size > 0) {
        memcpy(to->bytes + to->size, bytes, size);
        to->size += size;
        to->last = bytes[size - 1];
    }
}

static void put_text(struct json *to, const char *text) {
    put(to, text, strlen(text));
}

/* How many bytes the character has that stands there, or 0: it isn't UTF-8. A NUL ends the text. */
static size_t length_of(const unsigned char *at) {
    static const struct { unsigned char mask, lead; uint32_t least; } FORMS[] = {
        {0x80, 0x00, 0}, {0xE0, 0xC0, 0x80}, {0xF0, 0xE0, 0x800}, {0xF8, 0xF0, 0x10000}};
    for (size_t more = 0; more < sizeof FORMS / sizeof *FORMS; more++) {
        if ((at[0] & FORMS[more].mask) == FORMS[more].lead) {
            uint32_t code = at[0] & (unsigned char)~FORMS[more].mask;
            for (size_t next = 1; next <= more; next++) {
                if ((at[next] & 0xC0) != 0x80) {
                    return 0;
                }
                code = code << 6 | (at[next] & 0x3F);
            }
            int is_surrogate = code >= 0xD800 && code < 0xE000;
            return code < FORMS[more].least || code > 0x10FFFF || is_surrogate ? 0 : more + 1;
        }
    }
    return 0;
}

/* Where `is_name`, what would break a line is spelled, as sites_spelled does. */
static void put_string(struct json *to, const char *text, int is_name) {
    char spelled[8];
    put_text(to, "\"");
    for (const unsigned char *at = (const unsigned char *)text; *at != 0;) {
        size_t size = length_of(at);
        if (size == 0 || (is_name && (*at < 0x20 || *at == 0x7F || *at == '\\'))) {
            snprintf(spelled, sizeof spelled, "\\\\x%02x", *at);
        } else if (*at == '"' || *at == '\\' || *at == '\n') {
            snprintf(spelled, sizeof spelled, "\\%c", *at == '\n' ? 'n' : *at);
        } else if (*at < 0x20 || *at == 0x7F) {
            snprintf(spelled, sizeof spelled, "\\u%04x", *at);
        } else {
            put(to, (const char *)at, size);
            at += size;
            continue;
        }
        put_text(to, spelled);
        at++;
    }
    put_text(to, "\"");
}

/* What stands before an item: a comma behind another one, and its key. */
static void put_key(struct json *to, const char *key) {
    if (to->last != 0 && strchr("{[:\n", to->last) == NULL) {
        put_text(to, ",");
    }
    if (key != NULL) {
        put_string(to, key, 0);
        put_text(to, ":");
    }
}

void json_object(struct json *to, const char *key) {
    put_key(to, key);
    put_text(to, "{");
}

void json_end(struct json *to) {
    put_text(to, "}");
}

void json_list(struct json *to, const char *key) {
    put_key(to, key);
    put_text(to, "[");
}

void json_end_list(struct json *to) {
    put_text(to, "]");
}

void json_text(struct json *to, const char *key, const char *text) {
    if (text != NULL) {
        put_key(to, key);
        put_string(to, text, 0);
    }
}

void json_name(struct json *to, const char *key, const char *name) {
    put_key(to, key);
    put_string(to, name, 1);
}

void json_number(struct json *to, const char *key, uint64_t number) {
    char text[24];
    snprintf(text, sizeof text, "%llu", (unsigned long long)number);
    put_key(to, key);
    put_text(to, text);
}

void json_truth(struct json *to, const char *key, int is_so) {
    put_key(to, key);
    put_text(to, is_so ? "true" : "false");
}

void json_raw(struct json *to, const char *bytes) {
    if (*bytes != 0) {
        put_key(to, NULL);
        put_text(to, bytes);
    }
}

void json_uri(struct json *to, const char *key, const char *path, int is_spelled) {
    static const char PLAIN[] = "/-._~abcdefghijklmnopqrstuvwxyzABCDEFGHIJKLMNOPQRSTUVWXYZ0123456789";
    char spelled[4];
    unsigned byte;
    put_key(to, key);
    put_text(to, *path == '/' ? "\"file://" : "\"");
    for (; *path != 0; path++) {
        if (strchr(PLAIN, *path) != NULL) {
            put(to, path, 1);
            continue;
        }
        byte = (unsigned char)*path;
        if (is_spelled && sscanf(path, "\\x%2x", &byte) == 1) {
            path += strlen("xNN");
        }
        snprintf(spelled, sizeof spelled, "%%%02X", byte);
        put_text(to, spelled);
    }
    put_text(to, "\"");
}

void json_line(struct json *to) {
    put_text(to, "\n");
}

void json_stop(struct json *to) {
    put(to, "", 1);
}

void json_empty(struct json *json) {
    json->size = 0;
}

void json_free(struct json *json) {
    free(json->bytes);
    *json = (struct json){NULL, 0, 0, 0, 0};
}

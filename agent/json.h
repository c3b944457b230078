/*
 * json.h: text in JSON. Where memory runs out it is of no use, and the program goes on.
 *
 * A key is NULL in a list. Texts are UTF-8: a byte that isn't is spelled `\xNN`, as sites_spelled spells others.
 */
#ifndef JSON_H
#define JSON_H

#include <stddef.h>
#include <stdint.h>

struct json {
    char *bytes;
    size_t size, room;
    char last;   /* the last byte that was added, also where it was taken away since */
    int is_lost; /* memory ran out for it */
};

void json_object(struct json *to, const char *key);
void json_end(struct json *to);
void json_list(struct json *to, const char *key);
void json_end_list(struct json *to);

/* An item of an object; nothing of a NULL text. */
void json_text(struct json *to, const char *key, const char *text);
void json_number(struct json *to, const char *key, uint64_t number);
void json_truth(struct json *to, const char *key, int is_so);

/* Adds what is JSON already: items of this object. */
void json_raw(struct json *to, const char *bytes);

/* The same of a name as it is: it is spelled so that it stands in one line. */
void json_name(struct json *to, const char *key, const char *name);

/*
 * The name of a file as a URI: `file:///tmp/a%20b` of `/tmp/a b`, and a relative one of a relative name. Of one that is
 * spelled `\xNN` is that byte again.
 */
void json_uri(struct json *to, const char *key, const char *path, int is_spelled);

/* Adds a line feed; and a NUL, that the bytes are a text of C. */
void json_line(struct json *to);
void json_stop(struct json *to);

/* Takes all bytes away, which were written: what is added next goes on behind them. */
void json_empty(struct json *json);

void json_free(struct json *json);

#endif

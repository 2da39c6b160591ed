#include "json.h"

#include <stdint.h>

#include "shown.h"

/* Begins a thing: a comma behind what stands before it, and its key. A key of ours needs no escape. */
static void begin(struct json *json, const char *key)
{
    if (json->behind) {
        fputc(',', json->out);
    }
    if (key != NULL) {
        fprintf(json->out, "\"%s\":", key);
    }
    json->behind = true;
}

static void open_by(struct json *json, const char *key, char bracket)
{
    begin(json, key);
    fputc(bracket, json->out);
    json->behind = false;
}

static void close_by(struct json *json, char bracket)
{
    fputc(bracket, json->out);
    json->behind = true;
}

void open_object(struct json *json, const char *key)
{
    open_by(json, key, '{');
}

void close_object(struct json *json)
{
    close_by(json, '}');
}

void open_list(struct json *json, const char *key)
{
    open_by(json, key, '[');
}

void close_list(struct json *json)
{
    close_by(json, ']');
}

void put_number(struct json *json, const char *key, unsigned number)
{
    begin(json, key);
    fprintf(json->out, "%u", number);
}

void put_truth(struct json *json, const char *key, bool truth)
{
    begin(json, key);
    fputs(truth ? "true" : "false", json->out);
}

void put_none(struct json *json, const char *key)
{
    begin(json, key);
    fputs("null", json->out);
}

void put_number_or_none(struct json *json, const char *key, unsigned number)
{
    if (number > 0) {
        put_number(json, key, number);
    } else {
        put_none(json, key);
    }
}

/* In UTF-16 a character of more than one unit is spelled by two surrogates, a high and a low. */
enum { LAST_OF_ONE_UNIT = 0xffff, FIRST_HIGH = 0xd800, FIRST_LOW = 0xdc00 };

static void write_character(FILE *out, struct character character)
{
    uint32_t code = character.code;
    if (code == '"' || code == '\\') {
        fprintf(out, "\\%c", (int)code);
    } else if (character.shown && code <= LAST_OF_ASCII) {
        fputc((int)code, out);
    } else if (code <= LAST_OF_ONE_UNIT) {
        fprintf(out, "\\u%04x", (unsigned)code);
    } else {
        /* ten bits of what is left in each */
        uint32_t left = code - LAST_OF_ONE_UNIT - 1;
        unsigned high = FIRST_HIGH + (left >> 10), low = FIRST_LOW + (left & 0x3ff);
        fprintf(out, "\\u%04x\\u%04x", high, low);
    }
}

void put_text(struct json *json, const char *key, const char *text)
{
    struct character character;
    begin(json, key);
    fputc('"', json->out);
    for (const char *at = text; *at != '\0'; at += character.bytes) {
        character = character_at(at);
        write_character(json->out, character);
    }
    fputc('"', json->out);
}

void put_bytes(struct json *json, const char *key, const char *text)
{
    begin(json, key);
    fputc('"', json->out);
    for (const uint8_t *at = (const uint8_t *)text; *at != '\0'; at++) {
        fprintf(json->out, "%02x", *at);
    }
    fputc('"', json->out);
}

bool is_utf8(const char *text)
{
    struct character character;
    for (const char *at = text; *at != '\0'; at += character.bytes) {
        character = character_at(at);
        if (!character.is_utf8) {
            return false;
        }
    }
    return true;
}

// What all programs of this folder share: input, and lines of text.
#ifndef PLAIN_TEXT_H
#define PLAIN_TEXT_H

#include <stdbool.h>
#include <stddef.h>
#include <stdint.h>
#include <string.h>
#include <unistd.h>

enum {
    MOST_PLACES = 16,
    MOST_TRANSITIONS = 64,
    MOST_CLAIMS = 32,
    MOST_WEIGHT = 9,
    MOST_KIND = 1,
    MOST_COEFFICIENT = 100,
    MOST_CONSTANT = 5000,
    AREA_SIZE = 20000,
    MOST_KEPT = 4096, // bytes of the input that are kept: the answer depends on the first 2,891 alone
};

struct refusal {
    int number; // 0 where nothing is refused
    size_t detail;
};

// Text, piece behind piece. A line of a listing has at most 132 bytes, a line of answers at most 136.
struct text {
    size_t length;
    char bytes[136 * (MOST_CLAIMS + 1)];
};

static void put_words(struct text *text, const char *words)
{
    size_t length = strlen(words);
    memcpy(text->bytes + text->length, words, length);
    text->length += length;
}

static void put_number(struct text *text, size_t number)
{
    char digits[20];
    size_t first = sizeof digits;
    do {
        digits[--first] = (char)('0' + number % 10);
        number /= 10;
    } while (number > 0);
    memcpy(text->bytes + text->length, digits + first, sizeof digits - first);
    text->length += sizeof digits - first;
}

static void put_labelled(struct text *text, const char *words, size_t number)
{
    put_words(text, words);
    put_number(text, number);
}

static void put_refusal(struct text *text, struct refusal refusal)
{
    put_labelled(text, "refused ", (size_t)refusal.number);
    put_labelled(text, " at ", refusal.detail);
}

// Standard input until it ends or the room is full.
static size_t take_in(uint8_t *room, size_t size)
{
    size_t done = 0;
    while (done < size) {
        ssize_t more = read(STDIN_FILENO, room + done, size - done);
        if (more <= 0)
            break;
        done += (size_t)more;
    }
    return done;
}

static bool write_out(const struct text *text)
{
    size_t done = 0;
    while (done < text->length) {
        ssize_t more = write(STDOUT_FILENO, text->bytes + done, text->length - done);
        if (more <= 0)
            return false;
        done += (size_t)more;
    }
    return true;
}

#endif

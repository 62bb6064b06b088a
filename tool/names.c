#include "names.h"
#include <stdio.h>
#include <string.h>

enum { NOT_A_CHARACTER = -1, SHIFTED_A = 0xC1 };

static int digit_of(char character)
{
    static const char digits[] = "0123456789ABCDEFabcdef";
    const char *found = character != '\0' ? strchr(digits, character) : NULL;
    int place = found != NULL ? (int)(found - digits) : NOT_A_CHARACTER;

    return place > 15 ? place - 6 : place;
}

/* The byte that the text begins with, and how many characters it takes. */
static int first_byte(const char *text, size_t *characters)
{
    char first = text[0];
    int high, low;

    *characters = 1;
    if (first >= 'a' && first <= 'z')
        return SHIFTED_A + (first - 'a');
    if (first == '\\' && text[1] == 'x') {
        *characters = 4;
        high = digit_of(text[2]);
        low = high >= 0 ? digit_of(text[3]) : NOT_A_CHARACTER;
        return low >= 0 ? 16 * high + low : NOT_A_CHARACTER;
    }
    return first >= ' ' && first <= '_' && first != '\\' ? first : NOT_A_CHARACTER;
}

static bool is_name_text(const char *text)
{
    size_t characters;

    for (; *text != '\0'; text += characters)
        if (first_byte(text, &characters) < 0)
            return false;
    return true;
}

bool name_of_text(char *text, struct name *name)
{
    uint8_t *bytes = (uint8_t *)text;
    size_t characters;

    if (!is_name_text(text))
        return false;
    name->bytes = bytes;
    for (name->length = 0; *text != '\0'; text += characters)
        bytes[name->length++] = (uint8_t)first_byte(text, &characters);
    return true;
}

static bool is_shifted_letter(uint8_t byte)
{
    return byte >= SHIFTED_A && byte < SHIFTED_A + 26;
}

bool has_shifted_letters(const struct name *name)
{
    for (size_t i = 0; i < name->length; i++)
        if (is_shifted_letter(name->bytes[i]))
            return true;
    return false;
}

/* The character that stands for a byte; the quote has none, for names are printed in quotes. */
static int character_of(uint8_t byte)
{
    if (is_shifted_letter(byte))
        return 'a' + (byte - SHIFTED_A);
    return byte >= ' ' && byte <= '_' && byte != '\\' && byte != '"' ? byte : NOT_A_CHARACTER;
}

void text_of_name(const uint8_t *bytes, size_t length, char *text, size_t room)
{
    text[0] = '\0';
    for (size_t i = 0; i < length && room > 4; i++) {
        int character = character_of(bytes[i]);
        int written = character >= 0 ? snprintf(text, room, "%c", character) : snprintf(text, room, "\\x%02X", bytes[i]);

        text += written;
        room -= (size_t)written;
    }
}

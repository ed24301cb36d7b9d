/* Searches a text for words, by Horspool's rule, and compares strings. */
#include "program.h"

#define TIMES 2600

static const char text[] =
    "it is a truth universally acknowledged that a single man in possession of a good fortune must be in want of a wife "
    "however little known the feelings or views of such a man may be on his first entering a neighbourhood this truth is "
    "so well fixed in the minds of the surrounding families that he is considered the rightful property of some one or "
    "other of their daughters";

static byte skip[128];

static word length(const char *it)
{
    word n = 0;
    while (it[n])
        n++;
    return n;
}

/* The offset of the word in the text, or 0xffff. */
static word find(const char *wanted, word size, word count)
{
    for (byte k = 0; k < 128; k++)
        skip[k] = (byte)size;
    for (word k = 0; k + 1 < size; k++)
        skip[(byte)wanted[k]] = (byte)(size - 1 - k);
    for (word at = 0; at + size <= count; at += skip[(byte)text[at + size - 1]]) {
        word k = size;
        while (k && text[at + k - 1] == wanted[k - 1])
            k--;
        if (!k)
            return at;
    }
    return 0xffff;
}

int main(void)
{
    static const char *const words[] = {"it is", "daughters", "neighbourhood", "wife", "nowhere"};
    static const word places[] = {0, 360, 203, 110, 0xffff};
    word wrong = 0, count = length(text);
    for (word n = 0; n < TIMES / 5; n++)
        for (byte k = 0; k < 5; k++)
            if (find(words[k], length(words[k]), count) != places[k])
                wrong++;
    finish(wrong);
}

// Headers on other media, a second time. The paper: request No. 3, diskette files.
#include "media.h"
#include "header.h"

#include <string.h>

enum { CR = 13, LF = 10 };

static struct refusal refuse(uint32_t number, size_t card, size_t column)
{
    return (struct refusal){number, (uint32_t)card, (uint32_t)column};
}

static int printable(uint8_t byte)
{
    return byte >= 32 && byte <= 126;
}

// The characters of a card that its line keeps: trailing blanks are dropped.
static size_t kept(const uint8_t *card)
{
    size_t n = CARD_SIZE;
    while (n > 0 && card[n - 1] == ' ')
        n--;
    return n;
}

struct refusal to_disk(const uint8_t *header, size_t size, uint8_t *out, size_t room, size_t *written)
{
    size_t cards = size / CARD_SIZE, need = 0;
    if (size == 0)
        return refuse(1, 0, 0);
    if (size % CARD_SIZE != 0)
        return refuse(2, 0, 0);
    if (cards > FEW_CARDS)
        return refuse(3, 0, 0);
    for (size_t i = 0; i < size; i++)
        if (!printable(header[i]))
            return refuse(4, i / CARD_SIZE + 1, i % CARD_SIZE + 1);
    for (size_t c = 0; c < cards; c++)
        need += kept(header + c * CARD_SIZE) + 2;
    if (need > room)
        return refuse(17, 0, 0);
    for (size_t c = 0; c < cards; c++) {
        const uint8_t *card = header + c * CARD_SIZE;
        size_t n = kept(card);
        memcpy(out, card, n);
        out += n;
        *out++ = CR;
        *out++ = LF;
    }
    *written = need;
    return refuse(0, 0, 0);
}

struct refusal from_disk(const uint8_t *file, size_t size, uint8_t *out, size_t room, size_t *written)
{
    size_t line = 1, column = 1;
    if (size == 0)
        return refuse(1, 0, 0);
    // one byte after the other: what may stand here, and where the next one stands
    for (size_t i = 0; i < size; i++) {
        uint8_t byte = file[i];
        if (byte == LF) {
            if (i == 0 || file[i - 1] != CR)
                return refuse(16, line, column);
            line++;
            column = 1;
            continue;
        }
        if (byte == CR) {
            if (i + 1 == size || file[i + 1] != LF)
                return refuse(16, line, column);
            continue;
        }
        if (!printable(byte))
            return refuse(4, line, column);
        if (column > CARD_SIZE)
            return refuse(15, line, column);
        column++;
    }
    if (column != 1)
        return refuse(16, line, column);
    if (line - 1 > FEW_CARDS)
        return refuse(3, 0, 0);
    if ((line - 1) * CARD_SIZE > room)
        return refuse(17, 0, 0);
    *written = (line - 1) * CARD_SIZE;
    // blanks first, and then each line to the front of its card
    memset(out, ' ', *written);
    uint8_t *card = out;
    for (size_t i = 0; i < size; i++) {
        if (file[i] == LF) {
            out += CARD_SIZE;
            card = out;
        } else if (file[i] != CR)
            *card++ = file[i];
    }
    return refuse(0, 0, 0);
}

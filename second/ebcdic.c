// Tapes in EBCDIC: both tables are made from the characters of code page 037, on the first call.
#include "ebcdic.h"

enum { NO_OUTPUT = 17, CONTROLS = 64 };

// The control characters at 0x00 to 0x3f, by their numbers in ISO 6429.
static const uint8_t controls[CONTROLS] = {
    0,   1,   2,   3,   156, 9,   134, 127, 151, 141, 142, 11,  12,  13, 14,  15,  // NUL .. HT .. DEL .. CR SO SI
    16,  17,  18,  19,  157, 133, 8,   135, 24,  25,  146, 143, 28,  29, 30,  31,  // .. NEL BS .. CAN EM ..
    128, 129, 130, 131, 132, 10,  23,  27,  136, 137, 138, 139, 140, 5,  6,   7,   // .. LF ETB ESC .. ENQ ACK BEL
    144, 145, 22,  147, 148, 149, 150, 4,   152, 153, 154, 155, 20,  21, 158, 26}; // .. SYN .. EOT .. DC4 NAK .. SUB

// The characters at 0x40 to 0xff, in UTF-8; the second is the no-break space, 0xca the soft hyphen, 0xff the control 159.
static const char characters[] = " \u00a0âäàáãåçñ¢.<(+|"
                                 "&éêëèíîïìß!$*);¬"
                                 "-/ÂÄÀÁÃÅÇÑ¦,%_>?"
                                 "øÉÊËÈÍÎÏÌ`:#@'=\""
                                 "Øabcdefghi«»ðýþ±"
                                 "°jklmnopqrªºæ¸Æ¤"
                                 "µ~stuvwxyz¡¿ÐÝÞ®"
                                 "^£¥·©§¶¼½¾[]¯¨´×"
                                 "{ABCDEFGHI\u00adôöòóõ"
                                 "}JKLMNOPQR¹ûüùúÿ"
                                 "\\÷STUVWXYZ²ÔÖÒÓÕ"
                                 "0123456789³ÛÜÙÚ\xc2\x9f";

static uint8_t ascii[256], ebcdic[256];

// A character below 256, of one byte or two in UTF-8.
static uint8_t next_of(const char **at)
{
    uint8_t first = (uint8_t)*(*at)++;
    return first < 0x80 ? first : (uint8_t)((first & 3) << 6 | (*(*at)++ & 0x3f));
}

static void make_tables(void)
{
    const char *at = characters;
    for (unsigned byte = 0; byte < 256; byte++)
        ascii[byte] = byte < CONTROLS ? controls[byte] : next_of(&at);
    for (unsigned byte = 0; byte < 256; byte++)
        ebcdic[ascii[byte]] = (uint8_t)byte;
}

static struct refusal translate(const uint8_t *table, const uint8_t *bytes, size_t length, uint8_t *out, size_t room)
{
    if (room < length)
        return (struct refusal){NO_OUTPUT, 0, 0};
    if (ascii[1] == 0)
        make_tables();
    for (size_t i = 0; i < length; i++)
        out[i] = table[bytes[i]];
    return (struct refusal){0, 0, 0};
}

struct refusal to_ascii(const uint8_t *tape, size_t length, uint8_t *out, size_t room)
{
    return translate(ascii, tape, length, out, room);
}

struct refusal to_ebcdic(const uint8_t *text, size_t length, uint8_t *out, size_t room)
{
    return translate(ebcdic, text, length, out, room);
}

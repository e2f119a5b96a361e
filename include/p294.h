/* UKOOA P2/94 line headers: fields, cards, headers and the ties between cards, read, written and checked.
 *
 * Link with libp294.a, which `tools/archive` writes to target/staticlib (x86-64 Linux, System V calls). The functions
 * keep nothing between calls, allocate nothing and want only memcpy and memset of the C library, so they may be called from
 * any thread. p294_check takes up to 262,144 bytes of stack, one that reads or writes a field up to 600, every other function
 * up to 20,000: somewhat less was measured of each, and nothing is proved of the stack.
 *
 * A CARD is 80 bytes, 32 to 126 each. Columns, cards and fields count from 1; the fields of a code are numbered from left
 * to right, a label being none. A HEADER is at most 4,096 cards, one behind the other, with no separators.
 *
 * A FORM says how coordinates are spelled: 0 angles, 1 grid. It is never guessed; every function that takes a form wants
 * 0 or 1 for every code, also for one without coordinates.
 *
 * Bytes go in as a pointer and a length, and may have any length and any content: what is not a card or a header is
 * refused by a number. The same holds of every number that goes in. What is asked of the caller is what C always asks:
 * - a pointer points to as many bytes or numbers as its length says, of its type, aligned for it, and for no more than
 *   2^63 - 1 bytes; it is not null, also where the length is 0;
 * - what a function may write (card, list, out, buffer, numbers) overlaps nothing else that the same call is lent, and nobody else
 *   reads or writes it meanwhile.
 *
 * HOW A FUNCTION ANSWERS. Each returns one number, and writes three more:
 *
 *     int64_t numbers[P294_NUMBERS];
 *     int64_t said = p294_read_field(card, 80, 1, 0, numbers, P294_NUMBERS);
 *
 * - said < 0: refused. -said is the refusal's number, and numbers are that number, the card and the column (each 0 where
 *   there is none). Nothing else was written: card, list, out and buffer are as they were.
 * - said >= 0: answered. What said and numbers mean stands at the function; numbers that are not mentioned are 0.
 *
 * numbers[0] to numbers[2] are written, and nothing behind them. Where the lent numbers are fewer than three (`room` is
 * below P294_NUMBERS) none is written, and all else happens just the same.
 *
 * Numbers that count or place something are given up to 10^18; there are no larger ones.
 */
#ifndef P294_H
#define P294_H

#include <stddef.h>
#include <stdint.h>

#ifdef __cplusplus
extern "C" {
#endif

/* How many numbers go with an answer, and how many an entry of the list of faults has; the bytes of a card and of a code;
 * the most cards of a header; the most bytes of a card's line in a diskette file. The most cards of a header on a diskette,
 * and the most faults of a header. */
enum { P294_NUMBERS = 3, P294_ENTRY = 4, P294_CARD = 80, P294_CODE = 5, P294_CARDS = 4096, P294_LINE = 82 };
enum { P294_DISK_CARDS = 800, P294_FAULTS = 73574 };

/* Refusals. On a single card the card is 1, but card and column are 0 for 1, 2, 13 and a refused form. */
enum {
    P294_EMPTY = 1,         /* length 0; card and column 0 */
    P294_LENGTH = 2,        /* not whole cards; for one card, not 80 bytes; card and column 0 */
    P294_TOO_MANY = 3,      /* more cards than P294_CARDS, on a diskette P294_DISK_CARDS, in an old volume 800; card and
                               column 0 */
    P294_BYTE = 4,          /* a byte outside 32..126, at its column; of a text that is put, column 0 */
    P294_UNKNOWN_CODE = 5,  /* column 1 */
    P294_OUT_OF_PLACE = 6,  /* the opening cards are not in order, or no H00@8 is among them: then at the first card behind
                               them, or one past the end; column 1 */
    P294_NO_FIELD_HERE = 7, /* something stands in a column that no field covers, at that column */
    P294_LABEL = 8,         /* the label differs; column 6 */
    P294_MALFORMED = 9,     /* a field badly formed, at its first column; of a text that is put, column 0 */
    P294_OUT_OF_RANGE = 10, /* well formed, outside its range, at its first column; a value that is put, column 0; or a
                               form other than 0 and 1, card and column 0 */
    P294_NEEDED = 11,       /* a needed field is blank, or would be after a put; its first column */
    P294_OTHER_KIND = 12,   /* put: a value of another kind than the field; column 0 */
    P294_NO_SUCH = 13,      /* no field with this number in this code, no such class of keys, or no such place in a volume; card
                               and column 0 */
    P294_NO_ROOM = 14,      /* put: does not fit the columns; column 0 */
    P294_LINE_LENGTH = 15,  /* a line of a diskette file has more than 80 characters; the line and the place of the 81st */
    P294_LINE_END = 16,     /* CR or LF stands alone, at its line and place; or the last line has no CR LF, just past it */
    P294_NO_OUTPUT = 17,    /* the output has too little room; card and column 0, as of all that follow */
    P294_NO_TRAILER = 18,   /* a volume's stated number of cards, its trailer, or what that points at */
    P294_NO_DIRECTORY = 19, /* a volume's directory */
    P294_NO_CARDS_LEFT = 20,  /* a volume would have more cards than it may or than the buffer holds */
    P294_NOT_OLD = 21,        /* a wide volume that the old form cannot hold */
    P294_DATUM_TWICE = 22,    /* routes: a datum is defined more than once */
    P294_NO_COMPASS = 23,     /* heading: the serial is not defined exactly once */
    P294_NO_CORRECTIONS = 24, /* heading: there is not exactly one H23@0 card for the serial */
    P294_NO_DIRECTION = 25,   /* heading: a direction outside 0..360, or the card lists one twice (0 beside 360 counts) */
    P294_NO_READING = 26      /* heading: a raw reading below 0 or not below 360, or with more than 11 places */
};

/* Kinds of value, with the numbers that go with each. */
enum {
    P294_ABSENT = 0,  /* nothing but blanks */
    P294_WHOLE = 1,   /* the number, 0, and 1 if it is misplaced */
    P294_DECIMAL = 2, /* units, how many of their digits stand behind the point (1.50 is 150 and 2), 1 if it is misplaced */
    P294_ANGLE = 3,   /* thousandths of a second of arc, below zero for south and west */
    P294_DATE = 4,    /* year, month, day */
    P294_TEXT = 5     /* the text's first and last column on the card; trailing blanks do not belong to it */
};

/* Reads the field with a number. said is the kind of its value, numbers what goes with it. A number that was read is
 * a decimal in an N field, also with no places, and whole in an I field; a coordinate is an angle in form 0 and a decimal
 * in form 1. A number in an I or N field is misplaced where blanks stand behind it: numbers[2] is then 1. It is 0 for all
 * other numbers, coordinates too. Refused 1, 2, 4, 5, 13, 10 (form), and then 11, 9, 10 of this field; nothing else of the
 * card is looked at. */
int64_t p294_read_field(const uint8_t *card, size_t length, size_t field, size_t form, int64_t *numbers, size_t room);

/* The columns of the text in a field. said is P294_TEXT and numbers are its first and last column, so the text is
 * card + numbers[0] - 1 and has numbers[1] - numbers[0] + 1 bytes. said is 0 and so are all numbers where there is no text:
 * the field is blank or of another kind. Refused as p294_read_field. */
int64_t p294_read_text(const uint8_t *card, size_t length, size_t field, size_t form, int64_t *numbers, size_t room);

/* Makes a lent card a new one: the code, the label that goes with it, and blanks, whatever stood there. said is 0.
 * Refused 1, 2 (the card's length), 5 (the code is unknown or not five bytes). */
int64_t p294_open(uint8_t *card, size_t length, const uint8_t *code, size_t code_length, int64_t *numbers, size_t room);

/* Puts a value into a field, and changes no column outside it. said is 0. The value is given as numbers like those
 * that p294_read_field gives: kind, then a, b, c. A number is put at the right end of the field, whatever its c. Absent
 * blanks the field. A kind other than 0 to 4 is a text, which no field takes as a value (12). A part of a date that 32 bits
 * do not hold makes it no date (10). Refused 1, 2, 4, 5, 13, 10 (form), 12, 11, 10, 14. */
int64_t p294_put(uint8_t *card, size_t length, size_t field, size_t form, size_t kind, int64_t a, size_t b, size_t c,
                 int64_t *numbers, size_t room);

/* Puts a text into a field, and changes no column outside it. said is 0. Refused 1, 2, 4, 5, 13, 10 (form), 12, and then
 * 4 and 9 (it is empty, ends in a blank, or begins with one where it may not) of the text, 14. */
int64_t p294_put_text(uint8_t *card, size_t length, size_t field, size_t form, const uint8_t *text, size_t text_length,
                      int64_t *numbers, size_t room);

/* Checks a header. said is the number of all faults of its cards, and list has their entries from its front on, as
 * many whole ones as fit: card, column, kind, and the vessel digit in the card's code (P294_NO_VESSEL where it has none),
 * ordered by the first three. The rest of the list stays as it was. list_length counts numbers, not entries;
 * P294_FAULTS * P294_ENTRY are enough for every header. Refused 1 to 11, at the first offence. */
int64_t p294_check(const uint8_t *header, size_t length, uint32_t *list, size_t list_length, int64_t *numbers, size_t room);

/* The vessel of an entry whose card's code has no vessel digit. */
enum { P294_NO_VESSEL = 10 };

/* Kinds of fault. */
enum {
    P294_UNDEFINED = 1,    /* a reference whose key has no definition */
    P294_REDEFINED = 2,    /* a definition whose key is defined in another place too; every such place is listed */
    P294_AMBIGUOUS = 3,    /* a reference whose key has several definitions */
    P294_CONTRADICTED = 4, /* a vessel digit that contradicts */
    P294_MISCOUNTED = 5,   /* a stated count that differs from the number found */
    P294_MISPLACED = 6     /* a number of an I or N field with blanks behind it, at the field's first column */
};

/* Classes of keys, and the kind of key that each has. */
enum {
    P294_DATUM = 1,       /* whole */
    P294_STREAMER = 2,    /* whole */
    P294_NODE = 3,        /* whole */
    P294_SERIAL = 4,      /* text: a compass's serial number, compared without trailing blanks */
    P294_SENSOR = 5,      /* whole */
    P294_VESSEL = 6,      /* whole */
    P294_WAYPOINT = 7,    /* pair: vessel and number */
    P294_VARIATION = 8,   /* whole: a point of the variation grid */
    P294_GRID = 9,        /* whole: the variation grid, whose one key is 0 */
    P294_OBSERVATION = 10 /* whole */
};

/* Kinds of key: a; a and b; the bytes of text. What a kind does not mention is not looked at. */
enum { P294_KEY_WHOLE = 1, P294_KEY_PAIR = 2, P294_KEY_TEXT = 3 };

/* What a header says of a key. said is the number of its definitions; where it is 1, numbers are the card and the column of
 * the only one. A key of another kind than its class has, of no kind at all, or that no card can bear, has no definition.
 * Refused as p294_check refuses the header, then 13 (no such class). */
int64_t p294_key(const uint8_t *header, size_t length, uint64_t key_class, size_t kind, int64_t a, int64_t b,
                 const uint8_t *text, size_t text_length, int64_t *numbers, size_t room);

/* A header as a diskette file: a line for each card, its trailing blanks dropped, CR LF behind it. said is the length written;
 * out holds the file from its front on, and behind it what it held before. P294_LINE bytes a card are always enough. Any 1 to
 * 800 cards of printable bytes are converted: codes, labels and order are not looked at. Refused 1, 2, 3, 4, 17. */
int64_t p294_to_disk(const uint8_t *header, size_t length, uint8_t *out, size_t out_length, int64_t *numbers, size_t room);

/* A diskette file as a header: a card for each line, blanks behind its characters; an empty line is a blank card. said is the
 * length written, at most P294_DISK_CARDS * P294_CARD; out as for p294_to_disk. Refused 1; then the first of 4, 15 and 16,
 * with the line (also one above 800) and the place in it; then 3 for more than 800 lines, then 17.
 * Cards come back from a diskette file byte for byte; a file comes back from cards without the blanks at the ends of its
 * lines, and in no more bytes than it had. */
int64_t p294_from_disk(const uint8_t *file, size_t length, uint8_t *out, size_t out_length, int64_t *numbers, size_t room);

/* Translates a tape in EBCDIC to ASCII, and a text to EBCDIC, both by IBM code page 037. Any bytes and any length translate,
 * 0 too; one undoes the other. said is the number of bytes written, which is length; what out has behind them stays. Refused
 * 17 where out_length is less than length. */
int64_t p294_from_ebcdic(const uint8_t *tape, size_t length, uint8_t *out, size_t out_length, int64_t *numbers, size_t room);
int64_t p294_to_ebcdic(const uint8_t *text, size_t length, uint8_t *out, size_t out_length, int64_t *numbers, size_t room);

/* A VOLUME holds the headers of a season: the cards of each header in turn, then a directory card for each, then one trailer
 * that points back. It is the first `cards` cards of a lent buffer, which may be longer; cards is any number at all.
 * It has one of two FORMS, by the trailer's code: the old one has at most P294_VOLUME cards and headers of 800, the wide one
 * P294_WIDE and P294_CARDS. A header of more cards than its form allows is a 3.
 * Every function judges the whole volume first. Refused 18: cards is 0, above what the form allows or more than the buffer
 * holds, the last card is no trailer, or does not point at the cards just before it, or one of these has the code of the other
 * form's directory cards. Then 19: a directory card is malformed, the directory does not cover the cards before it once and in
 * order, a header has no card, or a directory card has another name or sequence than the header's first card. Then the headers'
 * own refusals as p294_check gives them, in turn, card and column counted in that header. A header with faults is good. */
enum { P294_VOLUME = 999, P294_WIDE = 20000 };

/* Lays the empty volume into a buffer: a trailer alone. said is 1, the number of cards. Nothing behind it is written. Refused 20
 * where the buffer holds no card. */
int64_t p294_volume_empty(uint8_t *buffer, size_t length, int64_t *numbers, size_t room);

/* How many lines a volume has: said. Refused as above. */
int64_t p294_volume_lines(const uint8_t *volume, size_t length, size_t cards, int64_t *numbers, size_t room);

/* The line at a place in the directory, from 1. said is the number of its cards; numbers are its first card in the volume and the
 * number of its directory card, so its header is volume + (numbers[0] - 1) * P294_CARD and has said * P294_CARD bytes. Refused as
 * above, then 13 (no such place). */
int64_t p294_volume_line(const uint8_t *volume, size_t length, size_t cards, size_t place, int64_t *numbers, size_t room);

/* Appends a header: it follows the others, the directory moves behind it and gets a card more, and the trailer is new. said is
 * the new number of cards, which is cards, those of the header, and 1. All earlier headers stand as they stood; nothing behind the
 * new trailer is written. Refused as above, then as p294_check refuses the header, then 20 (more cards than the form allows, or than
 * the buffer holds). */
int64_t p294_volume_append(uint8_t *buffer, size_t length, size_t cards, const uint8_t *header, size_t header_length,
                           int64_t *numbers, size_t room);

/* The routes by which the datums of a header are brought to datum 1. list gets nine numbers for each of the datums 1 to 9,
 * as many whole nines as fit: the fewest shifts (0 to 8, or one of the two below), and then the cards of one such route
 * (H0120), from the datum towards datum 1, 0 behind the last. The rest of the list stays as it was; 81 numbers hold all.
 * A shift is used either way, only datums that are defined count, and at each step the route goes to the lowest next datum
 * that keeps it shortest, by the lowest card. said is the number of datums that have a route, datum 1 among them.
 * Refused as p294_check refuses the header, then 22. */
int64_t p294_routes(const uint8_t *header, size_t length, uint32_t *list, size_t list_length, int64_t *numbers, size_t room);

/* How many numbers a datum has in that list; and what stands for a number of shifts. */
enum { P294_ROUTE = 9, P294_NO_ROUTE = 9, P294_NOT_DEFINED = 10 };

/* The corrected heading of the compass with a serial: the raw reading, the fixed correction of its H23@0 card, and the
 * correction for the listed direction that is nearest to the line's, summed exactly and taken into 0 to under 360 degrees by
 * whole turns. raw are units with raw_places digits behind the point, direction whole degrees of 0 to 360. said is
 * P294_DECIMAL, and numbers are the units and the places of the heading: the largest number of places among those that were
 * summed. Nearest goes round the circle, 360 being 0; of two as near the smaller counts. A correction that is blank adds
 * nothing. Blanks behind the serial do not count. Refused as p294_check refuses the header, then 23, 24, 25, 26. */
int64_t p294_heading(const uint8_t *header, size_t length, const uint8_t *serial, size_t serial_length, int64_t raw,
                     size_t raw_places, int64_t direction, int64_t *numbers, size_t room);

/* Bring a volume to the wide form, or to the old one, within its own cards; one that has it already is left as it is. said is the
 * number of cards, which is the same as before; nothing behind them is written. Refused as above; to the old form then 21: more
 * than P294_VOLUME cards, or a header of more than 800. An old volume that was widened and is brought back has the bytes that it
 * had. */
int64_t p294_volume_widen(uint8_t *buffer, size_t length, size_t cards, int64_t *numbers, size_t room);
int64_t p294_volume_narrow(uint8_t *buffer, size_t length, size_t cards, int64_t *numbers, size_t room);

/* Drops superseded lines within the volume's own cards: of headers with the same line name and sequence number only the last is
 * kept. Names are compared without trailing blanks, sequence numbers by value; blank is equal to blank only. said is the new number
 * of cards. The freed cards behind the new trailer, up to and with the old one, are blank; nothing behind them is written. The
 * volume keeps its form. Refused as above. */
int64_t p294_volume_compact(uint8_t *buffer, size_t length, size_t cards, int64_t *numbers, size_t room);

#ifdef __cplusplus
}
#endif

#endif

// One card of a UKOOA P2/94 line header, a second time: written in C from the paper alone, to be compared with the
// proved software: it shares no table and no code, so that a slip in a definition, which no proof finds, would have to be
// made twice. Cards are byte pointers with a length; columns, fields and cards count from 1; nothing is allocated.
#ifndef SECOND_CARD_H
#define SECOND_CARD_H

#include <stddef.h>
#include <stdint.h>

enum { CARD_SIZE = 80, CODE_SIZE = 5, MOST_FIELDS = 18 };

// How a field is spelled. A comment is a text that may begin with blanks.
enum spelling { SPELL_TEXT, SPELL_COMMENT, SPELL_WHOLE, SPELL_DECIMAL, SPELL_DATE, SPELL_Y, SPELL_X };

// The values that a whole number may have.
enum range { ANY, BIT, DIGIT, FROM_0, FROM_1, ONE_TO_9, UP_TO_4, UP_TO_5, UP_TO_11, UP_TO_99, UP_TO_360, SET_349, SET_019 };

struct field {
    uint8_t spelling, first, last, range, needed;
};

// A read code: its pattern, its label ("" for none), its fields from left to right. The fields from number `second` on
// are the second set, `second` being its needed one; 0 where there is none.
struct layout {
    const char *code, *label;
    uint8_t label_size, count, second;
    struct field fields[MOST_FIELDS];
};

enum { LAYOUTS = 31 };
extern const struct layout layouts[LAYOUTS];

// The form by which Y and X are read: 0 angles, 1 grid; judging a card also knows FORM_UNKNOWN.
enum { FORM_UNKNOWN = 2 };

enum value_kind { VALUE_ABSENT, VALUE_WHOLE, VALUE_DECIMAL, VALUE_ANGLE, VALUE_DATE, VALUE_TEXT };

struct value {
    enum value_kind kind;
    int64_t units;             // of a whole number, a decimal, an angle (thousandths of a second)
    uint64_t places;           // of a decimal
    uint32_t misplaced;        // whether blanks stand behind a whole number or a decimal
    uint32_t year, month, day; // of a date
    uint64_t first, last;      // of a text: its first and last column on the card
};

// A refusal by the paper's numbers; number 0 is none.
struct refusal {
    uint32_t number, card, column;
};

// The place of a code in `layouts`, or one of these two.
enum { CODE_PASSED = -1, CODE_UNKNOWN = -2 };
int code_of(const uint8_t *code);

// Whether columns hold something and end in a blank: what a number of an I or N field is called misplaced for.
int is_misplaced(const uint8_t *card, const struct field *f);

// What stands in a field.
struct refusal read_field(const uint8_t *card, size_t size, uint64_t number, uint64_t form, struct value *value);

// The text of a field, as a part of the card; its length, 0 where there is none.
size_t read_text(const uint8_t *card, size_t size, uint64_t number, uint64_t form, const uint8_t **text);

// Makes a lent card an empty one of a code.
struct refusal open_card(const uint8_t *code, size_t code_size, uint8_t *card, size_t size);

// Puts a value, or a text, into a field.
struct refusal put_value(uint8_t *card, size_t size, uint64_t number, uint64_t form, const struct value *value);
struct refusal put_text(uint8_t *card, size_t size, uint64_t number, uint64_t form, const uint8_t *text, size_t length);

// The first offence of a card by itself, its coordinates read by a form or passed over.
struct refusal judge_card(const uint8_t *card, size_t size, unsigned form);

#endif

/* The numbers of buttons, axes and native event codes by name, and the words of refusals. raspteal.h includes this. */
#ifndef RASPTEAL_NUMBERS_H
#define RASPTEAL_NUMBERS_H

#include <stdint.h>

/* Button numbers. */
enum {
    RASPTEAL_BUTTON_UNKNOWN = 0,
    RASPTEAL_BUTTON_SOUTH = 1,
    RASPTEAL_BUTTON_EAST = 2,
    RASPTEAL_BUTTON_C = 3,
    RASPTEAL_BUTTON_NORTH = 4,
    RASPTEAL_BUTTON_WEST = 5,
    RASPTEAL_BUTTON_Z = 6,
    RASPTEAL_BUTTON_LEFT_TRIGGER = 7,
    RASPTEAL_BUTTON_RIGHT_TRIGGER = 8,
    RASPTEAL_BUTTON_LEFT_TRIGGER2 = 9,
    RASPTEAL_BUTTON_RIGHT_TRIGGER2 = 10,
    RASPTEAL_BUTTON_SELECT = 11,
    RASPTEAL_BUTTON_START = 12,
    RASPTEAL_BUTTON_MODE = 13,
    RASPTEAL_BUTTON_LEFT_THUMB = 14,
    RASPTEAL_BUTTON_RIGHT_THUMB = 15,
    RASPTEAL_BUTTON_DPAD_UP = 16,
    RASPTEAL_BUTTON_DPAD_DOWN = 17,
    RASPTEAL_BUTTON_DPAD_LEFT = 18,
    RASPTEAL_BUTTON_DPAD_RIGHT = 19
};

/* Axis numbers. */
enum {
    RASPTEAL_AXIS_UNKNOWN = 0,
    RASPTEAL_AXIS_LEFT_STICK_X = 1,
    RASPTEAL_AXIS_LEFT_STICK_Y = 2,
    RASPTEAL_AXIS_LEFT_Z = 3,
    RASPTEAL_AXIS_RIGHT_STICK_X = 4,
    RASPTEAL_AXIS_RIGHT_STICK_Y = 5,
    RASPTEAL_AXIS_RIGHT_Z = 6,
    RASPTEAL_AXIS_DPAD_X = 7,
    RASPTEAL_AXIS_DPAD_Y = 8
};

/* Native event codes, under the source's names: numbers of the Linux input headers, kind times 65536 plus number. */
enum {
    RASPTEAL_NEC_BTN_SOUTH = 0x10130,
    RASPTEAL_NEC_BTN_EAST = 0x10131,
    RASPTEAL_NEC_BTN_C = 0x10132,
    RASPTEAL_NEC_BTN_NORTH = 0x10133,
    RASPTEAL_NEC_BTN_WEST = 0x10134,
    RASPTEAL_NEC_BTN_Z = 0x10135,
    RASPTEAL_NEC_BTN_LT = 0x10136,
    RASPTEAL_NEC_BTN_RT = 0x10137,
    RASPTEAL_NEC_BTN_LT2 = 0x10138,
    RASPTEAL_NEC_BTN_RT2 = 0x10139,
    RASPTEAL_NEC_BTN_SELECT = 0x1013a,
    RASPTEAL_NEC_BTN_START = 0x1013b,
    RASPTEAL_NEC_BTN_MODE = 0x1013c,
    RASPTEAL_NEC_BTN_LTHUMB = 0x1013d,
    RASPTEAL_NEC_BTN_RTHUMB = 0x1013e,
    RASPTEAL_NEC_BTN_DPAD_UP = 0x10220,
    RASPTEAL_NEC_BTN_DPAD_DOWN = 0x10221,
    RASPTEAL_NEC_BTN_DPAD_LEFT = 0x10222,
    RASPTEAL_NEC_BTN_DPAD_RIGHT = 0x10223,
    RASPTEAL_NEC_AXIS_LSTICKX = 0x30000,
    RASPTEAL_NEC_AXIS_LSTICKY = 0x30001,
    RASPTEAL_NEC_AXIS_LEFTZ = 0x30002,
    RASPTEAL_NEC_AXIS_RSTICKX = 0x30003,
    RASPTEAL_NEC_AXIS_RSTICKY = 0x30004,
    RASPTEAL_NEC_AXIS_RIGHTZ = 0x30005,
    RASPTEAL_NEC_AXIS_DPADX = 0x30010,
    RASPTEAL_NEC_AXIS_DPADY = 0x30011,
    RASPTEAL_NEC_AXIS_RT = 0x30012,
    RASPTEAL_NEC_AXIS_LT = 0x30013,
    RASPTEAL_NEC_AXIS_RT2 = 0x30014,
    RASPTEAL_NEC_AXIS_LT2 = 0x30015
};

/* The halves of an axis, for input and output. */
enum { RASPTEAL_LOWER_HALF = 0, RASPTEAL_UPPER_HALF = 1, RASPTEAL_FULL = 2 };

/* What a pad reports of a code. */
enum { RASPTEAL_RELEASED = 0, RASPTEAL_PRESSED = 1, RASPTEAL_AXIS_VALUE = 2 };

/* What a refusal number means. */
static inline const char *raspteal_meaning(uint8_t number) {
    switch (number) {
    case 0: return "not refused";
    case 1: return "the first field is no UUID";
    case 2: return "no comma follows the UUID";
    case 3: return "a pair has not exactly one colon";
    case 4: return "a pair's value is none: aN, bN or hH.D with numbers up to 65535";
    case 5: return "an axis value has an unknown key";
    case 6: return "a button or hat value has an unknown key";
    case 7: return "hat 0 has no such direction: 0, 1, 2, 4 or 8";
    case 8: return "a pair's value is empty";
    case 9: return "nothing follows a refused first field";
    case 10: return "not UTF-8";
    case 11: return "more than 256 codes in a map";
    case 12: return "a list of more than 1024 codes";
    case 13: return "the name has a comma";
    case 14: return "the element is Unknown";
    case 15: return "the code is not in its list";
    case 16: return "no mapping line can name this axis";
    case 17: return "the name has more than 8192 bytes";
    case 18: return "the output is too short";
    case 19: return "not a sound store";
    case 20: return "a wanted line of more than 16384 bytes";
    case 21: return "no room in the index";
    case 22: return "the name has a line end or platform:";
    case 23: return "an index of more than 1048576 bytes, or a text of more than 16777216";
    case 24: return "an organiser's owner is 1 to 255, not 0";
    case 25: return "no room in the text, the parties' shares counted";
    case 26: return "the text is too small for that share";
    case 27: return "more than 256 codes held by a pad";
    default: return "no refusal has this number";
    }
}

#endif

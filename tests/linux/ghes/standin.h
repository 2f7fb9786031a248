/* The faults of the stand-in. */
#ifndef STANDIN_H
#define STANDIN_H

#include <stdbool.h>

enum standin_fault {
    NO_FAULT,
    LENGTH_OF_LESS,
    ACK_ELSEWHERE,
    MASK_OF_ONE_BIT,
    OFFSET_FORGOTTEN,
    FIRST_PIECE_AGAIN,
    ALL_BITS_CLEARED,
    ACK_STAYS,
    HALF_A_STATUS,
    STATUS_FOR_ACK,
    NO_WAIT,
    LAST_PIECE_LEFT_OUT,
    SHOWN_FIRST,
    NOT_NOTIFIED,
    BLOCK_STAYS,
    TWO_GIVEN_BACK,
    RESET_WITHOUT_HIDING,
    PIECE_OF_BEFORE,
    NOT_FORGOTTEN,
    NEVER_AGAIN,
    FAULTS
};

extern enum standin_fault standin_fault;

#endif

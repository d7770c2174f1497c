/* The answers in document 01's words, for people to read. */
#ifndef MEANING_H
#define MEANING_H

#include "halviruso.h"

static inline const char *meaning(uint32_t code)
{
    switch (code) {
    case HALVIRUSO_DONE: return "done";
    case HALVIRUSO_ALREADY_TAKEN: return "already taken";
    case HALVIRUSO_LENT_LENGTH: return "lent length wrong";
    case HALVIRUSO_NO_SLOT: return "slot above 15";
    case HALVIRUSO_DAMAGED: return "entry damaged";
    case HALVIRUSO_BUSY: return "slot busy";
    case HALVIRUSO_OLD_KEY: return "old key";
    case HALVIRUSO_BAD_DESCRIPTOR: return "descriptor out of range";
    case HALVIRUSO_NO_JOB: return "no such job";
    case HALVIRUSO_BAD_NUMBER: return "bad number";
    case HALVIRUSO_GAP: return "gap";
    case HALVIRUSO_LONG_PART: return "part above 8,192 bytes";
    case HALVIRUSO_CUT: return "element cut by the part's end";
    case HALVIRUSO_PREFIX: return "X'2B' not followed by X'D3'";
    case HALVIRUSO_LENGTH: return "LENGTH under 2 or not the type's";
    case HALVIRUSO_TYPE: return "type unknown";
    case HALVIRUSO_VALUE: return "value";
    case HALVIRUSO_FONT: return "font 04..FE";
    case HALVIRUSO_SUPPRESSION: return "suppression pairing";
    case HALVIRUSO_OUTSIDE: return "outside";
    case HALVIRUSO_POSITION: return "position";
    case HALVIRUSO_NO_ROOM: return "no room";
    case HALVIRUSO_BAD_TOTAL: return "bad total";
    case HALVIRUSO_STORED_NUMBER: return "stored number wrong";
    default: return "an answer that this host does not know";
    }
}

#endif

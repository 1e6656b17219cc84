/*
 * The names of the answers' numbers and of the clips, for logs. Plain C, beside the proved library;
 * include it only where the texts are wanted, so that a small target need not hold them.
 */
#ifndef CLEVISROOT_NAMES_H
#define CLEVISROOT_NAMES_H

#include "clevisroot.h"

#ifdef __cplusplus
extern "C" {
#endif

/* "DONE", "SIZE", ...; "UNKNOWN" for a number that no call gives. Never null. */
static inline const char *clevisroot_refusal_name(uint32_t number)
{
    switch (number) {
    case CLEVISROOT_DONE: return "DONE";
    case CLEVISROOT_SIZE: return "SIZE";
    case CLEVISROOT_TONE: return "TONE";
    case CLEVISROOT_TWICE: return "TWICE";
    case CLEVISROOT_BITS: return "BITS";
    case CLEVISROOT_STRAY: return "STRAY";
    case CLEVISROOT_GAIN: return "GAIN";
    case CLEVISROOT_ODD: return "ODD";
    case CLEVISROOT_FEW: return "FEW";
    case CLEVISROOT_ROOM: return "ROOM";
    case CLEVISROOT_FRAME: return "FRAME";
    case CLEVISROOT_SEED: return "SEED";
    case CLEVISROOT_OFFGRID: return "OFFGRID";
    case CLEVISROOT_MONITOR: return "MONITOR";
    case CLEVISROOT_TRELLIS: return "TRELLIS";
    case CLEVISROOT_LABEL: return "LABEL";
    case CLEVISROOT_FULL: return "FULL";
    case CLEVISROOT_RANGE: return "RANGE";
    default: return "UNKNOWN";
    }
}

/* "STRAIGHT", "TURNED", "NEITHER", "CANT_TELL"; "UNKNOWN" for a number that is no clip. Never null. */
static inline const char *clevisroot_clip_name(uint32_t clip)
{
    switch (clip) {
    case CLEVISROOT_CLIP_STRAIGHT: return "STRAIGHT";
    case CLEVISROOT_CLIP_TURNED: return "TURNED";
    case CLEVISROOT_CLIP_NEITHER: return "NEITHER";
    case CLEVISROOT_CLIP_CANT_TELL: return "CANT_TELL";
    default: return "UNKNOWN";
    }
}

#ifdef __cplusplus
}
#endif

#endif

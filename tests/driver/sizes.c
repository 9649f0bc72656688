/*
 * Holds the numbers of include/bagtag.h to those of the library's sources, which tests/library reads there and defines here.
 */
#include "bagtag.h"

_Static_assert(BAGTAG_IMAGE == LIBRARY_IMAGE, "the bytes of an image");
_Static_assert(BAGTAG_RECORD == LIBRARY_RECORD, "the bytes of a record");
_Static_assert(BAGTAG_VERSION == LIBRARY_VERSION, "the version of a record");
_Static_assert(BAGTAG_HEAD == LIBRARY_HEAD, "the bytes of a listing's head");
_Static_assert(BAGTAG_DUMP == LIBRARY_DUMP, "the characters of a dump");
_Static_assert(BAGTAG_PLACES == LIBRARY_PLACES, "the most entries of a log");

_Static_assert(BAGTAG_AT_SCRATCHPAD + 32 == BAGTAG_RECORD, "the scratchpad ends the record");
_Static_assert(BAGTAG_HEAD_PERIOD + 4 == BAGTAG_HEAD, "the period ends the head");

/* How a record of panel.h lies in memory, as the library takes it. For C11 and C++11. */
#include <assert.h>
#include <stdalign.h>
#include <stddef.h>

#include "panel.h"

static_assert(offsetof(bushkalote_row, kind) == 0, "the kind is a record's first byte");
static_assert(offsetof(bushkalote_row, x) == 2, "x begins at a record's third byte");
static_assert(offsetof(bushkalote_row, y) == 4, "y begins at a record's fifth byte");
static_assert(sizeof(bushkalote_row) == 6, "a record has 6 bytes");
static_assert(alignof(bushkalote_row) == 2, "a record is aligned as its x and y are");

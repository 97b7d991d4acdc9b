/* Wrong: a value that the first context makes that wants it. The flag that says so is raised before the value stands, and the other context
   may look between the two. Right with the two stores exchanged.
   Built for 2 by 1 nodes with 1 context and 32 lines. Comes to 1 outcome, 2 traps, stuck no. */
#include "alewife.h"
#include <assert.h>

enum { VALUE = 42 };

LINE static uint32_t is_made;
LINE static uint32_t value;

void program(uint32_t context, uint32_t contexts)
{
    if (!load_word(&is_made)) {
        store_word(&is_made, 1);
        store_word(&value, VALUE);
    }
    assert(load_word(&value) == VALUE);
    print(VALUE);
}

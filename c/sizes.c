/* The headers alone, for each compiler, language and target: their assertions say how many bytes the structs have, as many as those of the
 * library, of which crates/rdm_c/src/sizes.rt has the same numbers proved. Nothing is run: a wrong number is an error of the compiler's. */
#include "felosumay.h"
#include "felosumay_names.h"

/* The greatest image of saved values: c/saved.c saves it. */
FELOSUMAY_ASSERT(FELOSUMAY_MOST_SAVED_BYTES == 35659);

/* The C header alone, and a second time. */
#include "tuffcotton.h"
#include "tuffcotton.h"

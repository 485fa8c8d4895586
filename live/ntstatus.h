/* As the driver kit names it. */
#include "pnp_shim.h"

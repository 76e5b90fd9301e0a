/* What libkaolinsilk.a has, and libkaolinsilk.so has not: see kaolinsilk_host.h.
 * SPDX-License-Identifier: MIT OR Apache-2.0 */
#include "kaolinsilk_host.h"

const char link_it_with_libkaolinsilk_a;

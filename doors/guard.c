/* The safe forms of the doors: each sets IEEE's default floating-point mode around its bare form.
 *
 * A unit of its own, compiled without the host's options: nothing here is a floating-point operation, and no
 * arithmetic of a caller can be moved across a call into it. The doors are SSE code, so MXCSR is the whole mode.
 */
#include <xmmintrin.h>

#include "g7231_bare.h"

/* Round to nearest, subnormals kept, every exception masked. */
#define DEFAULT_MODE 0x1f80u
#define FLAGS 0x3fu

/* The host's flags stay while the door runs: a flag whose exception is masked alters no answer, and clearing one that is
 * set takes longer than the rest of the guard (guard/run --cost). What the host had is put back whole, flags included; a
 * flag set together with its mask cleared stops nothing, only an operation does. */
#define SAFE(name, parameters, arguments)                    \
    uint32_t g7231_##name parameters                         \
    {                                                        \
        const unsigned int mode = _mm_getcsr();              \
        _mm_setcsr(DEFAULT_MODE | (mode & FLAGS));           \
        const uint32_t status = g7231_bare_##name arguments; \
        _mm_setcsr(mode);                                    \
        return status;                                       \
    }

/* What follows is made from include/g7231.h by doors/make guarded. */

/* The fuzz target: each input is a call on which library and twin must agree. A difference stops the fuzzer, which
 * then keeps the input. */
#include "call.h"

#include <stdlib.h>

int LLVMFuzzerTestOneInput(const uint8_t *data, size_t size);

int LLVMFuzzerTestOneInput(const uint8_t *data, size_t size)
{
    struct call call;
    if (decode(data, size, &call) && landed(call.function) && judge(&call) != 0)
        abort();
    return 0;
}

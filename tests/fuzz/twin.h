/* Plain C that decides what the proved library decides, for the fuzzer to be guided by. Its calls are those of
 * include/gusemrak.h under other names. */
#ifndef TWIN_H
#define TWIN_H

#include "gusemrak.h"

gusemrak_answer twin_check_book(const uint8_t *book, size_t n);
gusemrak_answer twin_compile(const uint8_t *book, size_t n, uint8_t *out, size_t room);
gusemrak_answer twin_check_image(const uint8_t *image, size_t n);
gusemrak_answer twin_fallback(const uint8_t *image, size_t n, uint32_t place);
gusemrak_answer twin_level(const uint8_t *image, size_t n, uint32_t place);
gusemrak_answer twin_mark(const uint8_t *image, size_t n, uint32_t place);
gusemrak_answer twin_edge(const uint8_t *image, size_t n, uint32_t place, uint8_t event);
gusemrak_answer twin_step(const uint8_t *image, size_t n, uint32_t place, uint8_t event);
gusemrak_answer twin_run(const uint8_t *image, size_t n, uint32_t place, uint32_t base,
                         const uint8_t *log, size_t nlog, uint8_t *out, size_t room);
gusemrak_answer twin_short_list(const uint8_t *list, size_t n, uint8_t *out, size_t room);
gusemrak_answer twin_part(const uint8_t *log, size_t nlog, uint32_t base, uint32_t end, uint32_t length);
uint8_t twin_group(uint8_t event);

#endif

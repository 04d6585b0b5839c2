/* The inline functions of quay.h as ones that the checker can link. */
#include "quay.h"

uint64_t header_first_image(uint8_t *image, size_t length, uint64_t frames, uint64_t look_ahead, uint64_t fetch_time,
                            const uint64_t *sizes);
uint64_t header_first_image_by_rule(uint8_t *image, size_t length, uint64_t frames, uint64_t look_ahead,
                                    uint64_t fetch_time, const uint64_t *sizes, uint64_t rule,
                                    const uint64_t *expected);
uint64_t header_upgrade_image(uint8_t *image, size_t length, const uint8_t *old, size_t old_length);

uint64_t header_first_image(uint8_t *image, size_t length, uint64_t frames, uint64_t look_ahead, uint64_t fetch_time,
                            const uint64_t *sizes)
{
    return quay_first_image(image, length, frames, look_ahead, fetch_time, sizes);
}

uint64_t header_first_image_by_rule(uint8_t *image, size_t length, uint64_t frames, uint64_t look_ahead,
                                    uint64_t fetch_time, const uint64_t *sizes, uint64_t rule,
                                    const uint64_t *expected)
{
    return quay_first_image_by_rule(image, length, frames, look_ahead, fetch_time, sizes, rule, expected);
}

uint64_t header_upgrade_image(uint8_t *image, size_t length, const uint8_t *old, size_t old_length)
{
    return quay_upgrade_image(image, length, old, old_length);
}

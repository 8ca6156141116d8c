/*
 * The panel written by hand in C from document 01, as the measure for the time
 * of the proved calls. The ten calls do what those of stled325.h do.
 */
#ifndef BASELINE_H
#define BASELINE_H

#include <stddef.h>
#include <stdint.h>

uint32_t baseline_power_up(uint8_t *image, size_t image_len);
uint32_t baseline_tick(uint8_t *image, size_t image_len);
uint32_t baseline_command(uint8_t *image, size_t image_len,
                          const uint8_t *bytes, size_t bytes_len,
                          uint8_t *out, size_t out_len);
uint32_t baseline_key_sample(uint8_t *image, size_t image_len, uint16_t sample);
uint32_t baseline_remote_frame(uint8_t *image, size_t image_len, uint32_t frame);
uint32_t baseline_ready(uint8_t *image, size_t image_len, uint32_t level);
uint32_t baseline_wake_up(uint8_t *image, size_t image_len, uint32_t level);
uint32_t baseline_supply_return(uint8_t *image, size_t image_len, uint32_t seconds);
uint32_t baseline_show(const uint8_t *image, size_t image_len, uint8_t *digits, size_t digits_len);
uint32_t baseline_lines(const uint8_t *image, size_t image_len, uint8_t *lines, size_t lines_len);

#endif

/* The margin kit, for C and what can call C: x86-64 and Arm (aarch64) Linux. hosts/build makes libkit.a and libkit.so.
 *
 * What the caller answers for, since the kit cannot see it:
 * - sheet can be read for sheet_len bytes, currency for currency_len, and report written for report_len bytes; where a length
 *   is 0, any address will do;
 * - report overlaps with neither of the others, and nothing else writes to any of them while the call lasts;
 * - a call takes 203,000 bytes of stack. A thread with less is ended by the operating system, so give one that calls the kit
 *   256 KB or more.
 * The kit keeps nothing between calls: any number of threads may call it at once. It calls memcpy, memmove and memset alone.
 */
#ifndef GRONNHYL_KIT_H
#define GRONNHYL_KIT_H

#include <stddef.h>
#include <stdint.h>

#ifdef __cplusplus
extern "C" {
#endif

/* The quiet report of a sheet, for who reads it: without the K lines whose long, short and margin are all zero. Who counts on
 * a line for every class, as a spreadsheet does, calls brm_margin_full.
 * Accepted: the report's length in bytes, below 65,536, with the report at the start of the buffer and every later byte as it
 * was. Refused: 65,536 * refusal + line, and every byte of the buffer as it was.
 * A report_len of 32,768 bytes is enough for any sheet; with less, every sheet is refused 1. */
uint64_t brm_margin(const uint8_t *sheet, size_t sheet_len, uint8_t *report, size_t report_len);

/* The full report of a sheet: in each currency a K line for every class, by rising class, those of zeros too. Number, buffer
 * and room are as for the quiet report, and so is every refusal. */
uint64_t brm_margin_full(const uint8_t *sheet, size_t sheet_len, uint8_t *report, size_t report_len);

/* Why the margin of a class in a currency is what it is: P, R and B lines. The number and the buffer are as for a report,
 * and so is the room. The currency may be any bytes and the class any number: one that the sheet lacks is refused 13, line 0,
 * after all other refusals. */
uint64_t brm_explain(const uint8_t *sheet, size_t sheet_len, const uint8_t *currency, size_t currency_len,
                     uint64_t class_number, uint8_t *report, size_t report_len);

#ifdef __cplusplus
}
#endif

#endif

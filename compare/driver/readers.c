/*
 * The readers of replies, called in rows: one frame, and all that is asked of it.
 */
#include <string.h>

#include "driver.h"

static uint8_t row(uint64_t function, const uint8_t *frame, size_t len, size_t k, union result *r)
{
    switch (function) {
    case 0:
        return hd_read_check(frame, len, &r[0].used);
    case 1:
        return hd_read_record(frame, len, k, &r[0].byte, &r[1].word, &r[2].byte, &r[3].byte, &r[4].used, &r[5].used, &r[6].byte, &r[7].value);
    case 2:
        return hd_write_check(frame, len, &r[0].used);
    case 3:
        return hd_write_record(frame, len, k, &r[0].byte, &r[1].byte, &r[2].word);
    case 4:
        return hd_configure_check(frame, len, &r[0].used);
    case 5:
        return hd_configure_record(frame, len, k, &r[0].byte, &r[1].byte, &r[2].byte, &r[3].word);
    case 6:
        return hd_configuration_check(frame, len, &r[0].used);
    case 7:
        return hd_configuration_record(frame, len, k, &r[0].byte, &r[1].byte, &r[2].byte, &r[3].word, &r[4].byte, &r[5].word, &r[6].word, &r[7].change);
    case 8:
        return hd_discover_check(frame, len, &r[0].byte, &r[1].used);
    case 9:
        return hd_discover_record(frame, len, k, &r[0].byte, &r[1].word, &r[2].byte);
    case 10:
        return hd_default_response(frame, len, &r[0].byte, &r[1].byte);
    case 11:
        return hd_report_check(frame, len, &r[0].used);
    case 12:
        return hd_report_record(frame, len, k, &r[0].byte, &r[1].word, &r[2].byte, &r[3].used, &r[4].used, &r[5].byte, &r[6].value);
    default:
        end("there is no such reader");
        return 0;
    }
}

uint8_t read_rows(const uint8_t *frame, size_t frame_len, struct row *rows, size_t many)
{
    uint64_t function;
    size_t i, k;

    for (i = 0; i < many; i++) {
        function = rows[i].number;
        k = rows[i].results[0].used;
        memset(rows[i].results, BEFORE, sizeof rows[i].results);
        rows[i].number = row(function, frame, frame_len, k, rows[i].results);
    }
    return HD_OK;
}

/* Compares two small pictures. */
#include <inttypes.h>
#include <stdio.h>
#include <string.h>
#include <v_frame.h>

int main(void) {
    static uint8_t a[48 * 64], b[48 * 64];
    memset(a, 100, sizeof a);
    memset(b, 100, sizeof b);
    b[10 * 64 + 20] = 130; /* row 10, column 20 */

    v_frame_rows all = v_frame_rows_packed(64, 48);
    v_frame_sum sum;
    uint32_t status;
    status = v_frame_squared_errors_u8(&all, a, sizeof a, &all, b, sizeof b, &sum);
    printf("whole: %s, %" PRIu64 "\n", v_frame_status_text(status), sum.low);

    /* 32 by 24 pixels that begin at row 16, column 32 */
    v_frame_rows part = {32, 24, 64};
    size_t first = 16 * 64 + 32, length = sizeof a - first;
    status = v_frame_squared_errors_u8(&part, a + first, length, &part, b + first,
                                       length, &sum);
    printf("part: %s, %" PRIu64 "\n", v_frame_status_text(status), sum.low);

    status = v_frame_squared_errors_u8(&all, a, 100, &all, b, sizeof b, &sum);
    printf("short: %s\n", v_frame_status_text(status));
    return 0;
}

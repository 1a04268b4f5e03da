/* An actuator: it opens a valve if receipts of more than m nodes (generals) show the value (order) that is awaited.

       cc embed/actuator.c embed/arena.c out/libsm_node.a -I embed
       actuator RUNID ORDER < receipts

   RUNID is the run id of the header that was agreed on before the run, in 64 hexadecimal digits of lower case. The
   receipts are those that nodes sent, one behind another. The program prints `open` and ends with status 0, or prints
   `shut` and ends with status 1. Then standard error says why: the status of sm_status.h, and the number of the fault.
   Status 0 there is that of another order.

   No memory is asked of the system: the program has the buffers here and in arena.c. valve_opens is what an actuator of
   your own has. */
#include "sm_node.h"
#include <stdbool.h>
#include <string.h>
#include <unistd.h>

/* More than the receipts of 16 nodes have, of any header. */
enum { MOST_BYTES = 16 * 18000 };

/* Why the valve stays shut. */
static uint32_t status, fault;

/* Whether receipts of the run that is expected show this order and no other one. */
static bool valve_opens(const uint8_t run_id[32], uint32_t order, const uint8_t *receipts, size_t bytes) {
    uint32_t shown;
    status = sm_node_shown(run_id, receipts, bytes, &shown, &fault);
    return status == SM_OK && shown == order;
}

/* Reads standard input to its end. Returns false if a read fails, or if there are too many bytes. */
static bool read_all(uint8_t room[MOST_BYTES], size_t *bytes) {
    for (*bytes = 0; *bytes < MOST_BYTES;) {
        ssize_t more = read(STDIN_FILENO, room + *bytes, MOST_BYTES - *bytes);
        if (more <= 0) return more == 0;
        *bytes += (size_t)more;
    }
    return false;
}

/* The value of a hexadecimal digit, or 16. */
static uint8_t digit_of(char digit) {
    if (digit >= '0' && digit <= '9') return (uint8_t)(digit - '0');
    return digit >= 'a' && digit <= 'f' ? (uint8_t)(digit - 'a' + 10) : 16;
}

/* Whether a word is a run id, which is read. */
static bool is_run_id(const char *word, uint8_t run_id[32]) {
    if (strlen(word) != 64) return false;
    for (size_t at = 0; at < 32; at++) {
        uint8_t high = digit_of(word[2 * at]), low = digit_of(word[2 * at + 1]);
        if (high > 15 || low > 15) return false;
        run_id[at] = (uint8_t)(high << 4 | low);
    }
    return true;
}

/* Whether a word is an order, 0 to 14, which is read. */
static bool is_order(const char *word, uint32_t *order) {
    size_t digits = strspn(word, "0123456789");
    if (digits == 0 || digits > 2 || word[digits] != '\0') return false;
    *order = (uint32_t)(word[0] - '0');
    if (digits == 2) *order = 10 * *order + (uint32_t)(word[1] - '0');
    return *order < SM_ORDERS_MOST;
}

/* Whether the words and standard input open the valve. */
static bool is_opened(int words, char **word) {
    static uint8_t receipts[MOST_BYTES], run_id[32];
    uint32_t order;
    size_t bytes;
    status = SM_MISUSE;
    if (words != 3 || !is_run_id(word[1], run_id) || !is_order(word[2], &order)) return false;
    status = SM_LENGTH;
    return read_all(receipts, &bytes) && valve_opens(run_id, order, receipts, bytes);
}

/* Writes a line. Returns whether all of it was written. */
static bool is_written(int to, const char *line) {
    size_t length = strlen(line);
    return write(to, line, length) == (ssize_t)length;
}

int main(int words, char **word) {
    if (is_opened(words, word)) return is_written(STDOUT_FILENO, "open\n") ? 0 : 1;
    char why[] = "status 0 fault 00\n";
    why[7] = (char)('0' + status);
    why[15] = (char)('0' + fault / 10);
    why[16] = (char)('0' + fault % 10);
    is_written(STDERR_FILENO, why);
    is_written(STDOUT_FILENO, "shut\n");
    return 1;
}

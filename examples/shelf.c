/* shelf.c: a shelf in memory. Parity is put off, two disks are lost, read by recovery and rebuilt. */
#include "shelf.h"

#include <stdio.h>

/* Three data disks, P and Q, two stripes of blocks of 8 bytes; a log of 4 records; a list of 2 slots and 4 places. */
static uint8_t array[(3 + 2) * 2 * 8], records[4 * 8], list[4 * 2 + 16 * 4], blocks[3 * 8];
#define BUFFERS array, sizeof array, records, sizeof records, list, sizeof list

int main(void)
{
    const uint8_t tares[] = "oats 101rye  202bran 303", later[] = "rye  999";
    struct shelf_record fresh = {.geometry = {.d = 3, .s = 2, .b = 8, .l = 4, .h = 2, .e = 4, .parities = 2}};

    struct shelf_answer a = shelf_format(fresh, BUFFERS);
    a = shelf_write(a.shelf, 0, 3, tares, 24, BUFFERS);
    printf("written %zu: mode %zu, %zu listed\n", a.code, a.shelf.mode, a.shelf.listed);
    a = shelf_start(a.shelf, BUFFERS);
    a = shelf_write(a.shelf, 1, 1, later, 8, BUFFERS);
    printf("parity put off %zu: mode %zu, %zu listed\n", a.code, a.shelf.mode, a.shelf.listed);

    a = shelf_fail(a.shelf, 0, BUFFERS);
    a = shelf_fail(a.shelf, 1, BUFFERS);
    memset(array, '?', 2 * 2 * 8); /* all of disks 0 and 1 */
    a = shelf_read(a.shelf, 2, 1, blocks, 8, BUFFERS);
    printf("read %zu: %.8s; of a lost disk: %s\n", a.code, blocks,
           shelf_name(shelf_read(a.shelf, 0, 3, blocks, 24, BUFFERS).code));
    a = shelf_fetch(a.shelf, 0, 3, blocks, sizeof blocks, BUFFERS);
    printf("fetched %zu: %.8s, %.8s, %.8s\n", a.code, blocks, blocks + 8, blocks + 16);

    a = shelf_rebuild(a.shelf, BUFFERS);
    printf("rebuilt %zu: disk 0 has %.8s, disk 1 has %.8s\n", a.code, array, array + 16);
    struct shelf_resynced r = shelf_resync(a.shelf, BUFFERS);
    printf("resync %zu: stripe %zu, mode %zu, %zu listed\n", r.code, r.stripe, r.shelf.mode, r.shelf.listed);
    return a.code != SHELF_OK || r.code != SHELF_OK;
}

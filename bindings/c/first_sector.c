/* SPDX-License-Identifier: MIT */
#include <stdio.h>
#include "imago_disk.h"

int main(int count, char **words)
{
    struct imago_disk disk;
    uint8_t sector[512];
    if (count < 2) return 1;
    if (imago_disk_open(&disk, words[1], IMAGO_FORMAT_QCOW2, imago_disk_beside, NULL) != 0) return 1;
    uint32_t code = imago_disk_pread(&disk, sector, sizeof sector, 0);
    imago_disk_close(&disk);
    return code != 0 || fwrite(sector, 1, sizeof sector, stdout) != sizeof sector;
}

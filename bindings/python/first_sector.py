# SPDX-License-Identifier: MIT
import sys

import imago

with imago.open(sys.argv[1], imago.QCOW2) as disk:
    sys.stdout.buffer.write(disk.pread(512, 0))

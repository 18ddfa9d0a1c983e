# A loop of four frames of 80 by 45 pixels. The red runs to the right, and some of the colours are above their alpha.
import os
import struct

os.mkdir('clips')
with open('clips/bgloop.rclp', 'wb') as file:
    file.write(struct.pack('>4s4HI2H', b'RCLP', 1, 0, 80, 45, 4, 0, 0))
    for frame in range(4):
        for y in range(45):
            for x in range(80):
                alpha = 128 if (x + y) % 16 == 0 else 255
                file.write(bytes([(5 * y + 40 * frame) % 256, 3 * x % 256, (3 * x + 64 * frame) % 256, alpha]))

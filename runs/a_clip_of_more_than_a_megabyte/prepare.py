# Two frames of 600 by 500 pixels: each byte of the first is 3 and each byte of the second is 7.
import os
import struct

os.mkdir('clips')
with open('clips/large.rclp', 'wb') as file:
    file.write(struct.pack('>4s4HI2H', b'RCLP', 1, 0, 600, 500, 2, 0, 0))
    file.write(bytes([3]) * 1_200_000 + bytes([7]) * 1_200_000)

# The input is a clip of three frames that fades from clear to opaque from left to right. Its colours are multiplied by their
# alphas, but for those of the lowest row, which are above them.
import struct

WIDTH, HEIGHT, FRAMES = 32, 18, 3


def pixel(frame, row, column):
    alpha = 255 * column // (WIDTH - 1)
    straight = (15 * row, 255 - 15 * row, 80 * frame + row)
    colours = straight if row == HEIGHT - 1 else [(colour * alpha + 127) // 255 for colour in straight]
    return bytes([*colours, alpha])


frames = b"".join(pixel(frame, row, column) for frame in range(FRAMES) for row in range(HEIGHT) for column in range(WIDTH))
with open("input", "wb") as file:
    file.write(struct.pack(">4s4HI2H", b"RCLP", 1, 0, WIDTH, HEIGHT, FRAMES, 0, 0) + frames)

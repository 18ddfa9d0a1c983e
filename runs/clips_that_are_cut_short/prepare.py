# One pixel of red in one frame, whole as k24.rclp, cut after 0 to 23 bytes, and with one byte more.
import os

clip = bytes.fromhex('52434c50 0001 0000 0001 0001 00000001 0000 0000 0000ffff')
os.mkdir('clips')
for size in range(len(clip) + 1):
    with open(f'clips/k{size:02}.rclp', 'wb') as file:
        file.write(clip[:size])
with open('clips/longer.rclp', 'wb') as file:
    file.write(clip + bytes(1))

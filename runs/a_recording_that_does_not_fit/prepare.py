# A file of 1,073,741,800 bytes, all zero, which takes no room on the disk. A server counts it too, though it is no clip.
with open("clips/large.rclp", "wb") as file:
    file.truncate(1_073_741_800)

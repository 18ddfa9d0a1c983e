# A file of 1,073,741,824 bytes, all zero, which takes no room on the disk. The empty file counts for one byte more.
with open('clips/large.rclp', 'wb') as file:
    file.truncate(1_073_741_824)

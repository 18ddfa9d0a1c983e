import os

os.mkfifo('clips/pipe.rclp')

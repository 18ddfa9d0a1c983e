import os

os.symlink('nothing', 'clips/lost.rclp')

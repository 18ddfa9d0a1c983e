"""Prints and tests what the run of the clip that no tool makes does."""
import os
import runpy

HERE = os.path.dirname(os.path.realpath(__file__))
runpy.run_path(f"{HERE}/../a_clip_made_straight/expect.py", run_name="__main__")

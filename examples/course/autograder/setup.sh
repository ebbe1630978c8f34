#!/bin/bash
# Gradescope runs this once, when it builds the image of the autograder (base: Ubuntu 24.04 or later, for Python 3.11).
# The archive that you upload has this file, run_autograder, course.toml and the wheel of a release.
set -eu
apt-get update
apt-get install -y python3-venv
python3 -m venv /opt/arena
/opt/arena/bin/pip install "$(ls /autograder/source/arena_lab-*.whl)[page]"
ln -sf /opt/arena/bin/arena-lab /usr/local/bin/arena-lab

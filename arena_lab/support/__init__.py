"""What every package uses, and the tools beside the lab: which program there is, which
packages are missing, progress."""

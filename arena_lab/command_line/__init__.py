"""The command line of the lab: arguments that commands share, old spellings, and exit
statuses."""

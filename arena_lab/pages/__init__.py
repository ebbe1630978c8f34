"""Pages on which one watches matches."""

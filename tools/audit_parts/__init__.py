"""The parts of tools/audit: recordings of browsers in, scripts, checks and reports out."""

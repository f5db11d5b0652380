"""The parts of tools/report, which shows and compares the reports that dettrace writes."""

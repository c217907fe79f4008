"""Lists of checks: run, shown as a table, and written in the forms that build servers read."""

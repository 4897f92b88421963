"""How large a table may be, which the program says too: crates/audit_types has it as `MOST_ROWS`."""

MOST_ROWS = 4096

"""What the tests stand on: how programs are run, and how rows are written and played."""

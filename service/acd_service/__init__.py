"""What runs beside the desk of a help line: copies, ticks, records, the gate and the node. Each command of `acdctl` has
a module. Tested, not proved."""
VERSION = "1.22"

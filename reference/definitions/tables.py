"""The six tables, in the order in which they are read."""

Table = str

MACHINE_EVENTS = 'machine_events'
MACHINE_ATTRIBUTES = 'machine_attributes'
TASK_EVENTS = 'task_events'
TASK_CONSTRAINTS = 'task_constraints'
MAPREDUCE_JOBS = 'mapreduce_jobs'
MACHINE_DISK = 'machine_disk'

TABLES_IN_ORDER = (MACHINE_EVENTS, MACHINE_ATTRIBUTES, TASK_EVENTS, TASK_CONSTRAINTS, MAPREDUCE_JOBS, MACHINE_DISK)
# These two must be there; another table that is missing is empty.
NEEDED = (MACHINE_EVENTS, TASK_EVENTS)

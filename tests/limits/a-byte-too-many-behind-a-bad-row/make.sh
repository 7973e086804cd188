: >machine_events.csv
{ echo x; head -c 268435455 /dev/zero | tr '\0' '\n'; } >task_events.csv

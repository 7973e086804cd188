: >machine_events.csv
head -c 268435457 /dev/zero | tr '\0' '\n' >task_events.csv

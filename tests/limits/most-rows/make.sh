: >machine_events.csv
: >task_events.csv
yes 1,1 | head -n 2000000 >mapreduce_jobs.csv

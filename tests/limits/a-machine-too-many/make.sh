: >task_events.csv
seq 65537 | sed 's/.*/0,&,0,p,1,1/' >machine_events.csv

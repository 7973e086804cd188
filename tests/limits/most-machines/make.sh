: >task_events.csv
seq 65536 | sed 's/.*/0,&,0,p,1,1/' >machine_events.csv

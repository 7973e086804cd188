yes 0,1,0,p,1,1 | head -n 1 >machine_events.csv
yes 0,1,n,v,0 | head -n 500000 >machine_attributes.csv
yes 0,,10,0,,0,u,0,1,0,0,0,0 | head -n 300000 >task_events.csv
yes 0,10,0,0,n,v | head -n 300000 >task_constraints.csv
yes 1,1 | head -n 500000 >mapreduce_jobs.csv
yes 1,1 | head -n 400000 >machine_disk.csv

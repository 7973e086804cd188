: >machine_events.csv
echo '0,,7,0,,0,,0,1,0.5,0.25,,0' >task_events.csv
head -c 20000000 /dev/zero | tr '\0' ',' >>task_events.csv

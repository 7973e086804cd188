for machine in $(seq 100); do
    [ "$machine" = 50 ] && size=1 || size=0.5
    echo "0,$machine,0,p,$size,$size"
done >machine_events.csv
for job in $(seq 8); do
    seq 0 999 | sed "s/.*/0,,$job,&,,0,u,0,1,0.9,0.1,,0/"
done >task_events.csv

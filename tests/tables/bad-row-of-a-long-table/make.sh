printf '0,1,0,p,0.5,0.5\n' >machine_events.csv
awk 'BEGIN { for (n = 0; n < 150000; n++) print n == 90000 ? "0,1,\"a,\nb\",7,0" : n == 120000 ? "0,1,name,7,2" : "0,1,name," n ",0" }' >machine_attributes.csv
: >task_events.csv

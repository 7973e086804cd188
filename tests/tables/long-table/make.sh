printf '0,1,0,p,0.5,0.5\n' >machine_events.csv
awk 'BEGIN { printf "\357\273\277"; for (n = 0; n < 150000; n++) printf "%s0,1,name,%d,0", n == 0 ? "" : "\r\n", n }' >machine_attributes.csv
printf '0,,10,0,,0,u,0,1,0.25,0.25,,0\n0,,10,1,,0,u,0,1,0.25,0.25,,0\n' >task_events.csv
printf '0,10,0,0,name,149999\n0,10,1,0,name,75000\n' >task_constraints.csv

ln -s not-mounted/task_constraints.csv task_constraints.csv

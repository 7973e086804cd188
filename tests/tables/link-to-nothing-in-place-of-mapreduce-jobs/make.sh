ln -s not-mounted/mapreduce_jobs.csv mapreduce_jobs.csv

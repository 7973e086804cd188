ln -s not-mounted/machine_disk.csv machine_disk.csv

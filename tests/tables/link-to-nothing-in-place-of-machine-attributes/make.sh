ln -s not-mounted/machine_attributes.csv machine_attributes.csv

ln -s not-mounted.db k.db

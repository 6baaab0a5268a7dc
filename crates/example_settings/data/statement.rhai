let port = 80;
port += 1;

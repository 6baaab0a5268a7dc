const port = 8000 + 80;

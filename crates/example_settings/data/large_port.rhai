const BASE = 8000;
const port = BASE * 10;

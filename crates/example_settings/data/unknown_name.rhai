const host = "localhost";
const port = bsae + 80;

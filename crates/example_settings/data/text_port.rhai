const host = "localhost";
const port = "80" + "80";

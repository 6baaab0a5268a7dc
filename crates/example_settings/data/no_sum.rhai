const host = "localhost";
const port = 9223372036854775807 + 1;

// Where the server is found.
const DOMAIN = "example.org";
const host = "www." + DOMAIN;

// The tests have ports of their own, from 9000 on.
const IS_TEST = true;
const port = if IS_TEST { 9000 + tens(8) } else { 443 };

const is_open = !IS_TEST || port > 9000;

fn tens(count) { count * 10 }

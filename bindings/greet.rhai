//! Greets whoever is there.
const DEBUG = false;
const PREFIX = "hello, ";

/// What is said to one of them.
fn greeting(name) {
    if name == "" {
        return "hello?";
    }
    "to " + name
}

for name in ["world", "moon"] {
    print("hello, " + greeting(name));
}

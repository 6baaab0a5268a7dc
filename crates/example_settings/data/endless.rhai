const host = "localhost"; const is_open = ask(1);

fn ask(count) { while true {} }

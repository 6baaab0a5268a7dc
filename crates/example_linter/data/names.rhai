const LIMIT = 10;

fn bounded(number) {
    if number > LIMIT { return LIMIT; }
    number
}

let count = 3;
print(bounded(cuont));

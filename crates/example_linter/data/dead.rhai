fn first(items) {
    for item in items {
        return item;
        print("found");
    }
    if false { print("none"); }
    throw "no items";
}

print(eval("first([1])"));
let step = 2;
let next = |number| number + step;

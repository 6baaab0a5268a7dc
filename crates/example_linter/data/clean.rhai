/// The sum of what is in a list.
fn sum(items) {
    let total = 0;
    for item in items { total += item; }
    total
}

print(sum([1, 2, 3]));

let sizes = [1, 2, 3;
print(sizes);

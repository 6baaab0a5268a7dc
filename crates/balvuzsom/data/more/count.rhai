let n = 1 + 1;
print(n);

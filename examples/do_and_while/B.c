int f(int n) {
    int i = 1;
    while (i < n) i++;
    return i;
}

int f(int a) {
    if (a == 1000) return 0;
    return a;
}

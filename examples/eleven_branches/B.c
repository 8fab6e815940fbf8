int f(int a) {
    if (a > 0) return 11;
    return 0;
}

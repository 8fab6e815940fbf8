int f(int a) {
    if (a > 0) return 9;
    return 0;
}

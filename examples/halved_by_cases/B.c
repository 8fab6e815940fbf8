int f(int a) {
    if (a < 0) return -((0 - a) / 2);
    return a / 2;
}

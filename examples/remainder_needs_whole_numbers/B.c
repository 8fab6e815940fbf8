int f(int a) {
    return a - a / 2 * 2;
}

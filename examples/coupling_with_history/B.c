int f(int a) {
    return 2 * a;
}

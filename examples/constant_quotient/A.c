int f(int a) {
    return -7 / 2;
}

int f(int a) {
    return -3;
}

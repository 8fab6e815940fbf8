int f(int a) {
    return 9223372036854775807;
}

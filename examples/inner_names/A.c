int f(int a) {
    int x = a;
    {
        int x = 1;
        x = 5;
    }
    return x;
}

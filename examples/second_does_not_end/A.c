int f(int x) {
  return 0 * x * x;
}

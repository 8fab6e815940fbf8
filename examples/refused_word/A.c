int f(int a) {
  float b;
  return a;
}

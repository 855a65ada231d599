il 1
na x = 0;
atomic f = 0;
fn main() {
  reg a, b;
  a = load x;
  b = a + 1;
  return 0;
}
thread main();

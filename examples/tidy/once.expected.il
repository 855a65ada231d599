il 1
na x = 0;
atomic f = 0;
fn main() {
  reg a, b;
  a = load x;
  skip;
  return 0;
}
thread main();

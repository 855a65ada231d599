il 1
na x = 0;
atomic f = 0;
fn main() {
  reg a;
  a = 3;
  store x, a;
  print a;
  return 0;
}
thread main();

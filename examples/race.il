il 1
na x = 0;
fn main() {
  store x, 1;
  return 0;
}
thread main();
thread main();

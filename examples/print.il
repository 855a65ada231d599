il 1
fn main() {
  print 7;
  return 0;
}
thread main();

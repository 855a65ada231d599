il 2
na data = 0;
fn taking() {
  store data, 1;
  fence acq;
  store data, 2;
  return 0;
}
fn giving() {
  store data, 1;
  fence rel;
  store data, 2;
  return 0;
}
thread taking();
thread giving();

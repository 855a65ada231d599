# Message passing by fences: a release fence before the relaxed store, an acquire fence after the relaxed load.
il 2
na data = 0;
atomic flag = 0;
fn send() {
  store data, 5;
  fence rel;
  store rlx flag, 1;
  return 0;
}
fn receive() {
  reg seen, got;
  seen = load rlx flag;
  if seen {
    fence acq;
    got = load data;
    print got;
  }
  return 0;
}
thread send();
thread receive();

# Message passing with the acquire fence left out: what the message hands on is got, but not yet respected.
il 2
na data = 0;
atomic flag = 0;
fn send() {
  store data, 5;
  fence rel;
  store rlx flag, 1;
  return 0;
}
fn receive() {
  reg seen, got;
  seen = load rlx flag;
  if seen {
    got = load data;
    print got;
  }
  return 0;
}
thread send();
thread receive();

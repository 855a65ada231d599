# Message passing with the release fence left out: the message hands on nothing, and the read of the data is a race.
il 2
na data = 0;
atomic flag = 0;
fn send() {
  store data, 5;
  store rlx flag, 1;
  return 0;
}
fn receive() {
  reg seen, got;
  seen = load rlx flag;
  if seen {
    fence acq;
    got = load data;
    print got;
  }
  return 0;
}
thread send();
thread receive();

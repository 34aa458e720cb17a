// Sixty-four bodies that compute and send one message each: what several workers have to share.
class Countdown {
  public Countdown(int n) { left(n); }
  public async Done() & async left(int n) { if (n == 1) over(); else left(n - 1); }
  public void Wait() & async over() { }
}
class Side {
  public async Sum(int n, Countdown c) {
    int i = 0;
    int s = 0;
    while (i < n) { s = s + i * 3 % 7; i = i + 1; }
    c.Done();
  }
}
class Program {
  static void Main() {
    Countdown c = new Countdown(64);
    Side s = new Side();
    int i = 0;
    while (i < 64) { s.Sum(8000, c); i = i + 1; }
    c.Wait();
    Console.WriteLine("done");
  }
}

// Four bodies, each with a buffer of its own: a message, then a call that takes it.
class Buffer { public int Get() & public async Put(int v) { return v; } }
class Countdown {
  public Countdown(int n) { left(n); }
  public async Done() & async left(int n) { if (n == 1) over(); else left(n - 1); }
  public void Wait() & async over() { }
}
class Side {
  public async Run(int n, Countdown c) {
    Buffer b = new Buffer();
    int i = 0;
    while (i < n) { b.Put(i); i = b.Get() + 1; }
    c.Done();
  }
}
class Program {
  static void Main() {
    Countdown c = new Countdown(4);
    Side s = new Side();
    s.Run(3900, c); s.Run(3900, c); s.Run(3900, c); s.Run(3900, c);
    c.Wait();
    Console.WriteLine("done");
  }
}

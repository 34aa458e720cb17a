// A buffer of two places: four bodies put numbers into it, four others take them out and add them up.
class Buffer {
  public Buffer() { empty(); empty(); }
  public void Put(int v) & async empty() { full(v); }
  public int Get() & async full(int v) { empty(); return v; }
}
class Total {
  public Total(int n) { sum(0, n); }
  public async Add(int v) & async sum(int s, int n) { if (n == 1) done(s + v); else sum(s + v, n - 1); }
  public int Wait() & async done(int s) { return s; }
}
class Side {
  public async Produce(Buffer b, int n) { int i = 0; while (i < n) { i = i + 1; b.Put(i); } }
  public async Consume(Buffer b, int n, Total t) {
    int i = 0;
    int s = 0;
    while (i < n) { i = i + 1; s = s + b.Get(); }
    t.Add(s);
  }
}
class Program {
  static void Main() {
    Buffer b = new Buffer();
    Total t = new Total(4);
    Side d = new Side();
    int i = 0;
    while (i < 4) { d.Produce(b, 2000); d.Consume(b, 2000, t); i = i + 1; }
    Console.WriteLine(t.Wait());
  }
}

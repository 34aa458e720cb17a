// A value that is computed while its reader goes on. Get waits for it, and may be asked again.
class Future {
  public async Give(int v) { value(v); }
  public int Get() & async value(int v) { value(v); return v; }
}

class Worker {
  public async Square(int n, Future f) { f.Give(n * n); }
}

class Program {
  static void Main() {
    Worker w = new Worker();
    Future a = new Future();
    Future b = new Future();
    w.Square(7, a);
    w.Square(9, b);
    Console.WriteLine("asked");
    Console.WriteLine(a.Get() + b.Get());
    Console.WriteLine(b.Get());
  }
}

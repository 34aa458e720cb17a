// A lock of readers and writers, whose state is one message: eight bodies read and write by it, each three times as often reading.
class Lock {
  public Lock() { free(); }
  public void Read() & async free() { readers(1); }
  public void Read() & async readers(int n) { readers(n + 1); }
  public void DoneReading() & async readers(int n) { if (n == 1) free(); else readers(n - 1); }
  public void Write() & async free() { }
  public void DoneWriting() { free(); }
}
class Countdown {
  public Countdown(int n) { left(n); }
  public async Done() & async left(int n) { if (n == 1) over(); else left(n - 1); }
  public void Wait() & async over() { }
}
class Side {
  public async Use(Lock k, int n, Countdown c) {
    int i = 0;
    while (i < n) {
      k.Read(); k.DoneReading();
      k.Read(); k.DoneReading();
      k.Read(); k.DoneReading();
      k.Write(); k.DoneWriting();
      i = i + 1;
    }
    c.Done();
  }
}
class Program {
  static void Main() {
    Lock k = new Lock();
    Countdown c = new Countdown(8);
    Side s = new Side();
    int i = 0;
    while (i < 8) { s.Use(k, 250, c); i = i + 1; }
    c.Wait();
    Console.WriteLine("done");
  }
}

// A lock of readers and a writer in which a writer that waits is not overtaken: all come in by one door, and who stands in it
// keeps it until it has the lock.
class FairLock {
  public FairLock() { door(); free(); }
  public void Read() { Door(); Share(); door(); }
  public void Write() { Door(); Exclude(); door(); }
  public void DoneReading() & async readers(int n) {
    if (n == 1) free(); else readers(n - 1);
  }
  public void DoneWriting() { free(); }
  void Door() & async door() { }
  void Share() & async free() { readers(1); }
  void Share() & async readers(int n) { readers(n + 1); }
  void Exclude() & async free() { }
}

class Tally {
  public Tally(int n) { left(n, 0); }
  public async Add(int v) & async left(int n, int sum) {
    if (n == 1) over(sum + v); else left(n - 1, sum + v);
  }
  public int Wait() & async over(int sum) { return sum; }
}

class Users {
  public async Reader(FairLock k, Tally t) { k.Read(); k.DoneReading(); t.Add(1); }
  public async Writer(FairLock k, Tally t) { k.Write(); k.DoneWriting(); t.Add(10); }
}

class Program {
  static void Main() {
    FairLock k = new FairLock();
    Tally t = new Tally(5);
    Users u = new Users();
    u.Reader(k, t); u.Reader(k, t); u.Writer(k, t); u.Reader(k, t); u.Writer(k, t);
    Console.WriteLine(t.Wait());
  }
}

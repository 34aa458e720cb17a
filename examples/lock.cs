// A lock that many readers or one writer hold.
// Its state is one message that waits: free(), or readers(n); while a writer holds it, neither.
class Lock {
  public Lock() { free(); }
  public void Read() & async free() { readers(1); }
  public void Read() & async readers(int n) { readers(n + 1); }
  public void DoneReading() & async readers(int n) {
    if (n == 1) free(); else readers(n - 1);
  }
  public void Write() & async free() { }
  public void DoneWriting() { free(); }
}

// Counts down, and lets go who waits for the last.
class Countdown {
  public Countdown(int n) { left(n); }
  public async Done() & async left(int n) {
    if (n == 1) over(); else left(n - 1);
  }
  public void Wait() & async over() { }
}

class Users {
  public async Reader(Lock lock_, Countdown c) { lock_.Read(); lock_.DoneReading(); c.Done(); }
  public async Writer(Lock lock_, Countdown c) { lock_.Write(); lock_.DoneWriting(); c.Done(); }
}

class Program {
  static void Main() {
    Lock l = new Lock();
    Countdown c = new Countdown(5);
    Users u = new Users();
    u.Reader(l, c); u.Writer(l, c); u.Reader(l, c); u.Writer(l, c); u.Reader(l, c);
    c.Wait();
    Console.WriteLine("five have been in");
  }
}

// A semaphore: as many may be in as there are messages free().
class Semaphore {
  public Semaphore(int places) {
    while (places > 0) { free(); places = places - 1; }
  }
  public void Enter() & async free() { }
  public void Leave() { free(); }
}

class Count {
  public Count(int n) { left(n); }
  public async Done() & async left(int n) { if (n == 1) over(); else left(n - 1); }
  public void Wait() & async over() { }
}

class Worker {
  public async Work(Semaphore s, Count c) { s.Enter(); s.Leave(); c.Done(); }
}

class Program {
  static void Main() {
    Semaphore s = new Semaphore(2);
    Count c = new Count(6);
    Worker w = new Worker();
    int i = 0;
    while (i < 6) { w.Work(s, c); i = i + 1; }
    c.Wait();
    Console.WriteLine("six have worked, two at a time");
  }
}

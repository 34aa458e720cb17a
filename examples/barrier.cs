// A barrier of three: each who arrives waits until all three are there. All three arrivals meet in one chord.
class Barrier {
  public void First() & public async second(Reply b) & public async third(Reply c) {
    b.Go();
    c.Go();
  }
}

// What one who came by a message waits on.
class Reply {
  public async Go() { gone(); }
  public void Wait() & async gone() { }
}

class Runner {
  public async Second(Barrier k, Reply mine, Reply end) { k.second(mine); mine.Wait(); end.Go(); }
  public async Third(Barrier k, Reply mine, Reply end) { k.third(mine); mine.Wait(); end.Go(); }
}

class Program {
  static void Main() {
    Barrier k = new Barrier();
    Runner r = new Runner();
    Reply b = new Reply();
    Reply c = new Reply();
    r.Second(k, new Reply(), b);
    r.Third(k, new Reply(), c);
    k.First();
    b.Wait();
    c.Wait();
    Console.WriteLine("all three went on");
  }
}

// Santa sleeps until nine reindeer or three elves are there. Each kind counts itself in one message; the last of a group sends
// the message that wakes him.
class Santa {
  public Santa() { reindeer(0); elves(0); }
  public async Back() & async reindeer(int n) {
    if (n == 8) { reindeer(0); sleigh(); } else reindeer(n + 1);
  }
  public async Ask() & async elves(int n) {
    if (n == 2) { elves(0); meeting(); } else elves(n + 1);
  }
  public int Wake() & async sleigh() { return 1; }
  public int Wake() & async meeting() { return 0; }
}

class Folk {
  public async Reindeer(Santa s) { s.Back(); }
  public async Elf(Santa s) { s.Ask(); }
}

class Program {
  static void Main() {
    Santa s = new Santa();
    Folk f = new Folk();
    int i = 0;
    while (i < 9) { f.Reindeer(s); f.Elf(s); i = i + 1; }
    int journeys = 0;
    i = 0;
    while (i < 4) { journeys = journeys + s.Wake(); i = i + 1; }
    Console.WriteLine(journeys + " journey and " + (4 - journeys) + " meetings");
  }
}

// Santa sleeps until nine reindeer or three elves are there: eighteen bodies come back 600 times each, and he is woken for 600 journeys and 1,800 meetings.
class Santa {
  public Santa() { reindeer(0); elves(0); }
  public async Back() & async reindeer(int n) { if (n == 8) { reindeer(0); sleigh(); } else reindeer(n + 1); }
  public async Ask() & async elves(int n) { if (n == 2) { elves(0); meeting(); } else elves(n + 1); }
  public int Wake() & async sleigh() { return 1; }
  public int Wake() & async meeting() { return 0; }
}
class Folk {
  public async Reindeer(Santa s, int n) { int i = 0; while (i < n) { s.Back(); i = i + 1; } }
  public async Elf(Santa s, int n) { int i = 0; while (i < n) { s.Ask(); i = i + 1; } }
}
class Program {
  static void Main() {
    Santa s = new Santa();
    Folk f = new Folk();
    int i = 0;
    while (i < 9) { f.Reindeer(s, 600); f.Elf(s, 600); i = i + 1; }
    int journeys = 0;
    i = 0;
    while (i < 2400) { journeys = journeys + s.Wake(); i = i + 1; }
    Console.WriteLine(journeys);
  }
}

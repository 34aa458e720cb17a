// Three philosophers and three forks. A fork that lies on the table is a message to the table, and one chord takes both forks
// of a philosopher at once, so none holds one and waits for the other.
class Table {
  public Table() { a(); b(); c(); }
  public void TakeAB() & async a() & async b() { }
  public void TakeBC() & async b() & async c() { }
  public void TakeCA() & async c() & async a() { }
  public void PutAB() { a(); b(); }
  public void PutBC() { b(); c(); }
  public void PutCA() { c(); a(); }
}

class Dinner {
  public Dinner(int n) { left(n); }
  public async Ate() & async left(int n) { if (n == 1) over(); else left(n - 1); }
  public void Wait() & async over() { }
}

class Philosopher {
  public async One(Table t, Dinner d) { int n = 0; while (n < 3) { t.TakeAB(); t.PutAB(); d.Ate(); n = n + 1; } }
  public async Two(Table t, Dinner d) { int n = 0; while (n < 3) { t.TakeBC(); t.PutBC(); d.Ate(); n = n + 1; } }
  public async Three(Table t, Dinner d) { int n = 0; while (n < 3) { t.TakeCA(); t.PutCA(); d.Ate(); n = n + 1; } }
}

class Program {
  static void Main() {
    Table t = new Table();
    Dinner d = new Dinner(9);
    Philosopher p = new Philosopher();
    p.One(t, d);
    p.Two(t, d);
    p.Three(t, d);
    d.Wait();
    Console.WriteLine("nine meals");
  }
}

// Three stages that are joined by cells of one place: numbers, their squares, and their sum.
class Cell {
  public Cell() { empty(); }
  public void Put(int v) & async empty() { full(v); }
  public int Get() & async full(int v) { empty(); return v; }
}

class Stage {
  public async Numbers(int n, Cell output) {
    int i = 1;
    while (i <= n) { output.Put(i); i = i + 1; }
  }
  public async Squares(int n, Cell input, Cell output) {
    while (n > 0) { int v = input.Get(); output.Put(v * v); n = n - 1; }
  }
}

class Program {
  static void Main() {
    Cell a = new Cell();
    Cell b = new Cell();
    Stage s = new Stage();
    s.Numbers(10, a);
    s.Squares(10, a, b);
    int i = 0;
    int sum = 0;
    while (i < 10) { sum = sum + b.Get(); i = i + 1; }
    Console.WriteLine(sum);
  }
}

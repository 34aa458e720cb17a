class Buffer {
  public string Get() & public async Put(string s) { return s; }
}
class Program {
  static void Main() {
    Buffer b = new Buffer();
    b.Put("hi");
    Console.WriteLine(b.Get());
  }
}
